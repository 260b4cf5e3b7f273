//! Four hosts that make requests at random, and the book of what they were told.

use check::book::{Book, Change, FIRST, Objects};
use check::rng::Rng;
use store::hex;

use crate::chip::BLOCK;

/// Few enough to be overwritten often, with room for fewer of the longest values than this.
const IDS: usize = 24;

#[derive(Clone, Debug)]
pub enum Request {
    Put(usize, u8, Vec<u8>),
    Delete(usize, u8),
    Commit(usize),
    Abort(usize),
    Get(u8),
    Log,
    Format,
}

impl Request {
    pub fn random(rng: &mut Rng) -> Request {
        let (host, id) = (rng.below(4), rng.below(IDS) as u8);
        match rng.below(100) {
            0..55 => Request::Put(host, id, value(rng)),
            55..62 => Request::Delete(host, id),
            62..85 => Request::Commit(host),
            85..90 => Request::Abort(host),
            90..97 => Request::Get(id),
            _ => Request::Log,
        }
    }

    /// As a person types it.
    pub fn typed(&self) -> String {
        match self {
            Request::Put(host, id, value) => format!("put {host} {id} {}", shown(value)),
            Request::Delete(host, id) => format!("delete {host} {id}"),
            Request::Commit(host) => format!("commit {host}"),
            Request::Abort(host) => format!("abort {host}"),
            Request::Get(id) => format!("get {id}"),
            Request::Log => "log".to_string(),
            Request::Format => "format yes".to_string(),
        }
    }

    /// How the board's answer must begin, by the book alone.
    pub fn expected(&self, book: &Book) -> String {
        let room = |host: &usize, frame: usize, spare: usize| match () {
            _ if book.pending(*host, FIRST) + frame > BLOCK / 2 => "12 host full: ",
            _ if book.claimed(FIRST) + frame + spare + 6 * book.open(*host) > BLOCK => "7 no room: ",
            _ => "0 done",
        };
        match self {
            Request::Put(host, _, value) => room(host, 8 + value.len(), 14).to_string(),
            Request::Delete(host, _) => room(host, 8, 0).to_string(),
            Request::Commit(_) | Request::Abort(_) => "0 done".to_string(),
            Request::Get(id) => match book.objects.get(id) {
                Some(value) => format!("0 done: {}", shown(value)),
                None => "8 no object: ".to_string(),
            },
            Request::Log => "0 done: time ".to_string(),
            Request::Format => "format: 0 done, 14 steps".to_string(),
        }
    }

    /// The board has said that it is done.
    pub fn note(&self, book: &mut Book) {
        match self {
            Request::Put(host, id, value) => book.lists[*host].push(Change::Put(*id, value.clone())),
            Request::Delete(host, id) => book.lists[*host].push(Change::Delete(*id)),
            Request::Abort(host) => book.lists[*host].clear(),
            Request::Commit(host) => {
                book.objects = book.committed(*host);
                book.lists[*host].clear();
            }
            Request::Format => *book = Book::default(),
            Request::Get(_) | Request::Log => {}
        }
    }

    /// The objects if it took effect, where that is another thing than before.
    pub fn outcome(&self, book: &Book) -> Option<Objects> {
        match self {
            Request::Commit(host) => Some(book.committed(*host)),
            Request::Format => Some(Objects::new()),
            _ => None,
        }
        .filter(|objects| *objects != book.objects)
    }
}

fn value(rng: &mut Rng) -> Vec<u8> {
    let (least, most) = rng.pick(&[(0, 8), (0, 120), (200, 240), (240, 240)]);
    let len = least + rng.below(most - least + 1);
    if rng.once_in(2) { rng.bytes(len) } else { (0..len).map(|_| b' ' + rng.below(95) as u8).collect() }
}

/// A value as the board prints it and takes it.
pub fn shown(value: &[u8]) -> String {
    if value.is_empty() {
        return "-".to_string();
    }
    if !value.iter().all(|byte| (b' '..=b'~').contains(byte)) {
        return hex::show(value);
    }
    let text = String::from_utf8(value.to_vec()).expect("ASCII");
    format!("\"{}\"", text.replace('\\', "\\\\").replace('"', "\\\""))
}

/// What `list` prints of these objects.
pub fn listed(objects: &Objects) -> Vec<String> {
    let lines = objects.iter().map(|(id, value)| format!("{id} = {}", shown(value)));
    lines.chain(["0 done".to_string()]).collect()
}
