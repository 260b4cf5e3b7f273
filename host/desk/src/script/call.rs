//! The calls that a script may make.

use super::Back;
use super::word::{Word, Words};
use crate::board::{BLOCKS, Board};
use crate::input::{self, LARGEST};
use crate::say;
use std::fs;
use store::message::{self, ABORT, COMMIT, DELETE, LOG, PAGE, PUT, READ};
use store::{Answer, Head, Idle, Store};

type Made = Result<Back, String>;

pub struct Call<S: Store> {
    pub name: &'static str,
    /// The words that go with it, in brackets what may be left out; dots stand behind one that may come again.
    pub takes: &'static str,
    make: fn(&mut Board<S>, &[Word]) -> Made,
}

impl<S: Store> Call<S> {
    pub const ALL: [Call<S>; 23] = [
        Call { name: "new", takes: "LEN [BLOCKS]", make: new },
        Call { name: "image", takes: "HEX [BLOCKS]", make: image },
        Call { name: "load", takes: "FILE [BLOCKS]", make: load },
        Call { name: "blocks", takes: "BLOCKS", make: blocks },
        Call { name: "save", takes: "FILE", make: save },
        Call { name: "mount", takes: "", make: mount },
        Call { name: "format", takes: "", make: |board, _| answer(board.format()) },
        Call { name: "step", takes: "[N]", make: step },
        Call { name: "run", takes: "", make: run },
        Call { name: "cut-erase", takes: "MASKHEX", make: cut_erase },
        Call { name: "req", takes: "HOST HEX LEN", make: request },
        Call { name: "read", takes: "HOST HEX", make: read },
        Call { name: "put", takes: "HOST ID VALUE", make: put },
        Call { name: "delete", takes: "HOST ID", make: delete },
        Call { name: "commit", takes: "HOST", make: |board, words| ask(board, &words[0], COMMIT, &[]) },
        Call { name: "abort", takes: "HOST", make: |board, words| ask(board, &words[0], ABORT, &[]) },
        Call { name: "get", takes: "HOST ID", make: get },
        Call { name: "log", takes: "HOST", make: log },
        Call { name: "dump", takes: "", make: dump },
        Call { name: "record", takes: "", make: record },
        Call { name: "idle", takes: "LEN HALF END [FIELD]..", make: idle },
        Call { name: "unmount", takes: "", make: unmount },
        Call { name: "poke", takes: "OFFSET HEX", make: poke },
    ];

    /// Makes the call with the words that follow its name on the line.
    pub fn make(&self, board: &mut Board<S>, words: Words) -> Made {
        let takes = self.takes.split_whitespace();
        let least = takes.clone().filter(|word| !word.starts_with('[')).count();
        let most = if self.takes.ends_with("..") { usize::MAX } else { takes.count() };
        let words: Vec<Word> = words.take(most.saturating_add(1)).collect::<Result<_, _>>()?;
        if (least..=most).contains(&words.len()) {
            return (self.make)(board, &words);
        }
        Err(match self.takes {
            "" => format!("{} stands alone", self.name),
            takes => format!("{} goes with {takes}", self.name),
        })
    }
}

fn answer(answer: Answer) -> Made {
    Ok(Back::Answer(answer, String::new()))
}

/// The number of blocks that a word gives, any that a call can be told.
fn number_of_blocks(word: Option<&Word>) -> Result<u8, String> {
    word.map_or(Ok(BLOCKS), Word::byte)
}

fn new<S: Store>(board: &mut Board<S>, words: &[Word]) -> Made {
    let (length, blocks) = (words[0].number(0, LARGEST)?, number_of_blocks(words.get(1))?);
    *board = Board::new(board.store, vec![0xFF; length], blocks);
    Ok(Back::Ok)
}

fn image<S: Store>(board: &mut Board<S>, words: &[Word]) -> Made {
    *board = Board::new(board.store, words[0].bytes()?, number_of_blocks(words.get(1))?);
    Ok(Back::Ok)
}

/// Later calls are told another number; image and record stay.
fn blocks<S: Store>(board: &mut Board<S>, words: &[Word]) -> Made {
    board.blocks = words[0].byte()?;
    Ok(Back::Ok)
}

fn load<S: Store>(board: &mut Board<S>, words: &[Word]) -> Made {
    let (path, blocks) = (words[0].file()?, number_of_blocks(words.get(1))?);
    let failed = |why: String| format!("{}: {why}", words[0].said());
    let file = input::open(path).map_err(failed)?;
    let image = input::whole(file, LARGEST).map_err(|error| failed(input::why(&error)))?;
    if image.len() > LARGEST {
        return Err(failed(format!("more than {LARGEST} bytes")));
    }
    *board = Board::new(board.store, image, blocks);
    Ok(Back::Ok)
}

fn save<S: Store>(board: &mut Board<S>, words: &[Word]) -> Made {
    let path = words[0].file()?;
    fs::write(path, &board.image).map_err(|error| format!("{}: {}", words[0].said(), input::why(&error)))?;
    Ok(Back::Ok)
}

/// Refused with 3 it says where the image broke.
fn mount<S: Store>(board: &mut Board<S>, _: &[Word]) -> Made {
    let answer = board.mount();
    let fault = if answer == Answer::FOREIGN { board.fault() } else { None };
    Ok(Back::Answer(answer, fault.map_or(String::new(), |fault| fault.to_string())))
}

fn step<S: Store>(board: &mut Board<S>, words: &[Word]) -> Made {
    let most = words.first().map_or(Ok(1), |word| word.number(1, usize::MAX))?;
    answer(board.store.run(&mut board.image, board.blocks, &mut board.record, most).0)
}

fn run<S: Store>(board: &mut Board<S>, _: &[Word]) -> Made {
    let (answer, steps) = board.run();
    Ok(Back::Answer(answer, format!("steps={steps}")))
}

fn cut_erase<S: Store>(board: &mut Board<S>, words: &[Word]) -> Made {
    let mask = words[0].bytes()?;
    if board.cut_erase(&mask) { Ok(Back::Ok) } else { Err("the next step is no erase".to_string()) }
}

fn request<S: Store>(board: &mut Board<S>, words: &[Word]) -> Made {
    let (host, message) = (words[0].byte()?, words[1].bytes()?);
    let mut reply = vec![0; words[2].number(0, LARGEST)?];
    let answer = board.request(host, &message, &mut reply);
    let written = reply.iter().any(|byte| *byte != 0);
    let fields = if written { format!("reply={}", say::bytes(&reply)) } else { String::new() };
    Ok(Back::Answer(answer, fields))
}

fn read<S: Store>(board: &mut Board<S>, words: &[Word]) -> Made {
    match board.read(words[0].byte()?, &words[1].bytes()?) {
        (Answer::DONE, stretch) => {
            Ok(Back::Answer(Answer::DONE, format!("at={} len={}", stretch.at, stretch.len)))
        }
        (refusal, _) => answer(refusal),
    }
}

/// A request in words, of which only the log writes a reply.
fn ask<S: Store>(board: &mut Board<S>, host: &Word, kind: u16, body: &[u8]) -> Made {
    answer(board.request(host.byte()?, &message::message(kind, body), &mut []))
}

/// An id as a message holds it, in two bytes; the store refuses those above 255.
fn id(word: &Word) -> Result<[u8; 2], String> {
    word.short().map(u16::to_le_bytes)
}

fn put<S: Store>(board: &mut Board<S>, words: &[Word]) -> Made {
    let (id, value) = (id(&words[1])?, words[2].value()?);
    let most = usize::from(u16::MAX) - message::message(PUT, &id).len();
    if value.len() > most {
        return Err(format!("a message has room for {most} bytes of value"));
    }
    ask(board, &words[0], PUT, &[&id[..], &value].concat())
}

fn delete<S: Store>(board: &mut Board<S>, words: &[Word]) -> Made {
    ask(board, &words[0], DELETE, &id(&words[1])?)
}

fn get<S: Store>(board: &mut Board<S>, words: &[Word]) -> Made {
    match board.read(words[0].byte()?, &message::message(READ, &id(&words[1])?)) {
        (Answer::DONE, stretch) => Ok(Back::Value(stretch.of(&board.image).to_vec())),
        (refusal, _) => answer(refusal),
    }
}

fn log<S: Store>(board: &mut Board<S>, words: &[Word]) -> Made {
    let mut page = [0; PAGE];
    let answer = board.request(words[0].byte()?, &message::message(LOG, &[1]), &mut page);
    let [_, _, _, _, t0, t1, t2, t3, n0, n1, u0, u1, s0, s1] = page;
    let time = u32::from_le_bytes([t0, t1, t2, t3]);
    let [objects, used, size] = [[n0, n1], [u0, u1], [s0, s1]].map(u16::from_le_bytes);
    let fields = format!("time={time} objects={objects} used={used} size={size}");
    Ok(Back::Answer(answer, if answer.refused() { String::new() } else { fields }))
}

fn dump<S: Store>(board: &mut Board<S>, _: &[Word]) -> Made {
    Ok(Back::Plain(format!("image={}", say::bytes(&board.image))))
}

fn record<S: Store>(board: &mut Board<S>, _: &[Word]) -> Made {
    Ok(Back::Plain(match board.head() {
        Head::Unmounted => "unmounted".to_string(),
        Head::Idle(Idle { length, block, end, blocks, edition, pending: [a, b, c, d], places }) => {
            let head = format!("idle len={length} half={block} end={end}");
            let placed = places.iter().enumerate().filter(|(_, place)| **place != 0);
            let places: String = placed.map(|(id, place)| format!(" place={id}:{place}")).collect();
            format!("{head} blocks={blocks} edition={edition} pending={a},{b},{c},{d}{places}")
        }
        Head::Job => "job".to_string(),
    }))
}

/// Fields that are not given are as after a format of this board: its number of blocks, edition 1, nothing pending, no places.
/// A place may be given again.
fn idle<S: Store>(board: &mut Board<S>, words: &[Word]) -> Made {
    let (length, block, end) = (words[0].number(1, 65_536)?, words[1].byte()?, words[2].short()?);
    let (mut blocks, mut edition, mut pending, mut places) = (None, None, None, [0; 256]);
    for word in &words[3..] {
        let again = if let Some(number) = word.field("blocks") {
            blocks.replace(number.byte()?).is_some()
        } else if let Some(number) = word.field("edition") {
            edition.replace(number.number(1, 2)? as u8).is_some()
        } else if let Some(numbers) = word.field("pending") {
            pending.replace(numbers.four()?).is_some()
        } else if let Some(pair) = word.field("place") {
            let (id, place) = pair.place()?;
            places[usize::from(id)] = place;
            false
        } else {
            return Err(format!("{} is no field of a record", word.said()));
        };
        if again {
            return Err(format!("{} is there twice", word.said()));
        }
    }
    let (blocks, edition) = (blocks.unwrap_or(board.blocks), edition.unwrap_or(1));
    let pending = pending.unwrap_or_default();
    board.record = board.store.idle(Idle { length, block, end, blocks, edition, pending, places });
    Ok(Back::Ok)
}

fn unmount<S: Store>(board: &mut Board<S>, _: &[Word]) -> Made {
    board.record = board.store.unmounted();
    Ok(Back::Ok)
}

fn poke<S: Store>(board: &mut Board<S>, words: &[Word]) -> Made {
    let (offset, bytes) = (words[0].number(0, usize::MAX)?, words[1].bytes()?);
    let length = board.image.len();
    let place = offset.checked_add(bytes.len()).and_then(|end| board.image.get_mut(offset..end));
    place.ok_or_else(|| format!("the image has only {length} bytes"))?.copy_from_slice(&bytes);
    Ok(Back::Ok)
}

#[cfg(test)]
mod tests {
    use super::*;
    use model::Model;

    #[test]
    fn help_names_every_call() {
        for call in Call::<Model>::ALL {
            let line = format!("    {} {}", call.name, call.takes);
            let found = crate::HELP.lines().any(|help| help.starts_with(line.trim_end()));
            assert!(found, "{line}");
        }
    }
}
