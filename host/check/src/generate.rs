//! What hosts send: requests that make sense, and messages that do not quite.

use crate::rng::Rng;
use model::frame::VALUE_LIMIT;
use store::message;

#[derive(Clone, PartialEq, Eq, Debug)]
pub enum Wish {
    Put(u8, Vec<u8>),
    Delete(u8),
    Commit,
    Abort,
    Read(u8),
    Log,
    Convert,
}

impl Wish {
    pub fn message(&self) -> Vec<u8> {
        match self {
            Wish::Put(id, value) => message::put(*id, value),
            Wish::Delete(id) => message::delete(*id),
            Wish::Commit => message::commit(),
            Wish::Abort => message::abort(),
            Wish::Read(id) => message::read(*id),
            Wish::Log => message::log(),
            Wish::Convert => message::convert(),
        }
    }
}

/// What the hosts of one run are like.
pub struct Manner {
    ids: usize,
    longest: usize,
    /// One request in so many is a commit.
    commits: usize,
    /// One in so many is a convert.
    converts: usize,
}

impl Manner {
    /// Hosts of a store in blocks of this size. Below 512 bytes the longest values are more than a host may have pending.
    pub fn new(rng: &mut Rng, size: usize) -> Manner {
        let long = if size < 512 { 64 } else { VALUE_LIMIT };
        Manner {
            ids: rng.pick(&[1, 3, 12, 256]),
            longest: rng.pick(&[4, 24, 64, long, long]),
            commits: rng.pick(&[3, 6, 20]),
            converts: rng.pick(&[10, 60, usize::MAX]),
        }
    }

    pub fn wish(&self, rng: &mut Rng) -> Wish {
        if rng.once_in(self.commits) {
            return Wish::Commit;
        }
        if rng.once_in(self.converts) {
            return Wish::Convert;
        }
        match rng.below(20) {
            0..=10 => Wish::Put(self.id(rng), self.value(rng)),
            11..=14 => Wish::Delete(self.id(rng)),
            15 => Wish::Abort,
            16..=18 => Wish::Read(self.id(rng)),
            _ => Wish::Log,
        }
    }

    pub fn id(&self, rng: &mut Rng) -> u8 {
        if rng.once_in(12) { rng.pick(&[0, 1, 254, 255]) } else { rng.below(self.ids) as u8 }
    }

    /// Now and then of any length around the limit, whatever these hosts are like.
    fn value(&self, rng: &mut Rng) -> Vec<u8> {
        let size = match rng.below(40) {
            0 => rng.below(VALUE_LIMIT + 2),
            1 => VALUE_LIMIT + rng.below(2),
            2..=10 => rng.pick(&[0, 1, self.longest]),
            _ => rng.below(self.longest + 1),
        };
        value(rng, size)
    }
}

/// A value of this size; often of bytes that also mean something in the journal.
pub fn value(rng: &mut Rng, size: usize) -> Vec<u8> {
    const COMMIT_FRAME: [u8; 6] = [6, 0, 3, 0, 1, 0xFE];
    match rng.below(6) {
        0 => vec![0xFF; size],
        1 => vec![0xFE; size],
        2 => vec![0x00; size],
        3 => COMMIT_FRAME.into_iter().cycle().take(size).collect(),
        4 => (0..size).map(|_| rng.pick(&[0xFF, 0xFE])).collect(),
        _ => rng.bytes(size),
    }
}

/// Most hosts exist.
pub fn host(rng: &mut Rng) -> u8 {
    if rng.once_in(40) { rng.pick(&[4, 5, 128, 255]) } else { rng.below(4) as u8 }
}

/// A message that is a little or wholly wrong, and now and then right.
pub fn odd_message(manner: &Manner, rng: &mut Rng) -> Vec<u8> {
    let mut bytes = manner.wish(rng).message();
    match rng.below(9) {
        0 => bytes[0] = bytes[0].wrapping_add(rng.pick(&[1, 255, 4])),
        1 => bytes[1] = rng.pick(&[1, 255]),
        2 => bytes[2] = rng.below(10) as u8,
        3 => bytes[3] = rng.pick(&[0, 2, 255]),
        4 => bytes.truncate(rng.below(bytes.len() + 1)),
        5 => bytes.push(rng.byte()),
        6 => return bodies(rng),
        7 => return (0..rng.below(VALUE_LIMIT + 16)).map(|_| rng.byte()).collect(),
        _ => bytes.resize(bytes.len() + 256, 0),
    }
    bytes
}

/// The right length, any kind near those there are, a body of any size.
fn bodies(rng: &mut Rng) -> Vec<u8> {
    let kind = 0x0100 + rng.below(10) as u16;
    let size = rng.pick(&[0, 1, 2, 3, 66, 67, 2 + VALUE_LIMIT, 3 + VALUE_LIMIT, 300]);
    let mut body = rng.bytes(size);
    if body.len() > 1 && !rng.once_in(4) {
        body[1] = 0;
    }
    message::message(kind, &body)
}
