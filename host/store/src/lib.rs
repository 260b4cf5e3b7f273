//! What a settings store offers (document 01), whoever implements it.

mod drive;
mod fault;
pub mod hex;
pub mod message;

pub use drive::{Drive, Told};
pub use fault::{Fault, Field};
use std::fmt;

/// The answer to a call: document 01's number, 255 for "more"; 252 to 254 are the library's own.
#[derive(Clone, Copy, PartialEq, Eq, Hash, Debug)]
pub struct Answer(pub u8);

impl Answer {
    pub const DONE: Answer = Answer(0);
    pub const MALFORMED: Answer = Answer(1);
    pub const NO_STORE: Answer = Answer(2);
    pub const FOREIGN: Answer = Answer(3);
    pub const IMAGE_LENGTH: Answer = Answer(4);
    pub const BUSY: Answer = Answer(5);
    pub const WORN: Answer = Answer(6);
    pub const NO_ROOM: Answer = Answer(7);
    pub const NO_OBJECT: Answer = Answer(8);
    pub const SHORT_REPLY: Answer = Answer(9);
    pub const HOST_RANGE: Answer = Answer(10);
    pub const STALE: Answer = Answer(11);
    pub const HOST_FULL: Answer = Answer(12);
    pub const PENDING: Answer = Answer(16);
    pub const PROGRAM: Answer = Answer(252);
    pub const ERASE: Answer = Answer(253);
    pub const WRONG_RECORD: Answer = Answer(254);
    pub const MORE: Answer = Answer(255);

    pub fn refused(self) -> bool {
        ![Answer::DONE, Answer::MORE, Answer::PROGRAM, Answer::ERASE].contains(&self)
    }
}

impl fmt::Display for Answer {
    fn fmt(&self, f: &mut fmt::Formatter) -> fmt::Result {
        match *self {
            Answer::MORE => f.write_str("more"),
            Answer(number) => write!(f, "{number}"),
        }
    }
}

/// What an idle record says.
#[derive(Clone, Copy, PartialEq, Eq, Debug)]
pub struct Idle {
    /// Image length, 1 to 65,536.
    pub length: usize,
    /// Current block.
    pub block: u8,
    /// Where its whole frames end, counted from the block's start.
    pub end: u16,
    /// How many blocks the image was said to be.
    pub blocks: u8,
    /// The edition of the format by which the current block is read, 1 or 2.
    pub edition: u8,
    /// By host, the bytes of its pending frames.
    pub pending: [u16; 4],
    /// By id, where in the current block the frame starts that its settled value stands in; 0 for none (K8).
    pub places: [u16; 256],
}

/// The places of these ids; the others have none.
pub fn places(of: impl IntoIterator<Item = (u8, u16)>) -> [u16; 256] {
    let mut places = [0; 256];
    for (id, place) in of {
        places[usize::from(id)] = place;
    }
    places
}

/// What anyone may know of a record; a job's inside is its store's own.
#[expect(clippy::large_enum_variant, reason = "it is copied, and few are held at a time")]
#[derive(Clone, Copy, PartialEq, Eq, Debug)]
pub enum Head {
    Unmounted,
    Idle(Idle),
    Job,
}

/// Where a value stands, counted from the image's start.
#[derive(Clone, Copy, PartialEq, Eq, Debug, Default)]
pub struct Stretch {
    pub at: usize,
    pub len: usize,
}

impl Stretch {
    pub fn of(self, image: &[u8]) -> &[u8] {
        &image[self.at..self.at + self.len]
    }
}

/// Each call that takes an image is told how many blocks it is, which may be any number.
pub trait Store {
    type Record: Clone + PartialEq + fmt::Debug;

    fn mount(&self, image: &[u8], blocks: u8) -> (Answer, Self::Record);
    /// Why a mount would be refused: its number, and with 3 where the image broke; 0 if it would be accepted.
    fn fault(&self, image: &[u8], blocks: u8) -> (Answer, Option<Fault>);
    fn format(&self, image: &[u8], blocks: u8) -> (Answer, Self::Record);
    fn request(
        &self,
        image: &[u8],
        blocks: u8,
        record: &mut Self::Record,
        host: u8,
        message: &[u8],
        reply: &mut [u8],
    ) -> Answer;
    fn step(&self, image: &mut [u8], blocks: u8, record: &mut Self::Record) -> Answer;

    /// Up to so many steps, ending with the first that does not answer "more": the answer, and the flash steps made.
    fn run(&self, image: &mut [u8], blocks: u8, record: &mut Self::Record, most: usize) -> (Answer, usize) {
        if self.head(record) != Head::Job {
            return (Answer::DONE, 0);
        }
        for made in 0..most {
            match self.step(image, blocks, record) {
                Answer::MORE => {}
                Answer::DONE => return (Answer::DONE, made + 1),
                refusal => return (refusal, made),
            }
        }
        (Answer::MORE, most)
    }

    /// A refused read has the stretch 0, 0.
    fn read(&self, image: &[u8], blocks: u8, record: &Self::Record, host: u8, message: &[u8])
    -> (Answer, Stretch);

    fn unmounted(&self) -> Self::Record;
    /// An idle record, as forged as the caller likes.
    fn idle(&self, idle: Idle) -> Self::Record;
    fn head(&self, record: &Self::Record) -> Head;
}
