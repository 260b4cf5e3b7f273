//! A block: its header, its journal, and what replay makes of it.

use crate::edition::Edition;
use crate::frame::{self, Body, Frame, Host, Id};
use std::ops::Range;

pub const HEADER: usize = 16;
/// Where the header's inverted time stands.
pub const TIME: usize = 4;
/// Where the header's state byte stands.
pub const STATE: usize = 8;
pub const READY: u8 = 0xFF;
pub const IN_PROGRESS: u8 = 0xFE;
pub const VALID: u8 = 0xFC;

#[derive(PartialEq, Eq, Debug)]
pub enum Block {
    Blank,
    InProgress,
    Valid(Journal),
    Foreign,
}

#[derive(PartialEq, Eq, Debug)]
pub struct Journal {
    pub time: u32,
    pub edition: Edition,
    pub frames: Vec<Frame>,
    /// Where the last whole frame ends.
    pub end: usize,
    pub torn: bool,
}

impl Block {
    /// The creation time, if the block is valid.
    pub fn time(&self) -> Option<u32> {
        match self {
            Block::Valid(journal) => Some(journal.time),
            _ => None,
        }
    }
}

pub fn read(block: &[u8]) -> Block {
    match block[STATE] {
        READY if blank(block) => Block::Blank,
        IN_PROGRESS => Block::InProgress,
        VALID => journal(block).map_or(Block::Foreign, Block::Valid),
        _ => Block::Foreign,
    }
}

pub fn blank(bytes: &[u8]) -> bool {
    bytes.iter().all(|byte| *byte == 0xFF)
}

fn journal(block: &[u8]) -> Option<Journal> {
    let (time, edition) = header(block)?;
    let (frames, _) = frames(edition, block);
    let end = frames.last().map_or(HEADER, |frame| frame.place.end);
    let tail = &block[end..];
    let torn = !blank(tail);
    (!torn || frame::torn(edition, tail)).then_some(Journal { time, edition, frames, end, torn })
}

/// Time and edition of the block, if its header is as it should be.
fn header(block: &[u8]) -> Option<(u32, Edition)> {
    let inverse = block[TIME..STATE].try_into().expect("four bytes");
    let time = !u32::from_le_bytes(inverse);
    let edition = edition(block)?;
    (block[..TIME] == edition.label() && time != 0 && blank(&block[STATE + 1..HEADER])).then_some((time, edition))
}

/// The edition that the header's kind says.
pub fn edition(block: &[u8]) -> Option<Edition> {
    Edition::ALL.into_iter().find(|edition| block[2..TIME] == edition.label()[2..])
}

/// The whole legal frames from the header on, each where it may stand, and the lowest id that a settled frame may have
/// after them: 256, which is none, once another frame has stood.
pub fn frames(edition: Edition, block: &[u8]) -> (Vec<Frame>, u16) {
    let mut frames = Vec::new();
    let (mut at, mut lowest) = (HEADER, 0);
    while let Some(frame) = frame::whole(edition, block, at).filter(|frame| frame.may_stand(lowest)) {
        lowest = match frame.body {
            Body::Settled(Id(id), _) => u16::from(id) + 1,
            _ => 256,
        };
        at = frame.place.end;
        frames.push(frame);
    }
    (frames, lowest)
}

/// What replay of a journal gives.
#[derive(Debug)]
pub struct Replay {
    edition: Edition,
    /// By id, where its settled value stands in the block.
    pub settled: Vec<Option<Range<usize>>>,
    /// By id, where the frame starts that it stands in; 0 for none (K8).
    pub places: [u16; 256],
    /// The pending puts and deletes of all hosts, as they stand in the journal.
    pub pending: Vec<Frame>,
}

pub fn replay(journal: &Journal) -> Replay {
    replayed(journal.edition, &journal.frames)
}

pub fn replayed(edition: Edition, frames: &[Frame]) -> Replay {
    let mut replay = Replay { edition, settled: vec![None; 256], places: [0; 256], pending: Vec::new() };
    for frame in frames {
        match &frame.body {
            Body::Settled(id, value) => replay.settle(*id, frame.place.start, Some(value.clone())),
            Body::Put(..) | Body::Delete(..) => replay.pending.push(frame.clone()),
            Body::Commit(host) => replay.commit(*host),
            Body::Abort(host) => replay.pending.retain(|frame| !belongs(frame, *host)),
            Body::Closed => {}
            Body::Reset => replay.pending.clear(),
        }
    }
    replay
}

impl Replay {
    fn commit(&mut self, host: Host) {
        let list: Vec<Frame> = self.pending.extract_if(.., |frame| belongs(frame, host)).collect();
        for Frame { place, body } in list {
            match body {
                Body::Put(_, id, value) => self.settle(id, place.start, Some(value)),
                Body::Delete(_, id) => self.settle(id, 0, None),
                _ => unreachable!("only puts and deletes are pending"),
            }
        }
    }

    fn settle(&mut self, Id(id): Id, place: usize, value: Option<Range<usize>>) {
        self.places[usize::from(id)] = place as u16;
        self.settled[usize::from(id)] = value;
    }

    pub fn objects(&self) -> impl Iterator<Item = (Id, Range<usize>)> {
        let place = |(id, value): (usize, &Option<Range<usize>>)| Some((Id(id as u8), value.clone()?));
        self.settled.iter().enumerate().filter_map(place)
    }

    pub fn has_pending(&self, host: Host) -> bool {
        self.pending.iter().any(|frame| belongs(frame, host))
    }

    /// What the record says of each host (K7).
    pub fn counts(&self) -> [u16; 4] {
        [0, 1, 2, 3].map(|host| self.pending_bytes(Host(host)) as u16)
    }

    /// The bytes of the host's pending frames (K7).
    pub fn pending_bytes(&self, host: Host) -> usize {
        self.pending.iter().filter(|frame| belongs(frame, host)).map(|frame| frame.place.len()).sum()
    }

    /// Document 01's U.
    pub fn used(&self) -> usize {
        self.used_in(self.edition)
    }

    /// What it is in an edition.
    pub fn used_in(&self, edition: Edition) -> usize {
        HEADER + self.objects().map(|(_, value)| edition.settled() + value.len()).sum::<usize>()
    }

    /// Document 01's C.
    pub fn claimed(&self) -> usize {
        self.used() + self.pending.iter().map(|frame| frame.place.len()).sum::<usize>()
    }

    /// How many hosts have something pending once `also` has.
    pub fn open(&self, also: Option<Host>) -> usize {
        (0..=3).map(Host).filter(|host| Some(*host) == also || self.has_pending(*host)).count()
    }
}

/// Whether `frame` is a change of this host.
fn belongs(frame: &Frame, host: Host) -> bool {
    matches!(frame.body, Body::Put(owner, ..) | Body::Delete(owner, _) if owner == host)
}
