//! Reading a block: one pass over its frames, into a table of fixed size.

use crate::crc::crc;
use store::Field;

pub const HEADER: usize = 16;
/// Header bytes 0 to 3 but for the edition, which is the kind's low byte: length 16, kind 0x4A01 or 0x4A02.
const LENGTH: [u8; 2] = [0x10, 0x00];
const KIND: u8 = 0x4A;
pub const LABEL: usize = 4;
pub const TIME: usize = 4;
pub const STATE: usize = 8;
pub const IN_PROGRESS: u8 = 0xFE;
pub const VALID: u8 = 0xFC;

pub const PUT: u8 = 1;
pub const DELETE: u8 = 2;
pub const COMMIT: u8 = 3;
pub const ABORT: u8 = 4;
pub const SETTLED: u8 = 5;
/// A frame that was torn and closed in place: whole, and without a meaning.
const CLOSED: u8 = 0;
/// Drops what all hosts have pending.
pub const RESET: u8 = 7;
pub const FINISH: u8 = 0xFE;
/// The most bytes of a value.
pub const VALUE_LIMIT: usize = 240;
/// Bytes of each kind of frame before CRC and finish byte; a put and a settled frame have a value as well.
pub const BARE: usize = 4;
pub const MARK: usize = 5;
pub const CHANGE: usize = 7;
pub const KEPT: usize = 6;
const LONGEST_PUT: usize = CHANGE + VALUE_LIMIT;
const LONGEST_KEPT: usize = KEPT + VALUE_LIMIT;
/// Length of the longest frame, a put of the longest value with a CRC. No frame begins with 0xFF, as erased flash does.
pub const LONGEST: usize = LONGEST_PUT + 5;
const _: () = assert!(LONGEST < 0xFF);

#[derive(PartialEq, Eq)]
pub enum State {
    Blank,
    InProgress,
    Valid,
    Foreign(Wrong),
}

/// The first field that is wrong, and where it starts.
pub type Wrong = (Field, usize);

/// Bytes of CRC and finish byte in this edition.
pub fn seal(edition: u8) -> usize {
    if edition == 2 { 5 } else { 1 }
}

/// Header bytes 0 to 3 of a block.
pub fn label(edition: u8) -> [u8; LABEL] {
    [LENGTH[0], LENGTH[1], edition, KIND]
}

/// What a valid block holds. A place is the offset of a frame in the block; 0 is none.
#[derive(Clone)]
pub struct Journal {
    pub time: u32,
    /// 1 or 2.
    pub edition: u8,
    /// Where the last whole frame ends.
    pub end: usize,
    /// The length of the frame that a power cut stopped there; 0 is none.
    pub torn: usize,
    /// By id, the frame that the settled value stands in.
    pub places: [u16; 256],
    pub objects: u16,
    /// Document 01's U.
    pub used: usize,
    /// By host, its first pending frame and the bytes of all of them.
    pub since: [u16; 4],
    pub pending: [u16; 4],
}

impl Journal {
    pub const EMPTY: Journal = Journal {
        time: 0,
        edition: 1,
        end: HEADER,
        torn: 0,
        places: [0; 256],
        objects: 0,
        used: HEADER,
        since: [0; 4],
        pending: [0; 4],
    };

    /// Reads a block into an empty journal, which means something if the block is valid.
    pub fn read(&mut self, block: &[u8]) -> State {
        if block[STATE] == IN_PROGRESS {
            return State::InProgress;
        }
        if block[STATE] == 0xFF && blank(block) {
            return State::Blank;
        }
        match self.header(block).and_then(|()| self.frames(block)) {
            Ok(()) => State::Valid,
            Err(wrong) => State::Foreign(wrong),
        }
    }

    fn header(&mut self, block: &[u8]) -> Result<(), Wrong> {
        self.time = !u32::from_le_bytes([block[4], block[5], block[6], block[7]]);
        self.edition = block[2];
        if block[..2] != LENGTH {
            Err((Field::Length, 0))
        } else if !matches!(block[2..TIME], [1 | 2, KIND]) {
            Err((Field::Kind, 2))
        } else if self.time == 0 {
            Err((Field::Time, TIME))
        } else if block[STATE] != VALID {
            Err((Field::State, STATE))
        } else if !blank(&block[STATE + 1..HEADER]) {
            Err((Field::Rest, STATE + 1))
        } else {
            Ok(())
        }
    }

    fn frames(&mut self, block: &[u8]) -> Result<(), Wrong> {
        let seal = seal(self.edition);
        // the least id that a settled frame may still have
        let mut least = 0;
        while let Some((length, kind)) = frame_at(&block[self.end..], seal) {
            let at = self.end;
            let number = block[at + 4];
            let host = usize::from(number & 3);
            match kind {
                SETTLED if u16::from(number) < least => break,
                SETTLED => self.set(block, number, at),
                COMMIT => self.commit(block, host),
                ABORT => self.pending[host] = 0,
                RESET => self.pending = [0; 4],
                CLOSED => {}
                _ => {
                    if self.pending[host] == 0 {
                        self.since[host] = at as u16;
                    }
                    self.pending[host] += length as u16;
                }
            }
            least = if kind == SETTLED { u16::from(number) + 1 } else { 256 };
            self.end += length;
        }
        let tail = &block[self.end..];
        if blank(tail) {
            return Ok(());
        }
        if begins_frame(tail, seal) {
            self.torn = usize::from(tail[0]);
            return Ok(());
        }
        let (field, place) = wrong_field(tail, least, seal);
        Err((field, self.end + place))
    }

    /// Goes over the host's pending frames again, in their order.
    fn commit(&mut self, block: &[u8], host: usize) {
        let mut at = if self.pending[host] == 0 { self.end } else { usize::from(self.since[host]) };
        while at < self.end {
            let (kind, owner, id) = (block[at + 2], block[at + 4], block[at + 5]);
            if usize::from(owner) == host && kind == PUT {
                self.set(block, id, at);
            } else if usize::from(owner) == host && kind == DELETE {
                self.remove(block, id);
            }
            at += usize::from(block[at]);
        }
        self.pending[host] = 0;
    }

    fn set(&mut self, block: &[u8], id: u8, at: usize) {
        self.remove(block, id);
        self.places[usize::from(id)] = at as u16;
        self.objects += 1;
        self.used += settled_length(block, at);
    }

    fn remove(&mut self, block: &[u8], id: u8) {
        let place = self.places[usize::from(id)];
        if place != 0 {
            self.used -= settled_length(block, usize::from(place));
            self.objects -= 1;
            self.places[usize::from(id)] = 0;
        }
    }

    /// What U would be in edition 2.
    pub fn used_in_2(&self) -> usize {
        self.used + usize::from(self.objects) * (seal(2) - seal(self.edition))
    }

    /// Document 01's C.
    pub fn claimed(&self) -> usize {
        self.used + self.pending.iter().map(|bytes| usize::from(*bytes)).sum::<usize>()
    }

    /// How many hosts have something pending once `also` has.
    pub fn open(&self, also: Option<usize>) -> usize {
        (0..4).filter(|host| self.pending[*host] > 0 || also == Some(*host)).count()
    }
}

pub fn blank(bytes: &[u8]) -> bool {
    bytes.iter().all(|byte| *byte == 0xFF)
}

/// Where this id's value stands, and its length, if a whole legal put or settled frame of the id is at `at`.
pub fn held(block: &[u8], at: usize, id: u8, edition: u8) -> Option<(usize, usize)> {
    let bytes = block.get(at..)?;
    match frame_at(bytes, seal(edition))?.1 {
        PUT if bytes[5] == id => {}
        SETTLED if bytes[4] == id => {}
        _ => return None,
    }
    Some(value_at(block, at, edition))
}

/// Where the value of the put or settled frame at `at` stands, and its length.
pub fn value_at(block: &[u8], at: usize, edition: u8) -> (usize, usize) {
    let head = if block[at + 2] == PUT { CHANGE } else { KEPT };
    (at + head, usize::from(block[at]) - head - seal(edition))
}

/// Length of the settled frame that has the value of the put or settled frame at `at`.
fn settled_length(block: &[u8], at: usize) -> usize {
    usize::from(block[at]) - if block[at + 2] == PUT { CHANGE - KEPT } else { 0 }
}

/// Writes the length of a frame that has so many bytes before its CRC, then CRC and finish byte.
pub fn finish(frame: &mut [u8; LONGEST], front: usize, edition: u8) {
    let last = front + seal(edition) - 1;
    frame[0] = last as u8 + 1;
    if last > front {
        let crc = crc(&frame[..front]);
        frame[front..last].copy_from_slice(&crc);
    }
    frame[last] = FINISH;
}

/// Length and kind of the whole legal frame that `bytes` begin with.
fn frame_at(bytes: &[u8], seal: usize) -> Option<(usize, u8)> {
    let [length, 0, kind, 0, ..] = *bytes else { return None };
    let length = usize::from(length);
    let (front, sealed) = bytes.get(..length)?.split_at(length.checked_sub(seal)?);
    let legal = match (kind, front) {
        (PUT, [_, _, _, _, 0..=3, _, 0, ..]) => front.len() <= LONGEST_PUT,
        (DELETE, [_, _, _, _, 0..=3, _, 0]) => true,
        (COMMIT | ABORT, [_, _, _, _, 0..=3]) => true,
        (SETTLED, [_, _, _, _, _, 0, ..]) => front.len() <= LONGEST_KEPT,
        (RESET, [_, _, _, _]) => true,
        (CLOSED, _) => closable(front.len()),
        _ => false,
    };
    let right = match sealed {
        [FINISH] => legal,
        [.., FINISH] if kind == CLOSED => legal,
        [sum @ .., FINISH] => legal && *sum == crc(front),
        _ => false,
    };
    right.then_some((length, kind))
}

/// Whether frames that may be torn, and so closed, have so many bytes before CRC and finish byte.
fn closable(front: usize) -> bool {
    matches!(front, BARE | MARK | CHANGE..=LONGEST_PUT)
}

/// Whether a tail that is not blank is torn: it begins a put, delete, commit, abort or reset that would fit, or one that was
/// being closed.
fn begins_frame(tail: &[u8], seal: usize) -> bool {
    let written = tail.iter().rposition(|byte| *byte != 0xFF).map_or(0, |last| last + 1);
    let length = usize::from(tail[0]);
    let front = length.saturating_sub(seal);
    if !closable(front) || length > tail.len() || written >= length {
        return false;
    }
    let seen = |at: usize, fits: bool| at >= written || fits;
    let kind = match tail[2] {
        CLOSED => return tail[1] == 0 && matches!(tail[3], 0 | 0xFF),
        PUT => front >= CHANGE,
        DELETE => front == CHANGE,
        COMMIT | ABORT => front == MARK,
        RESET => front == BARE,
        _ => false,
    };
    seen(1, tail[1] == 0)
        && seen(2, kind)
        && seen(3, tail[3] == 0)
        && seen(4, front == BARE || tail[4] <= 3)
        && seen(6, front < CHANGE || tail[6] == 0)
        && (written <= front || crc(&tail[..front]).starts_with(&tail[front..written]))
}

/// The first wrong field of a tail in which no frame that may stand there is whole, torn or missing.
fn wrong_field(tail: &[u8], least: u16, seal: usize) -> Wrong {
    let number = |at: usize| tail.get(at..at + 2).map_or(0, |bytes| u16::from_le_bytes([bytes[0], bytes[1]]));
    let (length, kind) = (usize::from(number(0)), number(2));
    let front = length.saturating_sub(seal);
    let settled = least < 256;
    let some_kind = closable(front) || settled && front == KEPT;
    let this_kind = match kind {
        0 => closable(front),
        1 => front >= CHANGE,
        2 => front == CHANGE,
        3 | 4 => front == MARK,
        5 => settled && (KEPT..=LONGEST_KEPT).contains(&front),
        7 => front == BARE,
        _ => false,
    };
    if !some_kind || length > tail.len() {
        (Field::Length, 0)
    } else if !this_kind {
        (Field::Kind, 2)
    } else if (1..=4).contains(&kind) && tail[4] > 3 {
        (Field::Host, 4)
    } else if (1..=2).contains(&kind) && number(5) > 255 {
        (Field::Id, 5)
    } else if kind == 5 && !(least..256).contains(&number(4)) {
        (Field::Id, 4)
    } else if kind != 0 && seal > 1 && tail[front..length - 1] != crc(&tail[..front]) {
        (Field::Crc, front)
    } else {
        (Field::Finish, length - 1)
    }
}
