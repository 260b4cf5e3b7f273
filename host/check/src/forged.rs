//! A step of a job whose record holds any bytes, as the definition says (docs/STORE.md, "A step"; DECISIONS 35, 77 and 111):
//! over the record's bytes as the header lays them out, written apart from the library. Frames are read by the model.

use library::{EDITION, JOB, LONGEST, PLACES, RECORD_SIZE, Record};
use model::edition::Edition;
use model::frame::{self, Body, FINISH, Frame, Host, Id};
use model::job::Step;
use std::ops::Range;
use store::Answer;

/// The stages, by the record's first byte.
const WIPE: u8 = 2;
const OPEN: u8 = 3;
const COPY: u8 = 4;
const SEAL: u8 = 5;
const DROP: u8 = 6;
const APPEND: u8 = 7;
const CLOSE: u8 = 8;

const LENGTH: usize = 1;
const BLOCK: usize = 3;
const END: usize = 4;
const BLOCKS: usize = 6;
/// Which blocks are erased first, and how many; whether a block is made, and the old one erased after; the block made, its
/// time, from where on each host's changes are pending, the length of the frame to append, the edition of the block made, how
/// many bytes of a torn frame are programmed, and their offsets.
const LIST: Range<usize> = JOB.start..JOB.start + 16;
const WIPES: usize = LIST.end;
const MOVES: usize = WIPES + 1;
const DROPS: usize = MOVES + 1;
const TARGET: usize = DROPS + 1;
const TIME: usize = TARGET + 1;
const SINCE: usize = TIME + 4;
const SIZE: usize = SINCE + 8;
const MAKES: usize = SIZE + 1;
const CLOSES: usize = MAKES + 1;
const CLOSING: Range<usize> = CLOSES + 1..CLOSES + 9;
/// The step of the stage; the next offset of the block made; the next id and the next place of a frame to copy; the length of
/// the frame that is copied, and its next byte.
const INDEX: usize = CLOSING.end;
const AT: usize = INDEX + 1;
const ID: usize = AT + 2;
const SOURCE: usize = ID + 2;
const COPIED: usize = SOURCE + 2;
const OFFSET: usize = COPIED + 1;
const UNIT: Range<usize> = JOB.end..JOB.end + LONGEST;
const FRAME: Range<usize> = UNIT.end..RECORD_SIZE;

/// Writes of the stages Open and Seal, each.
const WRITES: u8 = 5;

/// Makes the step of a record in a job.
pub fn step(image: &mut [u8], blocks: u8, record: &mut Record) -> Answer {
    let Some(step) = next(image.len(), blocks, record) else { return Answer::STALE };
    step.make(image);
    for flag in [MOVES, DROPS] {
        record[flag] = record[flag].min(1);
    }
    advance(image, record);
    if record[0] < WIPE { Answer::DONE } else { Answer::MORE }
}

fn short(record: &Record, at: usize) -> usize {
    usize::from(u16::from_le_bytes([record[at], record[at + 1]]))
}

/// The edition that a record's number means: 2 is edition 2, any other edition 1. The number itself stays as it is.
fn edition(record: &Record, at: usize) -> Edition {
    if record[at] == 2 { Edition::Second } else { Edition::First }
}

fn set_short(record: &mut Record, at: usize, number: usize) {
    record[at..at + 2].copy_from_slice(&(number as u16).to_le_bytes());
}

/// The flash step that comes next, if the record is one of such an image and the place lies in it.
fn next(length: usize, blocks: u8, record: &Record) -> Option<Step> {
    if !(2..=16).contains(&blocks) || (length, blocks) != (short(record, LENGTH) + 1, record[BLOCKS]) {
        return None;
    }
    let size = length / usize::from(blocks);
    let index = usize::from(record[INDEX]);
    let erase = |block: u8| {
        (block < blocks && size > 0).then_some(Step::Erase { at: usize::from(block) * size, len: size })
    };
    let program = |block: u8, at: usize, byte: u8| {
        (block < blocks && at < size).then_some(Step::Program { at: usize::from(block) * size + at, byte })
    };
    let byte = |of: Range<usize>, index: usize| record[of].get(index).copied().unwrap_or(0);
    match record[0] {
        WIPE => erase(byte(LIST, index)),
        OPEN => {
            let kind = edition(record, MAKES).number();
            let writes = [(8, 0xFE), (0, 0x10), (1, 0x00), (2, kind), (3, 0x4A)];
            let (at, byte) = writes.get(index).copied().unwrap_or(writes[0]);
            program(record[TARGET], at, byte)
        }
        COPY => program(record[TARGET], short(record, AT), byte(UNIT, usize::from(record[OFFSET]))),
        SEAL if index < 4 => program(record[TARGET], 4 + index, !record[TIME + index]),
        SEAL => program(record[TARGET], 8, 0xFC),
        DROP => erase(record[BLOCK]),
        CLOSE => {
            let at = CLOSING.step_by(2).nth(index).map_or(0, |at| short(record, at));
            program(record[BLOCK], at, if index + 1 == usize::from(record[CLOSES]) { FINISH } else { 0 })
        }
        _ => program(record[BLOCK], short(record, END) + index, byte(FRAME, index)),
    }
}

/// The record after that step.
fn advance(image: &[u8], record: &mut Record) {
    let last = match record[0] {
        WIPE => record[WIPES],
        OPEN | SEAL => WRITES,
        COPY => return copied(image, record),
        DROP => return land(record),
        CLOSE => record[CLOSES],
        _ => record[SIZE],
    };
    if u16::from(record[INDEX]) + 1 < u16::from(last) {
        record[INDEX] += 1;
        return;
    }
    match record[0] {
        WIPE if record[MOVES] > 0 => enter(OPEN, record),
        WIPE if record[CLOSES] > 0 => enter(CLOSE, record),
        WIPE | CLOSE => enter_append(record),
        OPEN => enter_copy(image, record),
        SEAL if record[DROPS] > 0 => enter(DROP, record),
        SEAL => land(record),
        _ => rest(record, short(record, END) + usize::from(record[SIZE])),
    }
}

fn enter(stage: u8, record: &mut Record) {
    (record[0], record[INDEX]) = (stage, 0);
}

/// The block made is the current one.
fn land(record: &mut Record) {
    (record[BLOCK], record[EDITION]) = (record[TARGET], record[MAKES]);
    record.copy_within(AT..AT + 2, END);
    enter_append(record);
}

fn enter_append(record: &mut Record) {
    if record[SIZE] > 0 { enter(APPEND, record) } else { rest(record, short(record, END)) }
}

/// Idle: the record says block, end, length, number of blocks, the edition, what is pending and the places, which it said all
/// along, and nothing else.
fn rest(record: &mut Record, end: usize) {
    record[0] = 1;
    set_short(record, END, end);
    record[JOB.start..].fill(0);
}

fn copied(image: &[u8], record: &mut Record) {
    set_short(record, AT, short(record, AT) + 1);
    if u16::from(record[OFFSET]) + 1 < u16::from(record[COPIED]) {
        record[OFFSET] += 1;
    } else {
        record[OFFSET] = 0;
        enter_copy(image, record);
    }
}

/// Takes up the next frame to copy; where none is left the block is sealed.
fn enter_copy(image: &[u8], record: &mut Record) {
    let size = image.len() / usize::from(record[BLOCKS]);
    let start = (usize::from(record[BLOCK]) * size).min(image.len());
    let block = &image[start..(start + size).min(image.len())];
    let Some(Load { bytes, id, source, place }) = settled(block, record).or_else(|| pending(block, record)) else {
        return enter(SEAL, record);
    };
    enter(COPY, record);
    set_short(record, ID, id);
    set_short(record, SOURCE, source);
    if let Some((id, held)) = place {
        let at = if held { short(record, AT) } else { 0 };
        set_short(record, PLACES.start + 2 * usize::from(id), at);
    }
    (record[COPIED], record[OFFSET]) = (bytes.len() as u8, 0);
    record[UNIT].fill(0);
    record[UNIT][..bytes.len()].copy_from_slice(&bytes);
}

/// A frame to copy, the id and the offset to go on from, and the id whose place it is, or which then has none.
struct Load {
    bytes: Vec<u8>,
    id: usize,
    source: usize,
    place: Option<(u8, bool)>,
}

/// The host whose changes the frame to append settles.
fn committer(record: &Record) -> Option<u8> {
    let frame = &record[FRAME];
    (frame[2] == 3).then_some(frame[4])
}

/// The settled frame of the first id from the cursor on whose place holds a put or settled frame of it.
fn settled(block: &[u8], record: &Record) -> Option<Load> {
    (short(record, ID)..256).find_map(|id| {
        let place = short(record, PLACES.start + 2 * id);
        let value = match frame::whole(edition(record, EDITION), block, place).filter(|_| place > 0)?.body {
            Body::Put(_, Id(owner), value) | Body::Settled(Id(owner), value) if usize::from(owner) == id => value,
            _ => return None,
        };
        let bytes = frame::settled(edition(record, MAKES), Id(id as u8), &block[value]);
        Some(Load { bytes, id: id + 1, source: short(record, SOURCE), place: Some((id as u8, true)) })
    })
}

/// The first put or delete from the cursor on that is still pending, of the whole frames up to the record's end, as a frame of
/// the block made.
fn pending(block: &[u8], record: &Record) -> Option<Load> {
    let journal = &block[..short(record, END).min(block.len())];
    let made = edition(record, MAKES);
    let mut at = short(record, SOURCE);
    while let Some(Frame { place, body }) = frame::whole(edition(record, EDITION), journal, at) {
        let change = match body {
            Body::Put(host, id, value) => Some((host, id, true, frame::put(made, host, id, &journal[value]))),
            Body::Delete(host, id) => Some((host, id, false, frame::delete(made, host, id))),
            _ => None,
        };
        if let Some((Host(host), Id(id), put, bytes)) = change
            && at >= short(record, SINCE + 2 * usize::from(host))
        {
            let placed = (committer(record) == Some(host)).then_some((id, put));
            return Some(Load { bytes, id: 256, source: place.end, place: placed });
        }
        at = place.end;
    }
    None
}
