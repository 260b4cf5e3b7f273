//! Frames, the entries of a block's journal.

use crate::block::blank;
use crate::edition::{Edition, crc};
use std::ops::Range;
use std::sync::LazyLock;

pub const FINISH: u8 = 0xFE;
/// The most bytes of a value (K2).
pub const VALUE_LIMIT: usize = 240;

#[derive(Clone, Copy, PartialEq, Eq, Debug)]
pub struct Host(pub u8);

#[derive(Clone, Copy, PartialEq, Eq, Debug)]
pub struct Id(pub u8);

impl Host {
    pub fn new(number: u8) -> Option<Host> {
        (number <= 3).then_some(Host(number))
    }
}

/// A frame's kind and body. Values are places in the bytes the frame was read from.
#[derive(Clone, PartialEq, Eq, Debug)]
pub enum Body {
    Put(Host, Id, Range<usize>),
    Delete(Host, Id),
    Commit(Host),
    Abort(Host),
    Settled(Id, Range<usize>),
    /// Was torn, and a mount closed it in place (K11). It means nothing, whatever its body.
    Closed,
    /// Drops all that is pending, of every host (K11).
    Reset,
}

#[derive(Clone, PartialEq, Eq, Debug)]
pub struct Frame {
    pub place: Range<usize>,
    pub body: Body,
}

impl Frame {
    /// Whether it may stand where the lowest id of a settled frame is this.
    pub fn may_stand(&self, lowest: u16) -> bool {
        !matches!(self.body, Body::Settled(Id(id), _) if u16::from(id) < lowest)
    }

    /// Where its CRC stands. That of a closed frame is ignored as its body is.
    pub fn seal(&self, edition: Edition) -> Range<usize> {
        let finish = self.place.end - 1;
        let size = if self.body == Body::Closed { 0 } else { edition.seal() };
        finish - size..finish
    }
}

pub fn put(edition: Edition, host: Host, id: Id, value: &[u8]) -> Vec<u8> {
    frame(edition, 1, &[&[host.0, id.0, 0], value].concat())
}

pub fn delete(edition: Edition, host: Host, id: Id) -> Vec<u8> {
    frame(edition, 2, &[host.0, id.0, 0])
}

pub fn commit(edition: Edition, host: Host) -> Vec<u8> {
    frame(edition, 3, &[host.0])
}

pub fn abort(edition: Edition, host: Host) -> Vec<u8> {
    frame(edition, 4, &[host.0])
}

pub fn settled(edition: Edition, id: Id, value: &[u8]) -> Vec<u8> {
    frame(edition, 5, &[&[id.0, 0], value].concat())
}

pub fn reset(edition: Edition) -> Vec<u8> {
    frame(edition, 7, &[])
}

/// A closed frame of this length of which no other byte was programmed.
pub fn closed(length: usize) -> Vec<u8> {
    let mut bytes = vec![0xFF; length];
    bytes[..4].copy_from_slice(&[length as u8, 0, 0, 0]);
    bytes[length - 1] = FINISH;
    bytes
}

fn frame(edition: Edition, kind: u16, body: &[u8]) -> Vec<u8> {
    let length = (4 + body.len() + edition.seal() + 1) as u16;
    let front = [&length.to_le_bytes()[..], &kind.to_le_bytes(), body].concat();
    [&front[..], &crc(&front).to_le_bytes()[..edition.seal()], &[FINISH]].concat()
}

/// The whole legal frame at `at`, if one stands there.
pub fn whole(edition: Edition, block: &[u8], at: usize) -> Option<Frame> {
    begun(edition, block, at, block.len())
}

/// The same where bytes from `seen` on may be others than those that stand there: the CRC's are then the right ones.
pub fn begun(edition: Edition, block: &[u8], at: usize, seen: usize) -> Option<Frame> {
    let frame = laid_out(edition, block, at)?;
    let seal = frame.seal(edition);
    let seen = seal.start..seal.end.min(seen);
    let right = seen.is_empty() || crc(&block[at..seal.start]).to_le_bytes().starts_with(&block[seen]);
    right.then_some(frame)
}

/// The frame at `at`, if one stands there that is legal but for its CRC.
fn laid_out(edition: Edition, block: &[u8], at: usize) -> Option<Frame> {
    let length = number(block, at)?;
    let kind = number(block, at + 2)?;
    let place = at..at + length;
    if !fits(edition, kind, length) || *block.get(place.end - 1)? != FINISH {
        return None;
    }
    let host = || Host::new(block[at + 4]);
    let value_end = place.end - 1 - edition.seal();
    let body = match kind {
        0 => Body::Closed,
        1 => Body::Put(host()?, id(block, at + 5)?, at + 7..value_end),
        2 => Body::Delete(host()?, id(block, at + 5)?),
        3 => Body::Commit(host()?),
        4 => Body::Abort(host()?),
        5 => Body::Settled(id(block, at + 4)?, at + 6..value_end),
        _ => Body::Reset,
    };
    Some(Frame { place, body })
}

fn fits(edition: Edition, kind: usize, length: usize) -> bool {
    let with_value = |least: usize| (least..=least + VALUE_LIMIT).contains(&length);
    match kind {
        0 => closable(edition, length),
        1 => with_value(edition.change()),
        2 => length == edition.change(),
        3 | 4 => length == edition.mark(),
        5 => with_value(edition.settled()),
        7 => length == edition.reset(),
        _ => false,
    }
}

/// Whether a closed frame may have this length: frames of kinds 1 to 4 and 7 can be torn.
fn closable(edition: Edition, length: usize) -> bool {
    [1, 2, 3, 4, 7].into_iter().any(|kind| fits(edition, kind, length))
}

fn id(block: &[u8], at: usize) -> Option<Id> {
    u8::try_from(number(block, at)?).ok().map(Id)
}

fn number(block: &[u8], at: usize) -> Option<usize> {
    let bytes = block.get(at..at + 2)?;
    Some(usize::from(u16::from_le_bytes([bytes[0], bytes[1]])))
}

/// Whether a frame that would fit was cut in `tail`, while it was being written or while it was being closed.
pub fn torn(edition: Edition, tail: &[u8]) -> bool {
    written_in_part(edition, tail) || closed_in_part(edition, tail)
}

/// Whether `tail` begins with a proper part of a legal frame of kinds 1 to 4 or 7 that would fit, followed by 0xFF only.
fn written_in_part(edition: Edition, tail: &[u8]) -> bool {
    let programmed = tail.iter().rposition(|byte| *byte != 0xFF).map_or(0, |last| last + 1);
    programmed > 0
        && samples(edition).iter().any(|sample| begins(edition, &tail[..programmed], sample, tail.len()))
}

/// Whether `tail` begins with a frame that would fit, whose closing has come to its kind and not to its finish byte, followed
/// by 0xFF only. With 0 in the kind's low byte the body is ignored; the high byte may still be blank.
fn closed_in_part(edition: Edition, tail: &[u8]) -> bool {
    match (number(tail, 0), tail) {
        (Some(length), [_, _, 0, 0 | 0xFF, ..]) if closable(edition, length) && length <= tail.len() => {
            blank(&tail[length - 1..])
        }
        _ => false,
    }
}

/// Whether `start` is a proper part of a legal frame of the sample's kind and length.
fn begins(edition: Edition, start: &[u8], sample: &[u8], room: usize) -> bool {
    if start.len() >= sample.len() || sample.len() > room {
        return false;
    }
    let bytes = [start, &sample[start.len()..]].concat();
    match begun(edition, &bytes, 0, start.len()) {
        Some(Frame { place, body }) => {
            place.end == sample.len() && !matches!(body, Body::Settled(..) | Body::Closed)
        }
        None => false,
    }
}

type Samples = LazyLock<[Vec<Vec<u8>>; 2]>;

/// A legal frame of each kind that can be torn, 1 to 4 and 7, and each of its lengths.
pub fn samples(edition: Edition) -> &'static [Vec<u8>] {
    static SAMPLES: Samples = LazyLock::new(|| {
        Edition::ALL.map(|edition| {
            let puts = (0..=VALUE_LIMIT).map(|size| put(edition, Host(0), Id(0), &vec![0; size]));
            let delete = delete(edition, Host(0), Id(0));
            puts.chain([delete, commit(edition, Host(0)), abort(edition, Host(0)), reset(edition)]).collect()
        })
    });
    &SAMPLES[edition as usize]
}

/// A settled frame of each length, with the id that may stand wherever any may.
pub fn settled_samples(edition: Edition) -> &'static [Vec<u8>] {
    static SAMPLES: Samples = LazyLock::new(|| {
        Edition::ALL
            .map(|edition| (0..=VALUE_LIMIT).map(|size| settled(edition, Id(255), &vec![0; size])).collect())
    });
    &SAMPLES[edition as usize]
}

/// A closed frame of each length.
pub fn closed_samples(edition: Edition) -> &'static [Vec<u8>] {
    static SAMPLES: Samples = LazyLock::new(|| {
        Edition::ALL.map(|edition| {
            (0..=usize::from(u8::MAX)).filter(|length| closable(edition, *length)).map(closed).collect()
        })
    });
    &SAMPLES[edition as usize]
}
