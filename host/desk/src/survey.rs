//! The blocks of an image, and what state each is in.

use crate::say::{self, count};
use model::block::{self, Block, Journal};
use model::cut;
use model::fault;
use model::frame::{Body, Frame, Host};

/// Kinds of frames that may be torn; those of hosts come first.
const KINDS: [(u8, &str); 5] = [(1, "put"), (2, "delete"), (3, "commit"), (4, "abort"), (7, "reset")];
/// The kind of a frame that is closed, or was being closed.
const CLOSED: u8 = 0;

pub struct Side<'a> {
    /// What people call it: half or block.
    pub word: &'static str,
    pub number: usize,
    /// Where the block starts in the image.
    pub base: usize,
    pub bytes: &'a [u8],
    pub block: Block,
}

/// All blocks of an image whose length is allowed.
pub fn sides(image: &[u8], blocks: u8) -> Vec<Side<'_>> {
    let side = |(number, bytes): (usize, _)| {
        let (word, block) = (say::block(blocks), block::read(bytes));
        Side { word, number, base: number * bytes.len(), bytes, block }
    };
    cut(image, blocks).into_iter().enumerate().map(side).collect()
}

impl Side<'_> {
    /// "half 0", "block 3".
    pub fn name(&self) -> String {
        format!("{} {}", self.word, self.number)
    }

    /// The journal of a valid block.
    pub fn journal(&self) -> Option<&Journal> {
        match &self.block {
            Block::Valid(journal) => Some(journal),
            _ => None,
        }
    }

    /// The creation time of a valid block.
    pub fn time(&self) -> Option<u32> {
        self.block.time()
    }

    pub fn state(&self) -> String {
        match &self.block {
            Block::Blank => "blank".to_string(),
            Block::InProgress => "in progress: power was lost while it was being written".to_string(),
            Block::Foreign => {
                format!("foreign: power was lost while it was being erased, or it is damaged\n  {}", self.broken())
            }
            Block::Valid(journal) => {
                let tail = if journal.torn { self.torn(journal.end) } else { "the rest is blank".to_string() };
                let (frames, end) = (count(journal.frames.len(), "frame"), self.base + journal.end);
                let (edition, time) = (journal.edition.number(), journal.time);
                format!("valid, edition {edition}, time {time}\n  {frames} up to byte {end}, {tail}")
            }
        }
    }

    /// Where a foreign block broke, counted from its start and, if that is another place, from the image's.
    fn broken(&self) -> String {
        let (field, place) = fault::of_block(self.bytes);
        let at = match self.base {
            0 => place.to_string(),
            base => format!("{place} ({} of the image)", base + place),
        };
        say::fault(field, place, &at)
    }

    /// What stands at `end`, where a frame was cut while it was being written.
    fn torn(&self, end: usize) -> String {
        let tail = &self.bytes[end..];
        let length = tail.iter().rposition(|byte| *byte != 0xFF).map_or(0, |last| last + 1);
        let written = &tail[..length];
        if written.get(2) == Some(&CLOSED) {
            return format!("then a torn frame of {}, closed in part", count(usize::from(tail[0]), "byte"));
        }
        let kind = written.get(2).and_then(|kind| KINDS.iter().find(|(number, _)| number == kind));
        let host = written.get(4).filter(|_| kind.is_some_and(|(number, _)| *number < 5));
        let host = host.map_or(String::new(), |host| format!(" of host {host}"));
        format!("then {} of a torn {}{host}", count(length, "byte"), kind.map_or("frame", |(_, name)| name))
    }
}

/// The host that a frame is from.
pub fn owner(frame: &Frame) -> Option<Host> {
    match frame.body {
        Body::Put(host, ..) | Body::Delete(host, _) | Body::Commit(host) | Body::Abort(host) => Some(host),
        Body::Settled(..) | Body::Closed | Body::Reset => None,
    }
}
