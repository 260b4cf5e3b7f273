//! K11: what a mount does with the current block.

use crate::Board;
use crate::frame::{FINISH, reset};
use crate::job::Work;
use store::{Answer, Idle};

impl Board<'_> {
    /// The work after a mount's erases, and the record after it: a torn frame is closed in place, and if anything is pending
    /// a reset frame comes behind. If that would not fit, a transfer of the settled objects alone is made instead of both.
    pub fn mend(mut self) -> Result<(Vec<Work>, Idle), Answer> {
        let edition = self.journal.edition;
        let closed = self.journal.end + self.torn();
        let reset = if self.replay.pending.is_empty() { Vec::new() } else { reset(edition) };
        let end = closed + reset.len();
        self.replay.pending.clear();
        if end > self.size() {
            let (work, frames) = self.transfer(edition)?;
            return Ok((work, self.holding(edition, self.next(), &frames)));
        }
        let mut work = self.closing();
        work.push(Work::program(self.block * self.size() + closed, reset));
        Ok((work, self.idle(end)))
    }

    /// The length of the torn frame, 0 if there is none. Its low byte stands, and the high byte of every length is 0.
    fn torn(&self) -> usize {
        if self.journal.torn { usize::from(self.bytes()[self.journal.end]) } else { 0 }
    }

    /// Closes the torn frame, if there is one: length's high byte, kind, and the finish byte last, as a frame whose kind still
    /// stands would be whole with it. What is so already takes no step.
    fn closing(&self) -> Vec<Work> {
        if !self.journal.torn {
            return Vec::new();
        }
        let (start, last) = (self.journal.end, self.journal.end + self.torn() - 1);
        let changes = [(start + 1, 0), (start + 2, 0), (start + 3, 0), (last, FINISH)];
        let due = changes.into_iter().filter(|(at, byte)| self.bytes()[*at] != *byte);
        due.map(|(at, byte)| Work::program(self.block * self.size() + at, [byte])).collect()
    }
}
