//! A look at every block of an image, before a mount or a format.

use crate::MOST;
use crate::journal::{Journal, State, TIME};
use store::{Fault, Field};

pub struct Look {
    /// By block, whether anything was programmed, and the creation time if it is valid, else 0.
    pub used: [bool; MOST],
    times: [u32; MOST],
    /// What is wrong with the lowest foreign block.
    pub foreign: Option<Fault>,
    /// The newest block and its journal; its time is 0 if none is valid.
    newest: usize,
    pub journal: Journal,
}

impl Look {
    pub fn at(image: &[u8], size: usize) -> Look {
        let (used, times) = ([false; MOST], [0; MOST]);
        let mut look = Look { used, times, foreign: None, newest: 0, journal: Journal::EMPTY };
        for (number, block) in image.chunks_exact(size).enumerate() {
            look.take(number, block);
        }
        look
    }

    fn take(&mut self, number: usize, block: &[u8]) {
        let mut journal = Journal::EMPTY;
        let state = journal.read(block);
        self.used[number] = state != State::Blank;
        match state {
            State::Foreign((field, place)) if self.foreign.is_none() => {
                self.foreign = Some(Fault { block: number, field, place });
            }
            State::Valid => {
                self.times[number] = journal.time;
                if journal.time > self.journal.time {
                    (self.newest, self.journal) = (number, journal);
                }
            }
            _ => {}
        }
    }

    /// The newest block, if there is one and no other is as new.
    pub fn current(&self) -> Option<usize> {
        let alone = self.times.iter().filter(|time| **time == self.journal.time).count() == 1;
        (self.journal.time > 0 && alone).then_some(self.newest)
    }

    /// The lowest of the valid blocks that have a time twice.
    pub fn equal(&self) -> Option<Fault> {
        for (block, time) in self.times.iter().enumerate() {
            if *time > 0 && self.times[block + 1..].contains(time) {
                return Some(Fault { block, field: Field::Time, place: TIME });
            }
        }
        None
    }
}
