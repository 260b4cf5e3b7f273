//! Jobs: flash steps still to be done, and the idle record after the last.

use crate::Model;
use std::collections::VecDeque;
use store::{Answer, Drive, Idle, Told};

#[derive(Clone, PartialEq, Eq, Debug)]
pub enum Record {
    Unmounted,
    Idle(Idle),
    Job(Job),
}

/// A stretch of a job: one step for an erase, one for each byte programmed.
#[derive(Clone, PartialEq, Eq, Debug)]
pub enum Work {
    Erase { at: usize, len: usize },
    Program { at: usize, bytes: VecDeque<u8> },
}

#[derive(Clone, Copy, PartialEq, Eq, Debug)]
pub enum Step {
    Erase { at: usize, len: usize },
    Program { at: usize, byte: u8 },
}

/// Work is never empty, nor is any stretch of it.
#[derive(Clone, PartialEq, Eq, Debug)]
pub struct Job {
    work: VecDeque<Work>,
    idle: Idle,
}

impl Work {
    pub fn erase(block: usize, size: usize) -> Work {
        Work::Erase { at: block * size, len: size }
    }

    pub fn program(at: usize, bytes: impl Into<VecDeque<u8>>) -> Work {
        Work::Program { at, bytes: bytes.into() }
    }
}

/// Takes up `work`: idle at once if there is none.
pub fn begin(work: Vec<Work>, idle: Idle) -> Record {
    let work: VecDeque<Work> =
        work.into_iter().filter(|work| !matches!(work, Work::Program { bytes, .. } if bytes.is_empty())).collect();
    if work.is_empty() { Record::Idle(idle) } else { Record::Job(Job { work, idle }) }
}

pub fn answer(record: &Record) -> Answer {
    if matches!(record, Record::Job(_)) { Answer::MORE } else { Answer::DONE }
}

impl Job {
    /// Whether it is a job on such an image; a step on any other gets 11.
    pub fn is_on(&self, length: usize, blocks: u8) -> bool {
        (self.idle.length, self.idle.blocks) == (length, blocks)
    }

    /// The step that comes next.
    pub fn next(&self) -> Step {
        match &self.work[0] {
            Work::Erase { at, len } => Step::Erase { at: *at, len: *len },
            Work::Program { at, bytes } => Step::Program { at: *at, byte: bytes[0] },
        }
    }

    /// How many steps are left.
    pub fn steps(&self) -> usize {
        let steps = |work: &Work| match work {
            Work::Erase { .. } => 1,
            Work::Program { bytes, .. } => bytes.len(),
        };
        self.work.iter().map(steps).sum()
    }

    /// Counts that step as made; gives the idle record if it was the last.
    pub fn advance(&mut self) -> Option<Idle> {
        match &mut self.work[0] {
            Work::Program { at, bytes } if bytes.len() > 1 => {
                *at += 1;
                bytes.pop_front();
            }
            _ => {
                self.work.pop_front();
            }
        }
        self.work.is_empty().then_some(self.idle)
    }
}

impl Drive for Model {
    fn told(&self, length: usize, blocks: u8, record: &Record) -> (Answer, Told) {
        match record {
            Record::Job(job) if !job.is_on(length, blocks) => (Answer::STALE, Told::default()),
            Record::Job(job) => match job.next() {
                Step::Program { at, byte } => (Answer::PROGRAM, Told { at, len: 1, byte }),
                Step::Erase { at, len } => (Answer::ERASE, Told { at, len, byte: 0xFF }),
            },
            _ => (Answer::DONE, Told::default()),
        }
    }

    fn made(&self, image: &[u8], blocks: u8, record: &mut Record) -> Answer {
        if let Record::Job(job) = record {
            if !job.is_on(image.len(), blocks) {
                return Answer::STALE;
            }
            if let Some(idle) = job.advance() {
                *record = Record::Idle(idle);
            }
        }
        answer(record)
    }
}

impl Step {
    pub fn make(self, image: &mut [u8]) {
        match self {
            Step::Erase { at, len } => image[at..at + len].fill(0xFF),
            Step::Program { at, byte } => image[at] &= byte,
        }
    }
}
