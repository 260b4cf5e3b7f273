//! What the compared calls were and what they were answered.

use crate::places::Wrong;
use crate::twin::{Call, Outcome};
use std::collections::BTreeMap;
use std::fmt;
use store::{Answer, Fault, Field, message};

/// How often each call got each answer, how often with a value of each length (the one put, or the one found), how often
/// each block was said to have broken in each field, how many records were refused for their pending bytes alone and for
/// their edition alone, what reads answered by a place that was wrong in each way, how many idle records of a run were of
/// edition 2, and how many of tight stores; what mounts of runs did, and where they were cut.
#[derive(Default)]
pub struct Tally {
    answers: BTreeMap<(&'static str, u8), u64>,
    values: BTreeMap<(&'static str, u8, usize), u64>,
    faults: BTreeMap<(usize, Field), u64>,
    places: BTreeMap<(Wrong, u8), u64>,
    pub pending: u64,
    pub editions: u64,
    pub second: u64,
    pub tight: u64,
    mends: BTreeMap<&'static str, u64>,
}

impl Tally {
    pub fn count(&mut self, call: &Call, outcome: &Outcome) {
        let (name, answer) = (call.name(), outcome.answer.0);
        *self.answers.entry((name, answer)).or_default() += 1;
        if let Some(length) = value_length(call, outcome) {
            *self.values.entry((name, answer, length)).or_default() += 1;
        }
    }

    pub fn count_fault(&mut self, fault: Option<Fault>) {
        if let Some(Fault { block, field, .. }) = fault {
            *self.faults.entry((block, field)).or_default() += 1;
        }
    }

    pub fn count_place(&mut self, how: Wrong, answer: Answer) {
        *self.places.entry((how, answer.0)).or_default() += 1;
    }

    pub fn count_mend(&mut self, what: Option<&'static str>) {
        if let Some(what) = what {
            *self.mends.entry(what).or_default() += 1;
        }
    }

    pub fn add(&mut self, other: &Tally) {
        self.pending += other.pending;
        self.editions += other.editions;
        self.second += other.second;
        self.tight += other.tight;
        for (key, count) in &other.answers {
            *self.answers.entry(*key).or_default() += count;
        }
        for (key, count) in &other.values {
            *self.values.entry(*key).or_default() += count;
        }
        for (key, count) in &other.faults {
            *self.faults.entry(*key).or_default() += count;
        }
        for (key, count) in &other.places {
            *self.places.entry(*key).or_default() += count;
        }
        for (key, count) in &other.mends {
            *self.mends.entry(*key).or_default() += count;
        }
    }

    pub fn of(&self, call: &'static str, answer: Answer) -> u64 {
        self.answers.get(&(call, answer.0)).copied().unwrap_or(0)
    }

    /// How often this call got this answer with a value of this length.
    pub fn with_value(&self, call: &'static str, answer: Answer, length: usize) -> u64 {
        self.values.get(&(call, answer.0, length)).copied().unwrap_or(0)
    }

    /// How often this block was said to have broken in this field.
    pub fn faults(&self, block: usize, field: Field) -> u64 {
        self.faults.get(&(block, field)).copied().unwrap_or(0)
    }

    /// How often a read by a place that was wrong in this way was answered so; all other calls were then refused with 11.
    pub fn places(&self, how: Wrong, answer: Answer) -> u64 {
        self.places.get(&(how, answer.0)).copied().unwrap_or(0)
    }

    /// How many mounts of runs did this, or were cut there.
    pub fn mends(&self, what: &'static str) -> u64 {
        self.mends.get(&what).copied().unwrap_or(0)
    }

    pub fn calls(&self) -> u64 {
        self.answers.values().sum()
    }
}

/// The length of the value in a put, all but for that length well formed, or of the value that a read found.
fn value_length(call: &Call, outcome: &Outcome) -> Option<usize> {
    match call {
        Call::Request { message, .. } => match &message[..] {
            [_, _, 1, 1, id, 0, value @ ..] if *message == message::put(*id, value) => Some(value.len()),
            _ => None,
        },
        Call::Read { .. } if outcome.answer == Answer::DONE => Some(outcome.stretch.len),
        _ => None,
    }
}

impl fmt::Display for Tally {
    fn fmt(&self, f: &mut fmt::Formatter) -> fmt::Result {
        for ((call, answer), count) in &self.answers {
            writeln!(f, "  {call:8} {:>4}  {count}", Answer(*answer).to_string())?;
        }
        for ((block, field), count) in &self.faults {
            writeln!(f, "  block {block}: {field:6}  {count}")?;
        }
        for ((how, answer), count) in &self.places {
            writeln!(f, "  place {how:?}, read {:>4}  {count}", Answer(*answer).to_string())?;
        }
        for (what, count) in &self.mends {
            writeln!(f, "  mount, {what}  {count}")?;
        }
        writeln!(f, "  11 for pending bytes  {}", self.pending)?;
        writeln!(f, "  11 for the edition  {}", self.editions)?;
        writeln!(f, "  idle in edition 2  {}, of these tight  {}", self.second, self.tight)
    }
}
