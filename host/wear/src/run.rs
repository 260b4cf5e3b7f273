//! A run on one store, each call seen by K12's counts.

use crate::count::{Bound, Count, Seen, Shape};
use check::side::Side;
use check::twin::Call;
use model::block::{self, Block};
use std::collections::BTreeMap;
use store::{Answer, Head, Store, message};

/// Bytes that are compared at once; every S is a multiple of it.
const CHUNK: usize = 128;

pub struct Run<T: Store> {
    pub side: Side<T>,
    pub shape: Shape,
    /// The image as the last call left it.
    before: Vec<u8>,
    /// The first has counted from the run's start, the others from some idle record on the way.
    pub counts: Vec<Count>,
    pub calls: usize,
    /// Each inequality that did not hold after some call: after which one first, and what was counted.
    pub broken: BTreeMap<Bound, String>,
}

impl<T: Store> Run<T> {
    /// From here on, with a record in no job.
    pub fn new(side: Side<T>, shape: Shape) -> Run<T> {
        let before = side.image.clone();
        let mut run = Run { side, shape, before, counts: Vec::new(), calls: 0, broken: BTreeMap::new() };
        run.count_from_here();
        run
    }

    pub fn count_from_here(&mut self) {
        assert_ne!(self.side.head(), Head::Job, "a run begins outside jobs");
        self.counts.push(Count::new(self.shape));
    }

    /// A request or a step.
    pub fn call(&mut self, call: &Call) -> Answer {
        let (answer, seen) = match call {
            Call::Request { message, .. } => {
                assert_ne!(message[..], message::convert(), "a run has no converts");
                let claimed = self.claimed();
                let answer = self.side.call(call, self.shape.blocks).answer;
                let bytes = message.len() + self.shape.longer();
                let begun = answer == Answer::MORE;
                (answer, if begun { Seen::Begun { bytes, claimed } } else { Seen::Nothing })
            }
            Call::Step => {
                let answer = self.side.call(call, self.shape.blocks).answer;
                (answer, Seen::Step { rose: self.rose() })
            }
            other => panic!("{other} is not counted"),
        };
        self.calls += 1;
        self.counts.iter_mut().for_each(|count| count.feed(seen));
        self.judge(call);
        answer
    }

    fn judge(&mut self, call: &Call) {
        for count in &self.counts {
            for bound in Bound::ALL.into_iter().filter(|bound| !count.holds(*bound)) {
                let first = || format!("call {}, {call}: {count:?}", self.calls);
                self.broken.entry(bound).or_insert_with(first);
            }
        }
    }

    /// A request and all its steps.
    pub fn serve(&mut self, host: u8, message: &[u8]) -> Answer {
        let call = Call::Request { host, message: message.to_vec(), reply: 0 };
        let mut answer = self.call(&call);
        while answer == Answer::MORE {
            answer = self.call(&Call::Step);
        }
        answer
    }

    /// C of the recorded block, by the model's replay; 0 if the record is in a job.
    pub fn claimed(&self) -> usize {
        let Head::Idle(idle) = self.side.head() else { return 0 };
        match block::read(model::block_of(&self.side.image, self.shape.blocks, usize::from(idle.block))) {
            Block::Valid(journal) => block::replay(&journal).claimed(),
            _ => 0,
        }
    }

    /// The blocks in which a bit rose since the last step.
    fn rose(&mut self) -> u16 {
        let mut rose = 0;
        let blocks = self.before.chunks_mut(self.shape.size).zip(self.side.image.chunks(self.shape.size));
        for (number, (old, new)) in blocks.enumerate().filter(|(_, (old, new))| old != new) {
            rose |= u16::from(take_over(old, new)) << number;
        }
        rose
    }
}

/// Makes the old bytes the new ones; whether a bit rose.
fn take_over(old: &mut [u8], new: &[u8]) -> bool {
    let mut rose = false;
    let chunks = old.chunks_mut(CHUNK).zip(new.chunks(CHUNK));
    for (old, new) in chunks.filter(|(old, new)| old != new) {
        rose |= old.iter().zip(new).any(|(old, new)| new & !old != 0);
        old.copy_from_slice(new);
    }
    rose
}
