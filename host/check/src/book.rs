//! Document 01's book for demand 3: fed each call and its answer, and nothing of image or record.

use crate::twin::Call;
use model::block::{self, Block, Replay};
use model::frame::{Body, Host, Id};
use std::collections::BTreeMap;
use store::{Answer, message};

pub type Objects = BTreeMap<u8, Vec<u8>>;
pub type Lists = [Vec<Change>; 4];

#[derive(Clone, PartialEq, Eq, Debug)]
pub enum Change {
    Put(u8, Vec<u8>),
    Delete(u8),
}

impl Change {
    pub fn apply(self, objects: &mut Objects) {
        match self {
            Change::Put(id, value) => objects.insert(id, value),
            Change::Delete(id) => objects.remove(&id),
        };
    }

    /// The length of its frame.
    fn length(&self, lengths: Lengths) -> usize {
        match self {
            Change::Put(_, value) => lengths.change + value.len(),
            Change::Delete(_) => lengths.change,
        }
    }
}

/// What frames have beside a value, and what a put must leave free, by the edition (K9).
#[derive(Clone, Copy)]
pub struct Lengths {
    pub mark: usize,
    pub change: usize,
    pub settled: usize,
    pub reserve: usize,
    pub reset: usize,
}

pub const FIRST: Lengths = Lengths { mark: 6, change: 8, settled: 7, reserve: 14, reset: 5 };
pub const SECOND: Lengths = Lengths { mark: 10, change: 12, settled: 11, reserve: 22, reset: 9 };

pub fn lengths(edition: u8) -> Lengths {
    if edition == 1 { FIRST } else { SECOND }
}

enum UnderWay {
    Commit(usize),
    Format,
}

#[derive(Default)]
pub struct Book {
    pub objects: Objects,
    pub lists: Lists,
    under_way: Option<UnderWay>,
}

impl Book {
    pub fn feed(&mut self, call: &Call, answer: Answer) {
        match call {
            Call::Mount | Call::Format => {
                self.lists = Lists::default();
                self.under_way = (*call == Call::Format && !answer.refused()).then_some(UnderWay::Format);
            }
            Call::Request { host, message, .. } if !answer.refused() => {
                self.accepted(usize::from(*host), message, answer);
            }
            Call::Step | Call::Run(_) if answer == Answer::DONE => self.finished(),
            _ => {}
        }
    }

    fn accepted(&mut self, host: usize, message: &[u8], answer: Answer) {
        match u16::from_le_bytes([message[2], message[3]]) {
            message::PUT => self.lists[host].push(Change::Put(message[4], message[6..].to_vec())),
            message::DELETE => self.lists[host].push(Change::Delete(message[4])),
            message::ABORT => self.lists[host].clear(),
            message::COMMIT if answer == Answer::MORE => self.under_way = Some(UnderWay::Commit(host)),
            _ => {}
        }
    }

    fn finished(&mut self) {
        match self.under_way.take() {
            Some(UnderWay::Commit(host)) => {
                self.objects = self.committed(host);
                self.lists[host].clear();
            }
            Some(UnderWay::Format) => self.objects.clear(),
            None => {}
        }
    }

    /// The objects once this host's list is applied.
    pub fn committed(&self, host: usize) -> Objects {
        let mut objects = self.objects.clone();
        for change in self.lists[host].clone() {
            change.apply(&mut objects);
        }
        objects
    }

    /// Document 01's U.
    pub fn used(&self, lengths: Lengths) -> usize {
        16 + self.objects.values().map(|value| lengths.settled + value.len()).sum::<usize>()
    }

    /// Document 01's C.
    pub fn claimed(&self, lengths: Lengths) -> usize {
        self.used(lengths) + (0..4).map(|host| self.pending(host, lengths)).sum::<usize>()
    }

    /// The bytes of the host's pending frames.
    pub fn pending(&self, host: usize, lengths: Lengths) -> usize {
        self.lists[host].iter().map(|change| change.length(lengths)).sum()
    }

    /// Whether no host has anything pending.
    pub fn settled(&self) -> bool {
        self.lists.iter().all(Vec::is_empty)
    }

    /// Hosts with something pending once `also` has.
    pub fn open(&self, also: usize) -> usize {
        (0..4).filter(|host| *host == also || !self.lists[*host].is_empty()).count()
    }
}

/// What replay finds in a block: objects and each host's list.
pub fn found(block: &[u8]) -> (Objects, Lists) {
    let Block::Valid(journal) = block::read(block) else {
        panic!("an idle record names a block that is not valid");
    };
    let replay = block::replay(&journal);
    assert!(16 <= replay.used() && replay.used() <= replay.claimed(), "U is at least 16 and at most C");
    assert!(
        replay.claimed() <= journal.end && journal.end <= block.len(),
        "C is at most the end, the end at most S"
    );
    let objects = replay.objects().map(|(Id(id), value)| (id, block[value].to_vec())).collect();
    (objects, lists(block, &replay))
}

fn lists(block: &[u8], replay: &Replay) -> Lists {
    let mut lists = Lists::default();
    for frame in &replay.pending {
        match &frame.body {
            Body::Put(Host(host), Id(id), value) => {
                lists[usize::from(*host)].push(Change::Put(*id, block[value.clone()].to_vec()));
            }
            Body::Delete(Host(host), Id(id)) => lists[usize::from(*host)].push(Change::Delete(*id)),
            other => panic!("{other:?} is pending"),
        }
    }
    lists
}
