//! Wrong stores, each wrong in one thing that K9 says and in all places: what the book tells must tell them from right ones.

use super::altered::{Altered, RIGHT, job, steps};
use check::runs::{Made, Plan, run_among};
use model::block::{self, Block};
use model::edition::Edition;
use model::frame::{self, Host, Id};
use model::job::Step;
use model::{Model, Record, block_of};
use store::{Answer, Idle, Store, message};

/// Four runs: some hosts send converts, and some of these leave a tight store.
fn run(store: Altered) -> Vec<Made> {
    let (blocks, length, calls) = (2, 512, 3_000);
    let plan = |seed| Plan {
        seed,
        blocks,
        length,
        calls,
        time: 1,
        cut_jobs: 0,
        most_cuts: 0,
        filled: false,
        calm: false,
    };
    (34..38).map(|seed| run_among(|| store.everywhere(), plan(seed))).collect()
}

#[test]
fn right_stores_run() {
    let made = run(RIGHT);
    let sum = |of: fn(&Made) -> u64| made.iter().map(of).sum::<u64>();
    assert!(sum(|made| made.own.second) > 100 && sum(|made| made.own.tight) > 0);
    assert!(sum(|made| made.own.editions) > 10 && sum(|made| made.own.of("request", Answer::PENDING)) > 10);
}

/// The right answer to a request on an idle record, and what is then done otherwise.
macro_rules! asked {
    ($other:expr) => {
        Altered {
            request: |image, blocks, record, host, message, reply| {
                let before = record.clone();
                let answer = Model.request(image, blocks, record, host, message, reply);
                let other: fn(Asked, &mut Record, &mut [u8]) -> Answer = $other;
                match before {
                    Record::Idle(idle) => {
                        other(Asked { answer, idle, image, host, message: &message.to_vec() }, record, reply)
                    }
                    _ => answer,
                }
            },
            ..RIGHT
        }
    };
}

struct Asked<'a> {
    answer: Answer,
    idle: Idle,
    image: &'a [u8],
    host: u8,
    message: &'a [u8],
}

impl Asked<'_> {
    fn converts(&self) -> bool {
        self.message == message::convert()
    }

    fn size(&self) -> usize {
        self.image.len() / usize::from(self.idle.blocks)
    }
}

#[test]
#[should_panic(expected = "failed: host ")]
fn pending_of_the_asking_host_alone() {
    run(asked!(|asked, _, _| match asked.answer {
        Answer::PENDING if asked.idle.pending[usize::from(asked.host)] == 0 => Answer::DONE,
        answer => answer,
    }));
}

#[test]
#[should_panic(expected = "failed: host ")]
fn a_convert_that_is_refused_for_the_reserve() {
    run(asked!(|asked, record, _| match steps(record) {
        Some((_, after)) if asked.converts() && usize::from(after.end) + 22 > asked.size() => {
            *record = Record::Idle(asked.idle);
            Answer::NO_ROOM
        }
        _ => asked.answer,
    }));
}

#[test]
#[should_panic(expected = "failed: host ")]
fn edition_2_that_is_converted_again() {
    run(asked!(|asked, record, _| {
        if !asked.converts() || asked.answer != Answer::DONE {
            return asked.answer;
        }
        let at = usize::from(asked.idle.block) * asked.size() + block::STATE;
        *record = job([Step::Program { at, byte: block::VALID }], asked.idle);
        Answer::MORE
    }));
}

#[test]
#[should_panic(expected = "another edition after ")]
fn a_transfer_that_says_edition_1() {
    run(asked!(|asked, record, _| {
        if let Some((steps, after)) = steps(record)
            && !asked.converts()
            && after.block != asked.idle.block
        {
            *record = job(steps, Idle { edition: 1, ..after });
        }
        asked.answer
    }));
}

#[test]
#[should_panic(expected = "another reply")]
fn a_log_of_edition_1() {
    run(asked!(|asked, _, reply| {
        if asked.answer == Answer::DONE && asked.message == message::log() && asked.idle.edition == 2 {
            let [objects, used] = [8, 10].map(|at| u16::from_le_bytes([reply[at], reply[at + 1]]));
            reply[10..12].copy_from_slice(&(used - 4 * objects).to_le_bytes());
        }
        asked.answer
    }));
}

/// A delete for which there is no room by 12 and 10, and is by 8 and 6.
#[test]
#[should_panic(expected = "failed: host ")]
fn room_by_the_lengths_of_edition_1() {
    run(asked!(|asked, record, _| {
        let Block::Valid(journal) = block::read(block_of(asked.image, 2, usize::from(asked.idle.block))) else {
            return asked.answer;
        };
        let replay = block::replay(&journal);
        let taken = replay.claimed() + 8 + 6 * replay.open(Some(Host(asked.host)));
        let deletes = asked.message.get(2..4) == Some(&message::DELETE.to_le_bytes());
        if asked.answer != Answer::NO_ROOM || !deletes || taken > asked.size() {
            return asked.answer;
        }
        let frame = frame::delete(Edition::Second, Host(asked.host), Id(asked.message[4]));
        let at = usize::from(asked.idle.block) * asked.size() + journal.end;
        *record = job((at..).zip(frame).map(|(at, byte)| Step::Program { at, byte }), asked.idle);
        Answer::MORE
    }));
}

/// The edition of the newest block.
fn edition(image: &[u8], blocks: u8) -> Option<Edition> {
    let read = model::cut(image, blocks).into_iter().map(block::read);
    let journals = read.filter_map(|read| if let Block::Valid(journal) = read { Some(journal) } else { None });
    journals.max_by_key(|journal| journal.time).map(|journal| journal.edition)
}

#[test]
#[should_panic(expected = "another edition after ")]
fn a_format_that_keeps_edition_2() {
    let format = |image: &[u8], blocks| {
        let (answer, record) = Model.format(image, blocks);
        let Some((steps, after)) = steps(&record) else { return (answer, record) };
        if edition(image, blocks) != Some(Edition::Second) {
            return (answer, record);
        }
        let labelled = steps.into_iter().map(|step| match step {
            Step::Program { at: 2, .. } => Step::Program { at: 2, byte: 0x02 },
            other => other,
        });
        (answer, job(labelled, Idle { edition: 2, ..after }))
    };
    run(Altered { format, ..RIGHT });
}

#[test]
#[should_panic(expected = "another edition after ")]
fn a_mount_that_says_edition_1() {
    let mount = |image: &[u8], blocks| match Model.mount(image, blocks) {
        (Answer::DONE, Record::Idle(idle)) => (Answer::DONE, Record::Idle(Idle { edition: 1, ..idle })),
        other => other,
    };
    run(Altered { mount, ..RIGHT });
}

/// A store that looks at no edition: 11 is not given where it is due.
#[test]
#[should_panic(expected = " under Idle {")]
fn editions_that_are_not_looked_at() {
    let request = |image: &[u8], blocks, record: &mut Record, host, message: &[u8], reply: &mut [u8]| {
        let mut right = record.clone();
        if let Record::Idle(idle) = &mut right
            && let Some(edition) = edition(image, 2)
        {
            idle.edition = edition.number();
        }
        let answer = Model.request(image, blocks, &mut right, host, message, reply);
        if answer == Answer::MORE {
            *record = right;
        }
        answer
    };
    run(Altered { request, ..RIGHT });
}
