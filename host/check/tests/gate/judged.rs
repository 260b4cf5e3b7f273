//! What is found after cuts: each of these stores is wrong in one thing and stands in all places, so that no comparison can
//! tell. The test must fail by what `Cuts` knows.

use super::altered::{Altered, Begun, RIGHT, job, steps};
use check::book::Objects;
use check::cuts::{Allowed, Cuts, Start};
use check::twin::{Call, Twin};
use model::block::{self, Block, STATE, VALID};
use model::job::Step;
use model::{Model, Record, cut};
use store::{Answer, Idle, Store, message};

const LENGTH: usize = 512;
const S: usize = LENGTH / 2;

/// How much room there is for a put: ample; none for one of 72 bytes without a transfer; 60 bytes, which a put just fills, so
/// that a mount has no room for a reset; or 60 of which it leaves 8, so that there is none behind its commit.
#[derive(Clone, Copy, PartialEq)]
pub enum Room {
    Ample,
    Transfer,
    Exact,
    Nearly,
}

use Room::{Ample, Exact, Nearly, Transfer};

/// Object 1 is settled, and there is so much room.
fn board(room: Room) -> Twin {
    let mut twin = Twin::formatted(LENGTH);
    for message in [message::put(1, b"kept"), message::commit()] {
        assert_eq!(twin.serve(0, &message).0, Answer::DONE);
    }
    while room != Ample && twin.idle().is_some_and(|idle| usize::from(idle.end) + 72 <= S) {
        assert_eq!(twin.serve(2, &message::put(2, &[2; 40])).0, Answer::DONE);
        assert_eq!(twin.serve(2, &message::abort()).0, Answer::DONE);
    }
    twin
}

/// Cuts a put everywhere, and its commit: until that ends object 1 is there alone.
pub fn cut_everywhere(store: Altered, room: Room) {
    let mut twin = board(room);
    let mut objects = Objects::from([(1, b"kept".to_vec())]);
    let size = match room {
        Ample | Transfer => 64,
        Exact => 52,
        Nearly => 44,
    };
    let value = vec![7; size];
    for message in [message::put(2, &value), message::commit()] {
        let before = objects.clone();
        if message == message::commit() {
            objects.insert(2, value.clone());
        }
        let call = Call::Request { host: 0, message: message.clone(), reply: 0 };
        let start = Start { image: twin.image(), idle: twin.idle(), call: &call };
        let mut cuts = Cuts::among(store.everywhere(), 2, LENGTH, usize::MAX, 0);
        cuts.of_job(&start, Allowed::Exactly(&before), &objects);
        assert_eq!(twin.serve(0, &message).0, Answer::DONE);
    }
}

#[test]
fn right_stores_are_cut() {
    for room in [Ample, Transfer, Exact, Nearly] {
        cut_everywhere(RIGHT, room);
    }
}

/// The job that an answer says has begun, with its steps in another order.
fn reordered(answer: Answer, record: &mut Record, order: impl FnOnce(Vec<Step>) -> Vec<Step>) {
    if let (Answer::MORE, Some((steps, idle))) = (answer, steps(record)) {
        *record = job(order(steps), idle);
    }
}

/// The steps that make a block valid, time and state byte, before the frames that it is to hold.
fn sealed_first(steps: Vec<Step>) -> Vec<Step> {
    let sealed =
        steps.iter().position(|step| matches!(step, Step::Program { byte: VALID, at } if at % S == STATE));
    let Some(sealed) = sealed else { return steps };
    let (mut until, rest) = (steps[..=sealed].to_vec(), &steps[sealed + 1..]);
    let opened = until.iter().position(|step| matches!(step, Step::Program { .. })).expect("a block is opened");
    let frames = until.len() - opened - 10;
    until[opened + 5..].rotate_left(frames);
    [until, rest.to_vec()].concat()
}

/// Uncut it does as it should; only a cut of the recovery itself shows what is wrong.
fn mount_that_seals_first(image: &[u8], blocks: u8) -> Begun {
    let (answer, mut record) = Model.mount(image, blocks);
    reordered(answer, &mut record, sealed_first);
    (answer, record)
}

#[test]
#[should_panic(expected = "a mount found other objects")]
fn a_recovery_that_is_wrong_only_if_it_is_cut() {
    cut_everywhere(Altered { mount: mount_that_seals_first, ..RIGHT }, Exact);
}

#[test]
#[should_panic(expected = "a mount found other objects")]
fn a_transfer_that_makes_the_block_valid_first() {
    let request = |image: &[u8], blocks, record: &mut Record, host, message: &[u8], reply: &mut [u8]| {
        let answer = Model.request(image, blocks, record, host, message, reply);
        reordered(answer, record, sealed_first);
        answer
    };
    cut_everywhere(Altered { request, ..RIGHT }, Transfer);
}

/// The trap of document 01: the old block is erased before the new one says 0xFC.
pub const ERASES_FIRST: Altered = Altered {
    request: |image, blocks, record, host, message, reply| {
        let answer = Model.request(image, blocks, record, host, message, reply);
        reordered(answer, record, |mut steps| {
            steps.sort_by_key(|step| !matches!(step, Step::Erase { .. }));
            steps
        });
        answer
    },
    ..RIGHT
};

#[test]
#[should_panic(expected = "a block looks newer, half erased")]
fn a_transfer_that_erases_first() {
    cut_everywhere(ERASES_FIRST, Transfer);
}

/// A commit that writes an abort: nothing is found amiss up to its last step.
#[test]
#[should_panic(expected = "a mount found other objects")]
fn a_commit_that_settles_nothing() {
    let request = |image: &[u8], blocks, record: &mut Record, host, message: &[u8], reply: &mut [u8]| {
        let abort = message::abort();
        let message = if message == message::commit() { &abort } else { message };
        Model.request(image, blocks, record, host, message, reply)
    };
    cut_everywhere(Altered { request, ..RIGHT }, Ample);
}

/// Pending changes stay where nothing is torn and no other block is to be erased.
#[test]
#[should_panic(expected = "something is pending after a mount")]
fn a_mount_that_keeps_what_is_pending() {
    let mount = |image: &[u8], blocks| match &read(image, blocks)[..] {
        [Block::Valid(journal), Block::Blank] if !journal.torn => {
            let (length, end, pending) = (image.len(), journal.end as u16, [0; 4]);
            let places = check::places::of_block(cut(image, blocks)[0]);
            (Answer::DONE, Record::Idle(Idle { length, block: 0, end, blocks, edition: 1, pending, places }))
        }
        _ => Model.mount(image, blocks),
    };
    cut_everywhere(Altered { mount, ..RIGHT }, Ample);
}

#[test]
#[should_panic(expected = "other places after a mount")]
fn a_mount_that_finds_no_places() {
    let mount = |image: &[u8], blocks| match Model.mount(image, blocks) {
        (answer, Record::Idle(idle)) => (answer, Record::Idle(Idle { places: [0; 256], ..idle })),
        (answer, record) => match steps(&record) {
            Some((steps, idle)) => (answer, job(steps, Idle { places: [0; 256], ..idle })),
            None => (answer, record),
        },
    };
    cut_everywhere(Altered { mount, ..RIGHT }, Ample);
}

fn read(image: &[u8], blocks: u8) -> Vec<Block> {
    cut(image, blocks).into_iter().map(block::read).collect()
}

/// Refused with this number if a block is in progress.
fn refused(image: &[u8], blocks: u8, refusal: Answer) -> Begun {
    if read(image, blocks).contains(&Block::InProgress) {
        (refusal, Record::Unmounted)
    } else {
        Model.mount(image, blocks)
    }
}

pub const NO_STORE: Altered = Altered { mount: |image, blocks| refused(image, blocks, Answer::NO_STORE), ..RIGHT };
pub const FOREIGN: Altered = Altered { mount: |image, blocks| refused(image, blocks, Answer::FOREIGN), ..RIGHT };
const WORN: Altered = Altered { mount: |image, blocks| refused(image, blocks, Answer::WORN), ..RIGHT };

#[test]
#[should_panic(expected = "the store is gone")]
fn a_mount_that_finds_no_store_after_a_cut() {
    cut_everywhere(NO_STORE, Transfer);
}

#[test]
#[should_panic(expected = "mount after a cut answered 3")]
fn a_mount_that_answers_3_after_a_cut() {
    cut_everywhere(FOREIGN, Transfer);
}

#[test]
#[should_panic(expected = "6 though the time may rise or nothing is to be done")]
fn a_mount_that_answers_6_after_a_cut() {
    cut_everywhere(WORN, Transfer);
}
