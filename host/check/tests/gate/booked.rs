//! What runs are held to: each of these stores is wrong in one thing and stands in all places, so that no comparison can
//! tell. The test must fail by what the book, document 01's numbers of steps or `Wear` know.

use super::altered::{Altered, RIGHT, job, steps};
use super::judged::{ERASES_FIRST, FOREIGN, NO_STORE};
use super::wrong_blocks::BACK_TO_0;
use check::runs::{Made, Plan, run_among};
use model::job::Step;
use model::{Model, Record};
use store::{Answer, Store, Stretch, message};

/// A run of two blocks, or of three in which no power is lost.
pub fn run(store: Altered, blocks: u8) -> Made {
    let (length, calm) = (256 * usize::from(blocks), blocks > 2);
    let (cut_jobs, most_cuts) = (0, 0);
    let plan = Plan { seed: 7, blocks, length, calls: 3_000, time: 1, cut_jobs, most_cuts, filled: false, calm };
    run_among(|| store.everywhere(), plan)
}

#[test]
fn right_stores_run() {
    assert!(run(RIGHT, 2).midway.values().sum::<u64>() > 10);
    assert!(run(RIGHT, 3).erases > 6);
}

/// Another message in the place of those of a kind: the start before their body.
fn instead(
    (kind, start): (u16, [u8; 4]),
    (image, blocks): (&[u8], u8),
    record: &mut Record,
    (host, message): (u8, &[u8]),
    reply: &mut [u8],
) -> Answer {
    let mut message = message.to_vec();
    if message.get(2..4) == Some(&kind.to_le_bytes()) {
        message[..4].copy_from_slice(&start);
    }
    Model.request(image, blocks, record, host, &message, reply)
}

#[test]
#[should_panic(expected = "replay's objects are not the book's")]
fn an_abort_that_commits() {
    let request = |image: &[u8], blocks, record: &mut Record, host, message: &[u8], reply: &mut [u8]| {
        instead((message::ABORT, [4, 0, 3, 1]), (image, blocks), record, (host, message), reply)
    };
    run(Altered { request, ..RIGHT }, 2);
}

#[test]
#[should_panic(expected = "replay's lists are not the book's")]
fn a_delete_that_puts() {
    let request = |image: &[u8], blocks, record: &mut Record, host, message: &[u8], reply: &mut [u8]| {
        instead((message::DELETE, [6, 0, 1, 1]), (image, blocks), record, (host, message), reply)
    };
    run(Altered { request, ..RIGHT }, 2);
}

/// Puts of more than 64 bytes are malformed, as before K2.
#[test]
#[should_panic(expected = ", Put(")]
fn an_answer_that_the_book_does_not_tell() {
    let request = |image: &[u8], blocks, record: &mut Record, host, message: &[u8], reply: &mut [u8]| {
        let long =
            message.get(2) == Some(&1) && message.len() > 70 && matches!(record, Record::Idle(_)) && host < 4;
        if long { Answer::MALFORMED } else { Model.request(image, blocks, record, host, message, reply) }
    };
    run(Altered { request, ..RIGHT }, 2);
}

#[test]
#[should_panic(expected = "got 11")]
fn a_request_that_finds_the_record_stale() {
    let request = |image: &[u8], blocks, record: &mut Record, host, message: &[u8], reply: &mut [u8]| match Model
        .request(image, blocks, record, host, message, reply)
    {
        Answer::SHORT_REPLY => Answer::STALE,
        answer => answer,
    };
    run(Altered { request, ..RIGHT }, 2);
}

/// A request with other steps.
fn with_steps(
    other: fn(Vec<Step>) -> Vec<Step>,
    (image, blocks): (&[u8], u8),
    record: &mut Record,
    (host, message): (u8, &[u8]),
    reply: &mut [u8],
) -> Answer {
    let answer = Model.request(image, blocks, record, host, message, reply);
    if let (Answer::MORE, Some((steps, idle))) = (answer, steps(record)) {
        *record = job(other(steps), idle);
    }
    answer
}

#[test]
#[should_panic(expected = "more steps than due")]
fn a_step_too_many() {
    let request = |image: &[u8], blocks, record: &mut Record, host, message: &[u8], reply: &mut [u8]| {
        let again: fn(Vec<Step>) -> Vec<Step> = |steps| [&steps[..1], &steps].concat();
        with_steps(again, (image, blocks), record, (host, message), reply)
    };
    run(Altered { request, ..RIGHT }, 2);
}

/// Document 01: "each one a step, 0xFF bytes too".
const SKIPS_0XFF: Altered = Altered {
    request: |image, blocks, record, host, message, reply| {
        let fewer: fn(Vec<Step>) -> Vec<Step> = |mut steps| {
            steps.retain(|step| !matches!(step, Step::Program { byte: 0xFF, .. }));
            steps
        };
        with_steps(fewer, (image, blocks), record, (host, message), reply)
    },
    ..RIGHT
};

#[test]
#[should_panic(expected = "fewer steps than due")]
fn bytes_of_0xff_that_are_no_steps() {
    run(SKIPS_0XFF, 3);
}

/// The same cut after some steps: more is written than was to be.
#[test]
#[should_panic(expected = "power was lost and left something else")]
fn a_cut_that_leaves_something_else() {
    run(SKIPS_0XFF, 2);
}

/// U is said to be S.
#[test]
#[should_panic(expected = "another reply")]
fn a_log_of_another_size() {
    let request = |image: &[u8], blocks, record: &mut Record, host, message: &[u8], reply: &mut [u8]| {
        let answer = Model.request(image, blocks, record, host, message, reply);
        if message == message::log() && answer == Answer::DONE {
            reply.copy_within(12..14, 10);
        }
        answer
    };
    run(Altered { request, ..RIGHT }, 2);
}

#[test]
#[should_panic(expected = ": read of ")]
fn a_read_of_too_few_bytes() {
    let read = |image: &[u8], blocks, record: &Record, host, message: &[u8]| {
        let (answer, Stretch { at, len }) = Model.read(image, blocks, record, host, message);
        (answer, Stretch { at, len: len.saturating_sub(1) })
    };
    run(Altered { read, ..RIGHT }, 2);
}

#[test]
#[should_panic(expected = "the store is gone")]
fn a_mount_that_finds_no_store() {
    run(NO_STORE, 2);
}

#[test]
#[should_panic(expected = "mount answered 3")]
fn a_mount_that_answers_3() {
    run(FOREIGN, 2);
}

/// A read goes by the record's number of blocks, whatever it is told.
#[test]
#[should_panic(expected = ", told ")]
fn a_read_that_is_told_another_number() {
    let read = |image: &[u8], blocks, record: &Record, host, message: &[u8]| {
        let own = if let Record::Idle(idle) = record { idle.blocks } else { blocks };
        Model.read(image, own, record, host, message)
    };
    run(Altered { read, ..RIGHT }, 2);
}

#[test]
#[should_panic(expected = "a block looks newer, half erased")]
fn an_erase_of_the_only_valid_block() {
    run(ERASES_FIRST, 2);
}

#[test]
#[should_panic(expected = "erased [")]
fn blocks_that_wear_unevenly() {
    run(BACK_TO_0, 3);
}
