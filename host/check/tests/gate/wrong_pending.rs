//! Wrong stores, each wrong in one thing that K7 says and in all places: what the book tells must tell them from right ones.

use super::altered::{Altered, RIGHT, job, steps};
use super::booked::run;
use model::block::{self, Block};
use model::job::Step;
use model::{Model, Record, block_of};
use store::{Answer, Idle, Store, message};

/// What a put or delete would make: the host's pending bytes, those of the frame, of all hosts, and of a block.
struct Asked {
    own: usize,
    frame: usize,
    all: usize,
    size: usize,
}

/// The frame of a well-formed put or delete of a host that is there.
fn frame(host: u8, message: &[u8]) -> Option<Vec<u8>> {
    let right =
        message.len() >= 6 && usize::from(message[0]) == message.len() && message[1] == 0 && message[5] == 0;
    match message.get(2..4) {
        Some([1, 1]) if right && host < 4 => {
            let head = [message.len() as u8 + 2, 0, 1, 0, host, message[4], 0];
            Some([&head, &message[6..], &[0xFE]].concat())
        }
        Some([2, 1]) if right && host < 4 => Some(vec![8, 0, 2, 0, host, message[4], 0, 0xFE]),
        _ => None,
    }
}

/// Puts and deletes that are otherwise taken get 12 if this says so; those that get 12 by right, and fit behind the last
/// frame, are taken if it does not.
fn refusing(
    full: fn(Asked) -> bool,
    (image, blocks): (&[u8], u8),
    record: &mut Record,
    (host, message): (u8, &[u8]),
    reply: &mut [u8],
) -> Answer {
    let before = record.clone();
    let answer = Model.request(image, blocks, record, host, message, reply);
    let (Record::Idle(idle), Some(frame)) = (&before, frame(host, message)) else { return answer };
    let (size, own) = (image.len() / usize::from(blocks), usize::from(idle.pending[usize::from(host)]));
    let all = idle.pending.iter().map(|bytes| usize::from(*bytes)).sum();
    let full = full(Asked { own, frame: frame.len(), all, size });
    let at = usize::from(idle.block) * size + usize::from(idle.end);
    if full && answer == Answer::MORE {
        *record = before;
        return Answer::HOST_FULL;
    }
    if full || answer != Answer::HOST_FULL || usize::from(idle.end) + frame.len() > size {
        return answer;
    }
    let mut after = Idle { end: idle.end + frame.len() as u16, ..*idle };
    after.pending[usize::from(host)] += frame.len() as u16;
    *record = job((at..).zip(frame).map(|(at, byte)| Step::Program { at, byte }), after);
    Answer::MORE
}

/// A store whose requests are `refusing` or `leaving` by this rule.
macro_rules! requests {
    ($ask:ident, $rule:expr) => {
        Altered {
            request: |image, blocks, record, host, message, reply| {
                $ask($rule, (image, blocks), record, (host, message), reply)
            },
            ..RIGHT
        }
    };
}

#[test]
fn the_right_limit() {
    run(requests!(refusing, |Asked { own, frame, size, .. }| own + frame > size / 2), 2);
}

#[test]
#[should_panic(expected = "failed: host ")]
fn half_a_block_is_too_much() {
    run(requests!(refusing, |Asked { own, frame, size, .. }| own + frame >= size / 2), 2);
}

#[test]
#[should_panic(expected = "failed: host ")]
fn all_hosts_together() {
    run(requests!(refusing, |Asked { all, frame, size, .. }| all + frame > size / 2), 2);
}

#[test]
#[should_panic(expected = "failed: host ")]
fn what_was_pending_before_alone() {
    run(requests!(refusing, |Asked { own, size, .. }| own > size / 2), 2);
}

#[test]
#[should_panic(expected = "failed: host ")]
fn a_frame_without_its_head() {
    run(requests!(refusing, |Asked { own, frame, size, .. }| own + frame - 8 > size / 2), 2);
}

#[test]
#[should_panic(expected = "failed: host ")]
fn half_of_the_image() {
    run(requests!(refusing, |Asked { own, frame, size, .. }| own + frame > size), 2);
}

/// 7 where both apply.
#[test]
#[should_panic(expected = "failed: host ")]
fn room_first() {
    let request = |image: &[u8], blocks, record: &mut Record, host, message: &[u8], reply: &mut [u8]| {
        let answer = Model.request(image, blocks, record, host, message, reply);
        let (Record::Idle(idle), Answer::HOST_FULL) = (record, answer) else { return answer };
        let bytes = block_of(image, blocks, usize::from(idle.block));
        let Block::Valid(journal) = block::read(bytes) else { return answer };
        let claimed = block::replay(&journal).claimed();
        if claimed + message.len() + 2 > bytes.len() { Answer::NO_ROOM } else { answer }
    };
    run(Altered { request, ..RIGHT }, 2);
}

/// A request whose job leaves other pending bytes, told from the record before and the one after.
fn leaving(
    other: fn(Idle, Idle, u8, &[u8]) -> [u16; 4],
    (image, blocks): (&[u8], u8),
    record: &mut Record,
    (host, message): (u8, &[u8]),
    reply: &mut [u8],
) -> Answer {
    let before = record.clone();
    let answer = Model.request(image, blocks, record, host, message, reply);
    if let (Answer::MORE, Record::Idle(before), Some((steps, after))) = (answer, before, steps(record)) {
        *record = job(steps, Idle { pending: other(before, after, host, message), ..after });
    }
    answer
}

#[test]
#[should_panic(expected = "the record's pending bytes are not the book's")]
fn an_abort_that_keeps_the_count() {
    run(
        requests!(leaving, |before, after, _, message| {
            if message == message::abort() { before.pending } else { after.pending }
        }),
        2,
    );
}

#[test]
#[should_panic(expected = "the record's pending bytes are not the book's")]
fn a_transfer_that_clears_the_counts() {
    run(
        requests!(leaving, |before, after, host, _| {
            let mut pending = after.pending;
            for other in (0..4).filter(|other| *other != usize::from(host) && before.block != after.block) {
                pending[other] = 0;
            }
            pending
        }),
        2,
    );
}

#[test]
#[should_panic(expected = "the record's pending bytes are not the book's")]
fn a_commit_that_clears_all_counts() {
    run(
        requests!(leaving, |_, after, _, message| {
            if message == message::commit() { [0; 4] } else { after.pending }
        }),
        2,
    );
}

/// A mount that drops the changes and says that they are pending still.
#[test]
#[should_panic(expected = "the record's pending bytes are not the book's")]
fn a_mount_that_keeps_the_counts() {
    let mount = |image: &[u8], blocks| {
        let (answer, record) = Model.mount(image, blocks);
        let Some((steps, after)) = steps(&record) else { return (answer, record) };
        let from = (after.block + blocks - 1) % blocks;
        let pending = check::pending::of_block(block_of(image, blocks, usize::from(from)));
        (answer, job(steps, Idle { pending, ..after }))
    };
    run(Altered { mount, ..RIGHT }, 2);
}

/// A store that looks at no counts: 11 is not given where it is due.
#[test]
#[should_panic(expected = " under Idle {")]
fn counts_that_are_not_looked_at() {
    let request = |image: &[u8], blocks, record: &mut Record, host, message: &[u8], reply: &mut [u8]| {
        let mut right = record.clone();
        if let Record::Idle(idle) = &mut right
            && idle.blocks == blocks
            && idle.block < blocks
        {
            idle.pending = check::pending::of_block(block_of(image, blocks, usize::from(idle.block)));
        }
        let answer = Model.request(image, blocks, &mut right, host, message, reply);
        if answer == Answer::MORE {
            *record = right;
        }
        answer
    };
    run(Altered { request, ..RIGHT }, 2);
}
