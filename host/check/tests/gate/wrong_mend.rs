//! Wrong stores, each wrong in one thing that K11 says and in all places: cuts, runs and some images must tell them from right
//! ones.

use super::altered::{Altered, Begun, RIGHT, job, steps};
use super::convert::{filled, header};
use super::judged::{Room, cut_everywhere};
use check::mend::{Due, current, stuff};
use check::runs::{Made, Plan, run_among};
use library::Library;
use model::block::{Replay, replay};
use model::edition::Edition;
use model::frame::{self, Body, Frame, Host};
use model::job::Step;
use model::{Model, Record, block_of};
use plain::Plain;
use store::{Answer, Idle, Store};

const S: usize = 256;

/// Runs of two blocks from this time on.
fn run(store: Altered, time: u32) -> Vec<Made> {
    let (blocks, length, calls, cut_jobs, most_cuts) = (2, 2 * S, 1_500, 0, 0);
    let plan = |seed| Plan { seed, blocks, length, calls, time, cut_jobs, most_cuts, filled: false, calm: false };
    (11..14).map(|seed| run_among(|| store.everywhere(), plan(seed))).collect()
}

#[test]
fn right_stores_run() {
    for time in [1, u32::MAX] {
        let made = run(RIGHT, time);
        for what in ["closed", "reset", "closed and reset"] {
            assert!(made.iter().map(|made| made.own.mends(what)).sum::<u64>() > 5, "{what}");
        }
    }
}

/// Steps of a job, and the record after them.
type Job = (Vec<Step>, Idle);

/// A mount with another job, told from what it is to do.
fn other(image: &[u8], blocks: u8, other: fn(&Due, Job) -> Job) -> Begun {
    let (answer, record) = Model.mount(image, blocks);
    match (Due::of(image, blocks), steps(&record)) {
        (Some(due), Some(right)) => {
            let (steps, idle) = other(&due, right);
            let record = job(steps, idle);
            (if matches!(record, Record::Idle(_)) { Answer::DONE } else { answer }, record)
        }
        _ => (answer, record),
    }
}

/// A commit that lacks its finish byte alone is then whole for a step. (Of others a mount would say 3.)
#[test]
#[should_panic(expected = "a mount found other objects")]
fn the_finish_byte_first() {
    let mount = |image: &[u8], blocks| match current(image, blocks) {
        Some((number, journal)) if image[number * S + journal.end..].starts_with(&[6, 0, 3, 0, 0]) => {
            other(image, blocks, |due, (mut steps, idle)| {
                steps[due.erases..due.erases + due.mending.closes].rotate_right(1);
                (steps, idle)
            })
        }
        _ => Model.mount(image, blocks),
    };
    cut_everywhere(Altered { mount, ..RIGHT }, Room::Ample);
}

#[test]
#[should_panic(expected = "something is pending after a mount")]
fn closing_without_a_reset() {
    let mount = |image: &[u8], blocks| {
        other(image, blocks, |due, (mut steps, idle)| {
            steps.truncate(steps.len() - due.mending.reset);
            (steps, Idle { end: idle.end - due.mending.reset as u16, ..idle })
        })
    };
    cut_everywhere(Altered { mount, ..RIGHT }, Room::Ample);
}

/// The record after a mount's last step says that frames end a byte later.
const SAYS_ANOTHER_END: Altered = Altered {
    mount: |image, blocks| other(image, blocks, |_, (steps, idle)| (steps, Idle { end: idle.end + 1, ..idle })),
    ..RIGHT
};

#[test]
#[should_panic(expected = "a mount ends in another block or at another place")]
fn a_record_that_says_another_end() {
    run(SAYS_ANOTHER_END, 1);
}

#[test]
#[should_panic(expected = "a mount ends in another block or at another place")]
fn a_record_that_says_another_end_after_a_cut() {
    cut_everywhere(SAYS_ANOTHER_END, Room::Ample);
}

/// Program steps of the reset at the end of the current block, and the record after them.
fn with_reset(image: &[u8], blocks: u8, idle: Idle) -> Begun {
    let edition = Edition::ALL[usize::from(idle.edition) - 1];
    let at = usize::from(idle.block) * image.len() / usize::from(blocks) + usize::from(idle.end);
    let reset = frame::reset(edition);
    let end = idle.end + reset.len() as u16;
    let steps = (at..).zip(reset).map(|(at, byte)| Step::Program { at, byte });
    (Answer::MORE, job(steps, Idle { end, ..idle }))
}

#[test]
#[should_panic(expected = "a mount of what a cut left")]
fn a_reset_on_a_clean_mount() {
    let mount = |image: &[u8], blocks| match Model.mount(image, blocks) {
        (Answer::DONE, Record::Idle(idle)) if usize::from(idle.end) + 9 <= S => with_reset(image, blocks, idle),
        begun => begun,
    };
    run(Altered { mount, ..RIGHT }, 1);
}

/// What would close the torn frame of the current block and reset it, wherever that ends.
fn mended(image: &[u8], blocks: u8, with_reset: bool) -> (Vec<Step>, usize) {
    let (number, journal) = current(image, blocks).expect("a current block");
    let (base, block) = (number * S, block_of(image, blocks, number));
    let torn = if journal.torn { usize::from(block[journal.end]) } else { 0 };
    let mut places = vec![];
    if torn > 0 {
        places.extend([1, 2, 3].map(|offset| (journal.end + offset, 0)));
        places.retain(|(at, _)| block[*at] != 0);
        places.push((journal.end + torn - 1, 0xFE));
    }
    let end = journal.end + torn;
    let reset = if with_reset { frame::reset(journal.edition) } else { vec![] };
    let after = end + reset.len();
    places.extend((end..).zip(reset));
    (places.into_iter().map(|(at, byte)| Step::Program { at: base + at, byte }).collect(), after)
}

/// The mount where a transfer is due, told what the mending would be; others are right.
macro_rules! moving {
    ($reset:expr, $other:expr) => {
        Altered {
            mount: |image, blocks| {
                let (answer, record) = Model.mount(image, blocks);
                match (Due::of(image, blocks), steps(&record)) {
                    (Some(due), Some((steps, idle))) if due.mending.moves > 0 => {
                        let other: fn(Vec<Step>, (Vec<Step>, usize), Idle, usize) -> Record = $other;
                        (answer, other(steps, mended(image, blocks, $reset), idle, due.block))
                    }
                    _ => (answer, record),
                }
            },
            ..RIGHT
        }
    };
}

#[test]
#[should_panic(expected = "a mount has another number of steps")]
fn closing_and_transfer_both() {
    let store = moving!(false, |steps, (closing, _), idle, _| job([closing, steps].concat(), idle));
    cut_everywhere(store, Room::Nearly);
}

/// It goes into the next block.
#[test]
#[should_panic(expected = "something is pending after a mount")]
fn a_reset_past_the_block() {
    let store = moving!(true, |_, (mending, end), idle, block| {
        job(mending, Idle { block: block as u8, end: end as u16, ..idle })
    });
    cut_everywhere(store, Room::Exact);
}

/// The image as a reset that clears host 0 alone leaves it: that host's changes and the resets themselves are closed, other hosts'
/// changes are there still.
fn host_0_alone(image: &[u8], blocks: u8) -> Vec<u8> {
    let mut view = image.to_vec();
    let Some((number, journal)) = current(image, blocks) else { return view };
    let mut close = |frame: &Frame| view[number * S + frame.place.start + 2] = 0;
    for (at, frame) in journal.frames.iter().enumerate().filter(|(_, frame)| frame.body == Body::Reset) {
        close(frame);
        let pending = &journal.frames[..at];
        for change in pending.iter().filter(|frame| {
            matches!(frame.body, Body::Put(Host(0), ..) | Body::Delete(Host(0), _))
                && still_pending(pending, frame)
        }) {
            close(change);
        }
    }
    view
}

/// Whether no mark of the frame's host comes behind it.
fn still_pending(frames: &[Frame], change: &Frame) -> bool {
    let behind = frames.iter().filter(|frame| frame.place.start > change.place.start);
    !behind.into_iter().any(|frame| matches!(frame.body, Body::Commit(Host(0)) | Body::Abort(Host(0))))
}

#[test]
#[should_panic(expected = "the record's pending bytes are not the book's")]
fn a_reset_that_clears_one_host() {
    let mount = |image: &[u8], blocks| {
        let (answer, record) = Model.mount(image, blocks);
        let Some((steps, idle)) = steps(&record) else { return (answer, record) };
        let mut after = image.to_vec();
        steps.iter().for_each(|step| step.make(&mut after));
        let view = host_0_alone(&after, blocks);
        let pending = check::pending::of_block(block_of(&view, blocks, usize::from(idle.block)));
        (answer, job(steps, Idle { pending, ..idle }))
    };
    let request = |image: &[u8], blocks, record: &mut Record, host, message: &[u8], reply: &mut [u8]| {
        Model.request(&host_0_alone(image, blocks), blocks, record, host, message, reply)
    };
    run(Altered { mount, request, ..RIGHT }, 1);
}

/// A request that is refused for room where C and the closed frames leave too little.
#[test]
#[should_panic(expected = "failed: host ")]
fn closed_frames_counted_in_c() {
    let request = |image: &[u8], blocks, record: &mut Record, host, message: &[u8], reply: &mut [u8]| {
        let before = record.clone();
        let answer = Model.request(image, blocks, record, host, message, reply);
        if answer != Answer::MORE {
            return answer;
        }
        let Some((_, journal)) = current(image, blocks) else { return answer };
        let closed = journal.frames.iter().filter(|frame| frame.body == Body::Closed);
        let closed: usize = closed.map(|frame| frame.place.len()).sum();
        let claimed = replay(&journal).claimed();
        if matches!(message[2], 1 | 2) && room(&replay(&journal), claimed + closed, host, message) {
            *record = before;
            return Answer::NO_ROOM;
        }
        answer
    };
    run(Altered { request, ..RIGHT }, 1);
}

/// Whether the room rule of edition 1 refuses a put or delete with so many bytes claimed.
fn room(replay: &Replay, claimed: usize, host: u8, message: &[u8]) -> bool {
    let spare = if message[2] == 1 { 14 } else { 0 };
    claimed + message.len() + 2 + 6 * replay.open(Some(Host(host))) + spare > S
}

/// As before K11: whatever is torn or pending needs a transfer.
#[test]
#[should_panic(expected = "stuck(self.twin.image(), self.twin.blocks)")]
fn refusal_6_where_the_reset_fits() {
    let mount = |image: &[u8], blocks| match Due::of(image, blocks) {
        Some(due) if due.time == u32::MAX && due.mending.steps() > 0 => (Answer::WORN, Record::Unmounted),
        _ => Model.mount(image, blocks),
    };
    run(Altered { mount, ..RIGHT }, u32::MAX);
}

/// The block is taken for full, so that what is pending needs a transfer.
#[test]
#[should_panic(expected = "steps than due")]
fn a_transfer_although_the_reset_fits() {
    let mount = |image: &[u8], blocks| {
        let mut full = image.to_vec();
        if let Some((number, journal)) = current(image, blocks) {
            let block = &mut full[number * S..][..S];
            block[journal.end..].fill(0xFF);
            stuff(block, journal.end, journal.edition);
        }
        match Model.mount(&full, blocks) {
            begun @ (Answer::MORE, Record::Job(_)) => begun,
            _ => Model.mount(image, blocks),
        }
    };
    run(Altered { mount, ..RIGHT }, 1);
}

/// Images whose last frame has kind 0 and a length of its own, and what a mount of them answers: of 6, 7 and 8 bytes, in edition
/// 2 of 10, 11 and 12, closed and being closed.
fn lengths() -> Vec<(Vec<u8>, (Answer, usize))> {
    let kinds = [(1, [6, 0, 3, 0, 2, 0xFE].to_vec(), 7), (2, super::second::COMMIT.to_vec(), 11)];
    let frames = kinds.into_iter().flat_map(|(edition, commit, length)| {
        [length - 1, length, length + 1].map(|length| (edition, commit.clone(), length))
    });
    let images = frames.flat_map(|(edition, commit, length)| {
        [(0xFE, 0), (0xFF, 1)].map(|(finish, closes)| {
            let mut closed = vec![0x22; length];
            closed[..4].copy_from_slice(&[length as u8, 0, 0, 0]);
            closed[length - 1] = finish;
            let image = [filled(&[&header(edition, 1), &commit, &closed], S), filled(&[], S)].concat();
            let wrong = [7, 11].contains(&length);
            (image, if wrong { (Answer::FOREIGN, 0) } else { (Answer::DONE, closes) })
        })
    });
    images.collect()
}

/// How many of them a mount gets wrong.
fn wrong_lengths<T: Store>(store: &T) -> usize {
    let wrong = |(image, expected): &(Vec<u8>, (Answer, usize))| {
        let (mut image, (mut answer, mut record)) = (image.clone(), store.mount(image, 2));
        let mut steps = 0;
        if answer == Answer::MORE {
            (answer, steps) = store.run(&mut image, 2, &mut record, usize::MAX);
        }
        (answer, steps) != *expected
    };
    lengths().iter().filter(|image| wrong(image)).count()
}

#[test]
fn right_stores_close_no_length_7() {
    assert_eq!([wrong_lengths(&Model), wrong_lengths(&Plain), wrong_lengths(&Library::linked())], [0; 3]);
}

/// A frame of 7 or 11 bytes with kind 0 is taken for one of a byte more, which may be closed.
#[test]
fn length_7_that_may_be_closed() {
    let mount = |image: &[u8], blocks| {
        let mut view = image.to_vec();
        for (at, length) in [(22, 7), (26, 11)] {
            if view[at..].starts_with(&[length, 0, 0, 0]) {
                let end = at + usize::from(length);
                view.copy_within(end - 1..end, end);
                view[at] += 1;
            }
        }
        Model.mount(&view, blocks)
    };
    // of each edition closed and being closed
    assert_eq!(wrong_lengths(&Altered { mount, ..RIGHT }), 4);
}
