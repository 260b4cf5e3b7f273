//! What is measured.

use crate::case::{Case, OBJECT};
use std::hint::black_box;
use std::time::{Duration, Instant};
use store::{Answer, Idle, Store, message};

#[derive(Clone, Copy)]
pub enum Operation {
    Mount,
    DirtyMount,
    Read,
    ReadNothing,
    Log,
    Accept,
    Step,
    DrivenStep,
    Run,
    Put,
    PutByRun,
    Delete,
    Commit,
    Abort,
    Format,
    Reset,
    Closing,
    Transfer,
    TransferByRun,
}

/// One call each.
pub const SINGLE: [(Operation, &str); 9] = [
    (Operation::Mount, "mount, nothing to do"),
    (Operation::DirtyMount, "mount, a change pending and a torn frame"),
    (Operation::Read, "read"),
    (Operation::ReadNothing, "read that finds nothing"),
    (Operation::Log, "log"),
    (Operation::Accept, "acceptance of a put of 64 bytes"),
    (Operation::Step, "a step of that put"),
    (Operation::DrivenStep, "the same by next and made"),
    (Operation::Run, "a run of all steps of a transfer"),
];

/// The request, mount or format and all its steps.
pub const WHOLE: [(Operation, &str); 10] = [
    (Operation::Put, "put of 64 bytes"),
    (Operation::PutByRun, "put of 64 bytes, by run"),
    (Operation::Delete, "delete"),
    (Operation::Commit, "commit"),
    (Operation::Abort, "abort"),
    (Operation::Format, "format"),
    (Operation::Reset, "mount that drops a change"),
    (Operation::Closing, "mount that also closes a torn frame"),
    (Operation::Transfer, "mount with a transfer"),
    (Operation::TransferByRun, "mount with a transfer, by run"),
];

const VALUE: [u8; OBJECT] = [7; OBJECT];

/// One go at it, and how many operations that was.
pub fn once<S: Store>(store: &S, operation: Operation, case: &Case) -> (Duration, usize) {
    match operation {
        Operation::Mount => timed(|| assert_eq!(store.mount(black_box(&case.rest), case.blocks).0, Answer::DONE)),
        Operation::DirtyMount => {
            timed(|| assert_eq!(store.mount(black_box(&case.torn), case.blocks).0, Answer::MORE))
        }
        Operation::Read => read(store, case, message::read(1), Answer::DONE),
        Operation::ReadNothing => read(store, case, message::read(255), Answer::NO_OBJECT),
        Operation::Log => {
            let (mut record, log, mut page) = (store.idle(case.rest_idle), message::log(), [0; message::PAGE]);
            timed(|| {
                let answer = store.request(black_box(&case.rest), case.blocks, &mut record, 0, &log, &mut page);
                assert_eq!(answer, Answer::DONE);
            })
        }
        Operation::Accept => {
            let (mut record, put) = (store.idle(case.rest_idle), message::put(1, &VALUE));
            timed(|| assert_eq!(ask(store, &case.rest, case.blocks, &mut record, &put), Answer::MORE))
        }
        Operation::Step | Operation::DrivenStep => steps_of_put(store, case),
        Operation::Run => run_of_transfer(store, case),
        Operation::Put => serve(store, &case.rest, case.rest_idle, message::put(1, &VALUE), finish),
        Operation::PutByRun => serve(store, &case.rest, case.rest_idle, message::put(1, &VALUE), run),
        Operation::Delete => serve(store, &case.rest, case.rest_idle, message::delete(1), finish),
        Operation::Commit => serve(store, &case.pending, case.pending_idle, message::commit(), finish),
        Operation::Abort => serve(store, &case.pending, case.pending_idle, message::abort(), finish),
        Operation::Format => restart(store, &case.rest, case.blocks, S::format, finish),
        Operation::Reset => restart(store, &case.pending, case.blocks, S::mount, finish),
        Operation::Closing => restart(store, &case.torn, case.blocks, S::mount, finish),
        Operation::Transfer => restart(store, &case.crowded, case.blocks, S::mount, finish),
        Operation::TransferByRun => restart(store, &case.crowded, case.blocks, S::mount, run),
    }
}

fn timed(operation: impl FnOnce()) -> (Duration, usize) {
    let start = Instant::now();
    operation();
    (start.elapsed(), 1)
}

fn ask<S: Store>(store: &S, image: &[u8], blocks: u8, record: &mut S::Record, message: &[u8]) -> Answer {
    store.request(black_box(image), blocks, record, 0, message, &mut [])
}

fn steps_of_put<S: Store>(store: &S, case: &Case) -> (Duration, usize) {
    let (mut image, mut record) = (case.rest.clone(), store.idle(case.rest_idle));
    assert_eq!(ask(store, &image, case.blocks, &mut record, &message::put(1, &VALUE)), Answer::MORE);
    let start = Instant::now();
    let steps = finish(store, &mut image, case.blocks, &mut record);
    (start.elapsed(), steps)
}

/// The mount before it does not count.
fn run_of_transfer<S: Store>(store: &S, case: &Case) -> (Duration, usize) {
    let mut image = case.crowded.clone();
    let (answer, mut record) = store.mount(&image, case.blocks);
    assert_eq!(answer, Answer::MORE);
    timed(|| assert!(run(store, &mut image, case.blocks, &mut record) > 0))
}

/// All steps of the job in hand; how many they were.
fn finish<S: Store>(store: &S, image: &mut [u8], blocks: u8, record: &mut S::Record) -> usize {
    let mut steps = 1;
    while store.step(image, blocks, record) == Answer::MORE {
        steps += 1;
    }
    steps
}

/// The same in one call; a store that has none makes the steps one by one.
fn run<S: Store>(store: &S, image: &mut [u8], blocks: u8, record: &mut S::Record) -> usize {
    let (answer, steps) = store.run(image, blocks, record, usize::MAX);
    assert_eq!(answer, Answer::DONE);
    steps
}

/// Reads in one go: one alone takes less time than the clock shows.
const READS: usize = 200;

fn read<S: Store>(store: &S, case: &Case, message: Vec<u8>, expected: Answer) -> (Duration, usize) {
    let record = store.idle(case.rest_idle);
    let (time, _) = timed(|| {
        for _ in 0..READS {
            let (image, record, message) = (black_box(&case.rest), black_box(&record), black_box(&message));
            assert_eq!(store.read(image, case.blocks, record, 0, message).0, expected);
        }
    });
    (time, READS)
}

fn serve<S: Store>(
    store: &S,
    image: &[u8],
    idle: Idle,
    message: Vec<u8>,
    steps: impl Fn(&S, &mut [u8], u8, &mut S::Record) -> usize,
) -> (Duration, usize) {
    let (mut image, mut record) = (image.to_vec(), store.idle(idle));
    timed(|| {
        assert_eq!(ask(store, &image, idle.blocks, &mut record, &message), Answer::MORE);
        steps(store, &mut image, idle.blocks, &mut record);
    })
}

/// A mount or format and its steps.
fn restart<S: Store>(
    store: &S,
    image: &[u8],
    blocks: u8,
    begin: impl Fn(&S, &[u8], u8) -> (Answer, S::Record),
    steps: impl Fn(&S, &mut [u8], u8, &mut S::Record) -> usize,
) -> (Duration, usize) {
    let mut image = image.to_vec();
    timed(|| {
        let (answer, mut record) = begin(store, black_box(&image), blocks);
        assert_eq!(answer, Answer::MORE);
        steps(store, &mut image, blocks, &mut record);
    })
}
