//! Stores that erase too soon or out of turn: which of the inequalities they break.

use super::courses::{ABORT, COMMIT, aborted, put};
use library::Library;
use store::{Answer, Store};
use wear::count::{Bound, Shape};
use wear::policy::{BACK_TO_0, EVERY_COMMIT, EVERY_FRAME, HALF_FULL, RIGHT, TWICE};
use wear::run::Run;
use wear::seek::{Course, count};
use wear::start::mounted;

const SHAPE: Shape = Shape { blocks: 2, size: 1024, edition: 1 };

/// Short changes of an empty store, each with its commit.
fn short() -> Course {
    Course { used: 16, sent: vec![put(0), COMMIT] }
}

/// What reaches the customer's bound.
fn dear() -> Course {
    aborted(512, &[240, 3])
}

fn broken<T: Store>(store: T, shape: Shape, course: &Course) -> Vec<Bound> {
    count(store, shape, course, 40).expect("it erases").broken.into_keys().collect()
}

#[test]
fn right_ones_break_none() {
    for blocks in [2, 3] {
        for edition in [1, 2] {
            let shape = Shape { blocks, edition, ..SHAPE };
            for course in [short(), dear()] {
                assert_eq!(broken(RIGHT, shape, &course), []);
                let [policy, library] = [
                    count(RIGHT, shape, &course, 9).expect("it erases").counts,
                    count(Library::linked(), shape, &course, 9).expect("it erases").counts,
                ];
                assert_eq!(format!("{policy:?}"), format!("{library:?}"));
            }
        }
    }
}

/// They keep 6·E at most B: no frame is shorter than six bytes.
#[test]
fn a_transfer_at_every_frame() {
    let too_soon = [Bound::Strong, Bound::Doubled, Bound::Asked, Bound::EachBlock];
    for policy in [EVERY_FRAME, EVERY_COMMIT] {
        assert_eq!(broken(policy, SHAPE, &short()), too_soon);
        assert_eq!(broken(policy, Shape { edition: 2, ..SHAPE }, &short()), too_soon);
        assert_eq!(broken(policy, Shape { size: 256, ..SHAPE }, &short()), too_soon[..2]);
    }
}

/// With little to copy only the strong one tells. With U = 400 two puts of 48 bytes and their aborts are an erase.
#[test]
fn a_transfer_when_half_full() {
    assert_eq!(broken(HALF_FULL, SHAPE, &short()), [Bound::Strong]);
    let all = [Bound::Strong, Bound::Doubled, Bound::Asked, Bound::EachBlock];
    assert_eq!(broken(HALF_FULL, SHAPE, &aborted(400, &[40])), all);
}

/// What is broken once two hosts have had 744 bytes pending, so that M is large, and many short changes follow; counted from
/// the start, and from where those begin too.
fn broken_after_a_crowd(both: bool) -> Vec<Bound> {
    let mut run = Run::new(mounted(HALF_FULL, SHAPE, &[]).expect("it is empty"), SHAPE);
    for (host, wish) in [(0, put(240)), (0, put(240)), (1, put(240)), (0, ABORT), (1, ABORT)] {
        assert_eq!(run.serve(host, &wish.1.message()), Answer::DONE);
    }
    assert_eq!(run.counts[0].claimed, 16 + 3 * 248);
    if both {
        run.count_from_here();
    }
    for (host, wish) in short().sent.iter().cycle().take(400) {
        assert_eq!(run.serve(*host, &wish.message()), Answer::DONE);
    }
    run.broken.into_keys().collect()
}

#[test]
fn counts_from_the_way() {
    assert_eq!(broken_after_a_crowd(false), []);
    assert_eq!(broken_after_a_crowd(true), [Bound::Strong]);
}

#[test]
fn two_transfers_at_every_frame() {
    let all_but_one = [Bound::Strong, Bound::Doubled, Bound::Asked, Bound::Always, Bound::EachBlock];
    assert_eq!(broken(TWICE, SHAPE, &short()), all_but_one);
}

/// It erases no more often than a right one.
#[test]
fn blocks_that_are_left_out() {
    let three = Shape { blocks: 3, ..SHAPE };
    assert_eq!(broken(BACK_TO_0, SHAPE, &dear()), []);
    assert_eq!(broken(BACK_TO_0, three, &short()), [Bound::InTurn]);
    assert_eq!(broken(BACK_TO_0, three, &dear()), [Bound::EachBlock, Bound::InTurn]);
}
