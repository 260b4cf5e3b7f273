//! Runs that cost as few bytes an erase as we know of, worked out by hand.

use check::generate::Wish;
use library::Library;
use std::collections::BTreeMap;
use store::{Answer, message};
use wear::count::{Count, Shape};
use wear::run::Run;
use wear::seek::{Course, Premise, count, try_on};
use wear::start::{fullest, mounted};

pub fn put(size: usize) -> (u8, Wish) {
    (0, Wish::Put(200, vec![7; size]))
}

pub const DELETE: (u8, Wish) = (0, Wish::Delete(200));
pub const ABORT: (u8, Wish) = (0, Wish::Abort);
pub const COMMIT: (u8, Wish) = (0, Wish::Commit);

/// Puts of these sizes and one abort.
pub fn aborted(used: usize, sizes: &[usize]) -> Course {
    Course { used, sent: sizes.iter().map(|size| put(*size)).chain([ABORT]).collect() }
}

/// Bytes after the first erase until so many more came, which the record tells as the image does, and what was counted.
fn counted(shape: Shape, course: &Course, erases: usize) -> (usize, Count) {
    let run = count(Library::linked(), shape, course, erases).expect("it erases");
    assert_eq!(run.broken, BTreeMap::new(), "{shape:?}, {course}");
    let cost = try_on(Library::linked(), shape, Premise::None, course, erases).expect("it erases");
    let count = run.counts[0].clone();
    assert_eq!(count.erases, erases + 1);
    let first = self::count(Library::linked(), shape, course, 0).expect("it erases").counts[0].bytes;
    assert_eq!(count.bytes - first, cost.bytes, "{shape:?}, {course}");
    (cost.bytes, count)
}

/// With U = S/2 each put makes a transfer where two puts and an abort come to S/2 + 1: half of that and of a further abort.
#[test]
fn puts_that_are_aborted() {
    for (size, edition) in [256, 384, 512, 640, 768, 896].into_iter().flat_map(|size| [(size, 1), (size, 2)]) {
        let (mark, change) = if edition == 1 { (6, 8) } else { (10, 12) };
        let both = size / 2 + 1 - mark;
        let [first, second] = [both / 2, both - both / 2].map(|frame| put(frame - change));
        let (shape, sent) = (Shape { blocks: 2, size, edition }, vec![first, ABORT, second, ABORT]);
        let (cost, count) = counted(shape, &Course { used: size / 2, sent }, 60);
        assert_eq!((cost, count.claimed), (30 * (both + 2 * mark), size / 2), "S = {size}, edition {edition}");
    }
}

/// The longest frame makes each transfer, and what stands before it is one byte too much for it.
#[test]
fn the_customers_bound_is_reached() {
    let longest = |rest: usize, times: usize| [vec![240; times], vec![rest]].concat();
    for (size, edition, sizes, bytes) in [
        (1024, 1, longest(3, 1), 265),
        (1536, 1, longest(11, 2), 521),
        (1536, 2, vec![240, 231, 0], 517),
        (2048, 1, longest(19, 3), 777),
        (4096, 1, longest(51, 7), 1801),
        (4096, 2, longest(11, 7), 1797),
    ] {
        let shape = Shape { blocks: 2, size, edition };
        let (cost, count) = counted(shape, &aborted(size / 2, &sizes), 20);
        assert_eq!((cost, count.claimed), (20 * bytes, size / 2), "S = {size}, edition {edition}");
        assert_eq!(shape.asked(), Some(bytes));
    }
}

/// Commits of six bytes make all transfers but the first: they cost 508 bytes, and with the six again 1024 + 1 - 511.
#[test]
fn commits_that_transfer() {
    let shape = Shape { blocks: 3, size: 1024, edition: 1 };
    let (cost, count) = counted(shape, &Course { used: 16, sent: vec![put(240), COMMIT] }, 30);
    assert_eq!((cost, count.claimed), (514 + 29 * 508, 263 + 248));
    assert_eq!(count.causing, 30 * 6);
}

/// In edition 2 the same puts make the transfers.
#[test]
fn largest_frames() {
    let shape = Shape { blocks: 3, size: 1024, edition: 2 };
    let (cost, count) = counted(shape, &Course { used: 16, sent: vec![put(240), COMMIT] }, 30);
    assert_eq!((cost, count.claimed, count.causing), (30 * 524, 267, 30 * 252));
}

/// A delete and its abort for each erase, and the delete again is S + 1 - U.
#[test]
fn stores_that_are_almost_full() {
    for (size, blocks) in [(256, 2), (512, 3), (1024, 16), (4096, 2)] {
        for (edition, bytes) in [(1, 14), (2, 22)] {
            let shape = Shape { blocks, size, edition };
            let (cost, count) = counted(shape, &Course { used: fullest(shape), sent: vec![DELETE, ABORT] }, 40);
            assert_eq!((cost, count.claimed), (40 * bytes, fullest(shape)), "{shape:?}");
        }
    }
}

/// A convert can leave less than a put does: U is 22 below S.
#[test]
fn fuller_by_a_convert() {
    let shape = Shape { blocks: 2, size: 512, edition: 2 };
    let (cost, count) = counted(shape, &Course { used: 512 - 22, sent: vec![DELETE, ABORT] }, 40);
    assert_eq!((cost, count.claimed), (40 * 22, 490));
}

/// With less than that every change is refused, and nothing is erased.
#[test]
fn tight_stores() {
    for left in [21, 12, 1, 0] {
        let shape = Shape { blocks: 2, size: 256, edition: 2 };
        // 16 + 6·11 + 6·29 is 256
        let sizes = [29, 29, 29, 29, 29, 29 - left];
        let mut run = Run::new(mounted(Library::linked(), shape, &sizes).expect("they fit"), shape);
        for host in 0..4 {
            assert_eq!(run.serve(host, &message::delete(0)), Answer::NO_ROOM);
            assert_eq!(run.serve(host, &message::put(1, &[])), Answer::NO_ROOM);
            assert_eq!(run.serve(host, &message::commit()), Answer::DONE);
        }
        assert_eq!((run.counts[0].bytes, run.counts[0].erases), (0, 0));
    }
}

/// A journal that ends with the block, and a commit that moves it: six bytes for one erase, in edition 2 ten.
#[test]
fn a_commit_alone() {
    for (edition, sizes, bytes) in [(1, [240, 234], 6), (2, [240, 222], 10)] {
        let shape = Shape { blocks: 2, size: 512, edition };
        let mut run = Run::new(mounted(Library::linked(), shape, &[]).expect("it is empty"), shape);
        for (host, wish) in [put(sizes[0]), ABORT, put(sizes[1])] {
            assert_eq!(run.serve(host, &wish.message()), Answer::DONE);
        }
        run.count_from_here();
        assert_eq!(run.serve(0, &message::commit()), Answer::DONE);
        assert_eq!((run.counts[1].erases, run.counts[1].bytes), (1, bytes));
        assert_eq!(run.broken, BTreeMap::new());
    }
}
