//! A small search; `cargo run --release -p wear` makes the large one.

use super::courses::{ABORT, put};
use library::Library;
use std::collections::BTreeMap;
use wear::count::Shape;
use wear::seek::{Course, Premise, count, seek, try_on};

/// All pairs of puts around half of what is free beside U = S/2 = 128: none costs less than (129 + 6) / 2 bytes an erase,
/// where the bound is 129 / 2.
#[test]
fn every_pair_of_aborted_puts() {
    let shape = Shape { blocks: 2, size: 256, edition: 1 };
    let cost = |first, second| {
        let course = Course { used: 128, sent: vec![put(first), ABORT, put(second), ABORT] };
        let cost = try_on(Library::linked(), shape, Premise::Half, &course, 8)?;
        Some((cost.bytes, first, second))
    };
    let pairs = (40..=70).flat_map(|first| (40..=70).map(move |second| (first, second)));
    let costs = pairs.filter_map(|(first, second)| cost(first, second));
    let (least, first, second) = costs.min().expect("there are some");
    assert_eq!((least, first + second), (4 * (129 + 6), 107));
}

/// What a search finds keeps the inequalities, and is near what we know of.
#[test]
fn a_short_search() {
    for (size, edition, premise, near) in
        [(512, 1, Premise::Half, 145.0), (256, 2, Premise::Half, 75.0), (256, 1, Premise::None, 16.0)]
    {
        let shape = Shape { blocks: 2, size, edition };
        let (course, cost) = seek(shape, premise, 1, 3_000).expect("it finds some");
        assert!(cost.bytes_an_erase() <= near, "{} bytes an erase: {course}", cost.bytes_an_erase());
        let run = count(Library::linked(), shape, &course, 50).expect("it erases");
        assert_eq!(run.broken, BTreeMap::new(), "{course}");
    }
}
