//! Random runs and damaged images, fixed seeds. `cargo run --release -p check` makes more rounds of the same.

use check::places::Wrong;
use check::rounds::{Rounds, Sum};
use check::side::Stores;
use check::tally::Tally;
use store::{Answer, Field};

fn seen(tally: &Tally, call: &'static str, answers: &[Answer]) {
    for answer in answers {
        assert!(tally.of(call, *answer) > 0, "no {call} answered {answer}");
    }
}

/// Values of 0 to 240 bytes were put and read, the longest too and of every eight lengths some; 241 were too many.
fn seen_values(sum: &Sum) {
    for (call, answer) in [("request", Answer::MORE), ("read", Answer::DONE)] {
        let count = |length: usize| sum.tally.with_value(call, answer, length);
        for first in (0..240).step_by(8) {
            assert!(
                (first..first + 8).any(|length| count(length) > 0),
                "{call}: none of {first} bytes or a few more"
            );
        }
        assert!(count(240) > 0 && count(241) == 0, "{call}: {} of 240 bytes, {} of 241", count(240), count(241));
    }
    for length in 0..=240 {
        assert_eq!(sum.tally.with_value("request", Answer::MALFORMED, length), 0, "{length} bytes were too many");
    }
    assert!(sum.tally.with_value("request", Answer::MALFORMED, 241) > 0, "no put of 241 bytes was tried");
}

/// Hosts were full, there was no room though they were not, and counts of pending bytes were wrong, not just a few times.
fn seen_pending(tally: &Tally) {
    let [full, room] = [Answer::HOST_FULL, Answer::NO_ROOM].map(|answer| tally.of("request", answer));
    assert!(full > 100 && room > 100, "{full} hosts were full, {room} times there was no room");
    assert!(tally.pending > 100, "{} counts were wrong", tally.pending);
}

/// Runs were in edition 2, in tight stores too, and records of other editions were tried, not just a few times.
fn seen_editions(tally: &Tally) {
    assert!(tally.second > 1_000 && tally.tight > 20, "{} in edition 2, {} tight", tally.second, tally.tight);
    assert!(tally.editions > 50, "{} editions were wrong", tally.editions);
}

/// Places were wrong in every way, and reads answered by them as the way allows, not just a few times.
fn seen_places(tally: &Tally) {
    for how in Wrong::ALL {
        let answer = match how {
            Wrong::None => Answer::NO_OBJECT,
            Wrong::OtherValue => Answer::DONE,
            _ => Answer::STALE,
        };
        let count = tally.places(how, answer);
        assert!(count > 10, "{how:?}: {count} reads answered {answer}");
    }
}

/// Mounts found nothing to do, closed a frame, dropped changes, both, and made a transfer because the reset did not fit.
fn seen_mends(tally: &Tally) {
    for what in ["clean", "closed", "reset", "closed and reset", "moved"] {
        assert!(tally.mends(what) > 10, "{what}: {} mounts", tally.mends(what));
    }
}

/// Mounts were cut in each of these.
fn seen_cut_mends(tally: &Tally) {
    for what in ["cut in closing", "cut before a reset", "cut in a reset", "cut in a transfer"] {
        assert!(tally.mends(what) > 0, "no mount was {what}");
    }
}

/// Each block up to this one was found broken in each field.
fn seen_faults(sum: &Sum, last: usize) {
    for (block, field) in (0..=last).flat_map(|block| Field::ALL.map(|field| (block, field))) {
        assert!(sum.tally.faults(block, field) > 0, "block {block} never had a bad {field}");
    }
}

/// By the runs' own calls alone, without those of the recoveries from cuts of copies.
fn seen_runs(sum: &Sum) {
    assert!(sum.inside > 1_000, "{} cuts inside an erase", sum.inside);
    assert!(sum.own_inside > 50, "{} of them in runs themselves", sum.own_inside);
    assert_eq!(sum.tally.of("mount", Answer::FOREIGN), 0);
    seen(&sum.own, "mount", &[0, 2, 6, 255].map(Answer));
    seen(&sum.own, "request", &[0, 1, 2, 4, 5, 6, 7, 8, 9, 10, 11, 12, 16, 255].map(Answer));
    seen_pending(&sum.own);
    seen_editions(&sum.own);
    seen_places(&sum.own);
    seen_mends(&sum.own);
    seen_cut_mends(&sum.own);
    seen(&sum.own, "step", &[0, 11, 255].map(Answer));
    seen(&sum.own, "run", &[0, 11, 255].map(Answer));
    seen(&sum.own, "read", &[0, 1, 4, 5, 8, 10, 11].map(Answer));
    for job in ["put", "delete", "commit", "abort", "convert", "mount", "format"] {
        assert!(sum.midway.contains_key(job), "no {job} of a run was cut between its steps");
    }
    let cuts = sum.midway.values().sum::<u64>();
    assert!(cuts > 200, "{cuts} jobs of runs were cut between steps");
    seen_faults(sum, 1);
}

fn runs_of(rounds: std::ops::Range<u64>) {
    let mut made = Rounds::among(Stores::real);
    rounds.for_each(|round| made.runs_of_two(round));
    seen_runs(&made.sum);
    seen_values(&made.sum);
}

#[test]
fn runs_of_first_rounds() {
    runs_of(0..2);
}

#[test]
fn runs_of_later_rounds() {
    runs_of(2..4);
}

#[test]
fn runs_of_more_blocks() {
    let mut rounds = Rounds::among(Stores::real);
    rounds.runs_of_more(0);
    let sum = rounds.sum;
    seen_runs(&sum);
    for blocks in 2..=16 {
        assert!(sum.even[blocks] > 2 * blocks, "{} erases of {blocks} blocks", sum.even[blocks]);
    }
}

fn seen_images(sum: &Sum) {
    seen(&sum.tally, "mount", &[0, 2, 3, 6, 255].map(Answer));
    seen(&sum.tally, "request", &[0, 1, 2, 6, 7, 8, 9, 10, 11, 12, 16, 255].map(Answer));
    seen_pending(&sum.tally);
    seen_mends(&sum.tally);
    seen_places(&sum.tally);
    assert!(sum.tally.editions > 100, "{} editions were wrong", sum.tally.editions);
    seen(&sum.tally, "read", &[0, 1, 2, 8, 10, 11].map(Answer));
}

#[test]
fn images_of_first_rounds() {
    let mut rounds = Rounds::among(Stores::real);
    (0..2).for_each(|round| rounds.images_of_two(round));
    seen_images(&rounds.sum);
    seen_values(&rounds.sum);
    seen_faults(&rounds.sum, 1);
}

#[test]
fn images_of_more_blocks() {
    let mut rounds = Rounds::among(Stores::real);
    (0..2).for_each(|round| rounds.images_of_more(round));
    let sum = rounds.sum;
    seen_images(&sum);
    seen_faults(&sum, 2);
    for block in 3..16 {
        assert!(Field::ALL.iter().any(|field| sum.tally.faults(block, *field) > 0), "block {block} never broke");
    }
}
