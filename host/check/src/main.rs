//! The comparison for as long as one likes: `cargo run --release -p check -- [apart] [SECONDS [FIRST_ROUND]]`, with `apart`
//! of model and plain alone.

use check::rounds::{Rounds, Sum};
use check::side::{Modelled, Stores};
use std::time::{Duration, Instant};
use store::{Drive, Store};

fn main() {
    let words: Vec<String> = std::env::args().skip(1).collect();
    let apart = words.first().is_some_and(|word| word == "apart");
    let numbers: Option<Vec<u64>> = words[usize::from(apart)..].iter().map(|text| text.parse().ok()).collect();
    let (seconds, first) = match numbers.as_deref() {
        Some([]) => (600, 1_000),
        Some([seconds]) => (*seconds, 1_000),
        Some([seconds, first]) => (*seconds, *first),
        _ => {
            eprintln!("usage: check [apart] [SECONDS [FIRST_ROUND]]");
            std::process::exit(2);
        }
    };
    let time = Duration::from_secs(seconds);
    if apart { compare(Stores::apart, time, first) } else { compare(Stores::real, time, first) }
}

fn compare<M: Modelled, L: Drive, P: Store>(stores: impl Fn() -> Stores<M, L, P>, time: Duration, first: u64) {
    let start = Instant::now();
    let mut rounds = Rounds::among(stores);
    for round in first.. {
        println!("round {round}, {} s", start.elapsed().as_secs());
        rounds.runs_of_two(round);
        rounds.runs_of_more(round);
        rounds.images_of_two(round);
        rounds.images_of_more(round);
        if start.elapsed() >= time {
            break;
        }
    }
    let Sum { tally, runs, cuts, inside, images, .. } = rounds.sum;
    println!(
        "{tally}No difference in {} calls: {runs} runs, {cuts} cuts ({inside} inside an erase), {images} damaged images.",
        tally.calls()
    );
}
