//! `cargo run --release -p wear -- [PICTURE [TRIALS]]`: the tables of ../docs/WEAR.md and, if it is told where, its picture.

use library::Library;
use std::process::exit;
use wear::count::{Count, Shape};
use wear::life::{self, Life, live};
use wear::picture::{Least, draw};
use wear::policy::{EVERY_COMMIT, EVERY_FRAME, HALF_FULL, Policy};
use wear::seek::{Course, Premise, count, seek};

const SIZES: [usize; 12] = [256, 384, 512, 640, 768, 896, 1024, 1280, 1536, 2048, 3072, 4096];
const TRIALS: usize = 40_000;
/// Erases after the first of the runs that are reported.
const ERASES: usize = 1_000;
/// Erases of each block in the example's runs.
const OFTEN: usize = 200;

fn main() {
    let words: Vec<String> = std::env::args().skip(1).collect();
    let (picture, trials) = match &words[..] {
        [] => (None, Some(TRIALS)),
        [picture] => (Some(picture), Some(TRIALS)),
        [picture, trials] => (Some(picture), trials.parse().ok()),
        _ => (None, None),
    };
    let Some(trials) = trials else {
        eprintln!("usage: wear [PICTURE [TRIALS]]");
        exit(2);
    };
    examples();
    policies();
    let found = search(trials);
    if let Some(path) = picture
        && let Err(error) = std::fs::write(path, draw(&found))
    {
        eprintln!("wear: {path}: {error}");
        exit(1);
    }
}

/// Years of one change a minute until a block has had its 100,000 erases.
fn examples() {
    println!(
        "| S | Edition | N | B a change | years, `asked` | years, `strong` | years, measured | bytes an erase, measured |"
    );
    println!("|---|---|---|---|---|---|---|---|");
    for (size, edition) in [(4096, 1), (4096, 2), (1024, 1), (1024, 2)] {
        for blocks in [2, 4, 16] {
            let shape = Shape { blocks, size, edition };
            let life = live(Library::linked(), shape, OFTEN);
            let asked = shape.asked().map_or("none".to_string(), |bytes| years(life::years(shape, bytes)));
            let (strong, measured) = (years(life::years(shape, life::strong(shape))), years(life.years()));
            let (change, erase) = (life::change(shape), bytes(life.bytes_an_erase()));
            println!("| {size} | {edition} | {blocks} | {change} | {asked} | {strong} | {measured} | {erase} |");
        }
    }
    println!();
}

/// The same example on stores that transfer at other times.
fn policies() {
    println!("| Transfer | S = 4096: bytes an erase | years | S = 1024: bytes an erase | years |");
    println!("|---|---|---|---|---|");
    let shapes = [4096, 1024].map(|size| Shape { blocks: 2, size, edition: 1 });
    row("when the block is full, the library", shapes.map(|shape| live(Library::linked(), shape, OFTEN)));
    for policy in [HALF_FULL, EVERY_COMMIT, EVERY_FRAME] {
        let Policy { name, .. } = policy;
        row(name, shapes.map(|shape| live(policy, shape, OFTEN)));
    }
    println!();
}

fn row(name: &str, lives: [Life; 2]) {
    let cells = lives.map(|life| format!("{} | {}", bytes(life.bytes_an_erase()), years(life.years())));
    println!("| {name} | {} |", cells.join(" | "));
}

/// The least bytes an erase that so many trials find, by size and edition.
fn search(trials: usize) -> Vec<Least> {
    println!(
        "| S | Edition | bound 2 | bound 3 | least found, C ≤ S/2 | by | bound 4 | least found, any C | by |"
    );
    println!("|---|---|---|---|---|---|---|---|---|");
    let mut found = Vec::new();
    for (size, edition) in SIZES.into_iter().flat_map(|size| [(size, 1), (size, 2)]) {
        let shape = Shape { blocks: 2, size, edition };
        // without the premise the least is soon found
        let [half, any] = [(Premise::Half, trials), (Premise::None, trials / 4)]
            .map(|(premise, trials)| least(shape, premise, trials));
        let doubled = bytes((size / 2 + 1) as f64 / 2.0);
        let asked = shape.asked().map_or("none".to_string(), |bytes| bytes.to_string());
        let [(half_course, half), (any_course, any)] = [half, any];
        let (least_half, least_any, always) = (bytes(half), bytes(any), shape.shortest());
        println!(
            "| {size} | {edition} | {doubled} | {asked} | {least_half} | {half_course} | {always} | {least_any} | {any_course} |"
        );
        found.push(Least { shape, half, any });
    }
    found
}

/// What was found, made again by single steps: its B / (E - 1).
fn least(shape: Shape, premise: Premise, trials: usize) -> (Course, f64) {
    let (course, _) = seek(shape, premise, 1, trials).expect("some course erases");
    let run = count(Library::linked(), shape, &course, ERASES).expect("it erases");
    let Count { erases, bytes, .. } = run.counts[0];
    assert!(premise == Premise::None || run.counts[0].roomy(), "C was above S/2: {course}");
    assert!(run.broken.is_empty(), "{course}: {:?}", run.broken);
    (course, bytes as f64 / (erases - 1) as f64)
}

fn bytes(number: f64) -> String {
    format!("{number:.1}")
}

fn years(number: f64) -> String {
    format!("{number:.1}")
}
