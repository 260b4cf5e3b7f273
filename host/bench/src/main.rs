//! How long the library's calls take beside the plain program's and the model's.
//!
//! `cargo run --release -p bench` makes three runs, each a process of its own, and prints two Markdown tables. With `trial`
//! it goes through the same rows once, quickly: the gate's way to see that all of this works. Its figures mean nothing.

mod case;
mod operation;
mod place;
mod run;

use operation::{SINGLE, WHOLE};
use run::Figures;
use std::env;
use std::process::{Command, exit};

const RUNS: usize = 3;
/// The arguments of one such run, and of one that is a trial.
const ONCE: &str = "once";
const TRIAL: &str = "trial";

fn main() {
    if cfg!(debug_assertions) {
        eprintln!("bench: build with --release");
        exit(2);
    }
    let argument = env::args().nth(1);
    let runs: Vec<_> = match argument.as_deref() {
        Some(ONCE) => return rows(run::WHOLE_RUN).iter().for_each(|row| println!("{row}")),
        Some(TRIAL) => vec![rows(run::TRIAL).iter().map(|line| row(line)).collect()],
        None => (0..RUNS).map(|_| separate_run()).collect(),
        Some(other) => {
            eprintln!("bench: what is {other}? There is `trial`, or no argument");
            exit(2);
        }
    };
    place::print();
    let rows = runs[0].len();
    let split = rows * SINGLE.len() / (SINGLE.len() + WHOLE.len());
    print_table("Single call", &runs, 0..split);
    print_table("Whole operation", &runs, split..rows);
}

/// The rows of one run, each as a line.
fn rows(effort: run::Effort) -> Vec<String> {
    let line = |row: run::Row| {
        let figures = row.figures.map(|figure| figure.to_string()).join("\t");
        format!("{}\t{}\t{}\t{}\t{figures}", row.length, row.blocks, row.fill, row.name)
    };
    run::rows(effort).into_iter().map(line).collect()
}

/// The cells of a row in front of its figures.
const CELLS: usize = 4;

/// A row as a run prints it: those cells, and its figures.
type Row = (Vec<String>, Figures);

fn separate_run() -> Vec<Row> {
    let program = env::current_exe().expect("this program");
    let output = Command::new(program).arg(ONCE).output().expect("it runs");
    assert!(output.status.success(), "{}", String::from_utf8_lossy(&output.stderr));
    String::from_utf8(output.stdout).expect("text").lines().map(row).collect()
}

fn row(line: &str) -> Row {
    let cells: Vec<String> = line.split('\t').map(str::to_string).collect();
    let figures: Vec<f64> = cells[CELLS..].iter().map(|cell| cell.parse().expect("a number")).collect();
    (cells[..CELLS].to_vec(), figures.try_into().expect("five figures"))
}

fn print_table(kind: &str, runs: &[Vec<Row>], rows: std::ops::Range<usize>) {
    println!("| Image | Blocks | Fill | {kind} | Library | Plain | Model | Library / plain | Library / model |");
    println!("|---|---|---|---|---|---|---|---|---|");
    for at in rows {
        let over_runs = |figure: usize| runs.iter().map(move |run| run[at].1[figure]).collect::<Vec<_>>();
        let times = [0, 1, 2].map(|figure| time(&over_runs(figure)));
        let ratios = [3, 4].map(|figure| span(&over_runs(figure), 1.0));
        println!("| {} | {} | {} |", runs[0][at].0.join(" | "), times.join(" | "), ratios.join(" | "));
    }
    println!();
}

/// Least and most of some times, in a unit that suits the most.
fn time(nanoseconds: &[f64]) -> String {
    match nanoseconds.iter().copied().fold(0.0, f64::max) {
        ..1e3 => format!("{} ns", span(nanoseconds, 1.0)),
        ..1e6 => format!("{} µs", span(nanoseconds, 1e3)),
        _ => format!("{} ms", span(nanoseconds, 1e6)),
    }
}

/// Least and most of some numbers in a unit, with the digits that the most needs; once if they look alike.
fn span(values: &[f64], unit: f64) -> String {
    let least = values.iter().copied().fold(f64::INFINITY, f64::min) / unit;
    let most = values.iter().copied().fold(0.0, f64::max) / unit;
    let digits = match most {
        ..10.0 => 2,
        ..100.0 => 1,
        _ => 0,
    };
    let [least, most] = [least, most].map(|value| format!("{value:.digits$}"));
    if least == most { most } else { format!("{least} to {most}") }
}
