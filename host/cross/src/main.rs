//! cross [ROUNDS]: compares all targets with x86-64 in so many rounds, 10,000 if none are given, and prints a table of them.

use cross::compare::{Built, calls, compare, own, reference};
use cross::link::{Kind, program};
use cross::object::contents;
use cross::run::run;
use cross::target::{OTHERS, Target, X86_64};
use cross::tools::{archives, scratch};
use std::collections::BTreeMap;
use std::env;
use std::process::ExitCode;

/// The most stack that a call takes, of all calls; none where it can't be painted.
fn most_stack(target: &Target) -> String {
    if target.stack_images == 0 {
        return "not measured".to_string();
    }
    let built = program(target, Kind::Stack, &target.archive(), &scratch(&format!("table-stack-{}", target.name)));
    let ran = run(target, &built, [0, target.stack_images, 0], 300);
    let figures = ran.words.lines().filter_map(|line| line.rsplit_once(' ')?.1.parse::<usize>().ok());
    figures.max().map_or(ran.words.clone(), |most| most.to_string())
}

fn row(target: &Target, calls: usize) {
    let held = contents(&target.archive());
    let triple = target.triple.unwrap_or("the kit's own archive");
    let (code, stack) = (held.code + held.constants, most_stack(target));
    println!("| {} | `{triple}` | {code} | {stack} | {calls} | {} |", target.name, target.emulator());
}

fn main() -> ExitCode {
    let Ok(rounds) = env::args().nth(1).map_or(Ok(10_000), |rounds| rounds.parse()) else {
        eprintln!("cross [ROUNDS]: how many rounds, 1,000 of which are some 220,000 calls on each target");
        return ExitCode::from(2);
    };
    archives();
    let own = own("long-x86-64");
    let mut streams: BTreeMap<u32, Vec<u8>> = BTreeMap::new();
    println!("| Target | Triple | Code, bytes | Stack, bytes | Calls | In |\n|---|---|---|---|---|---|");
    row(&X86_64, calls(&reference(&own, rounds, X86_64.images)));
    let mut differ = false;
    for target in &OTHERS {
        let stream = streams.entry(target.images).or_insert_with(|| reference(&own, rounds, target.images));
        let name = format!("long-{}", target.name);
        match compare(&Built::new(target, &target.archive(), &name), &own, stream, rounds) {
            Ok(calls) => row(target, calls),
            Err(difference) => {
                differ = true;
                println!("{}: {difference}", target.name);
            }
        }
    }
    if differ { ExitCode::FAILURE } else { ExitCode::SUCCESS }
}
