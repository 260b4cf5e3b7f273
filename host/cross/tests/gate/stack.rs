//! The stack that each call takes on each target, on a painted one.

use cross::link::{Kind, program};
use cross::run::run;
use cross::target::{AARCH64, CORTEX_M0, CORTEX_M3, CORTEX_M4, RISCV32, RISCV64, Target};
use cross::tools::{archives, repository, scratch};
use std::fs;

/// No call may take more, on any target.
const LIMIT: usize = 4_096;

/// What the header says of a call on a Cortex-M3: the second number beside its name in the table of stack bytes.
fn stated(header: &str, call: &str) -> Option<usize> {
    let words = header.lines().map(|line| line.split_whitespace().collect::<Vec<_>>());
    let found = words.filter(|words| words.len() == 4 && words[..2] == ["*", call]).map(|words| words[3]);
    found.map(|bytes| bytes.replace(',', "").parse().expect(bytes)).next()
}

/// The most bytes that each of the ten calls took; each on images of two to sixteen blocks.
fn figures(target: &Target) -> Vec<(String, usize)> {
    archives();
    let built = program(target, Kind::Stack, &target.archive(), &scratch(&format!("stack-{}", target.name)));
    let ran = run(target, &built, [0, target.stack_images, 0], 300);
    assert!(ran.ended, "{}: {}", target.name, ran.words);
    let lines = ran.words.lines().map(|line| line.split_once(' ').expect("a name and a number"));
    let figures: Vec<_> = lines.map(|(name, used)| (name.to_string(), used.parse().expect("a number"))).collect();
    assert_eq!(figures.len(), 10);
    for (call, used) in &figures {
        println!("{}: {call} {used}", target.name);
        assert!(*used <= LIMIT, "{}: {call} takes {used} bytes of stack", target.name);
    }
    figures
}

/// The header says nothing of record_size, which takes next to none.
#[test]
fn cortex_m3_takes_no_more_than_the_header_says() {
    let header = fs::read_to_string(repository("include/grommetide.h")).expect("the header");
    let figures = figures(&CORTEX_M3);
    for (call, used) in &figures {
        match stated(&header, call) {
            Some(bound) => {
                assert!(*used <= bound && bound < 2 * used, "{call}: {used} bytes, the header says {bound}")
            }
            None => assert!(call == "grommetide_record_size" && *used <= 16, "{call}: {used} bytes"),
        }
    }
}

#[test]
fn no_call_takes_more_than_the_limit() {
    for target in [AARCH64, RISCV64, CORTEX_M0, CORTEX_M4, RISCV32] {
        figures(&target);
    }
}
