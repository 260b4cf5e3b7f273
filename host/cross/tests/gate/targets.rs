//! Each target gives back what x86-64 does, call by call, and needs what is stated here.

use cross::ROUNDS;
use cross::compare::{Built, calls, compare, own, reference};
use cross::object::contents;
use cross::target::{AARCH64, CORTEX_M0, CORTEX_M3, CORTEX_M4, OTHERS, RISCV32, RISCV64, Target, WASM32, X86_64};
use cross::tools::{archives, repository};
use std::collections::{BTreeMap, BTreeSet};
use std::fs;
use std::sync::{Mutex, OnceLock};

/// The calls at random that are due on each target.
const DUE: usize = 100_000;

fn x86_64() -> &'static Built<'static> {
    static BUILT: OnceLock<Built> = OnceLock::new();
    BUILT.get_or_init(|| own("x86-64"))
}

/// The stream of x86-64 on images of at most `limit` bytes.
fn stream(limit: u32) -> Vec<u8> {
    static STREAMS: Mutex<BTreeMap<u32, Vec<u8>>> = Mutex::new(BTreeMap::new());
    let mut streams = STREAMS.lock().unwrap_or_else(|poisoned| poisoned.into_inner());
    streams.entry(limit).or_insert_with(|| reference(x86_64(), ROUNDS, limit)).clone()
}

fn agrees(target: &Target) {
    archives();
    let stream = stream(target.images);
    let built = Built::new(target, &target.archive(), target.name);
    match compare(&built, x86_64(), &stream, ROUNDS) {
        Ok(made) => println!("{}: {made} calls", target.name),
        Err(difference) => panic!("{}: {difference}", target.name),
    }
}

#[test]
fn aarch64() {
    agrees(&AARCH64);
}

#[test]
fn riscv64() {
    agrees(&RISCV64);
}

#[test]
fn cortex_m0() {
    agrees(&CORTEX_M0);
}

#[test]
fn cortex_m3() {
    agrees(&CORTEX_M3);
}

#[test]
fn cortex_m4() {
    agrees(&CORTEX_M4);
}

#[test]
fn riscv32() {
    agrees(&RISCV32);
}

#[test]
fn webassembly() {
    agrees(&WASM32);
}

/// Rows, tickets and next and made beside step come first; they take no rounds.
#[test]
fn enough_calls_at_random() {
    for limit in [X86_64.images, CORTEX_M0.images] {
        let scripted = calls(&reference(x86_64(), 0, limit));
        assert!(scripted > 5_000 && calls(&stream(limit)) >= scripted + DUE);
    }
}

#[test]
fn a_call_is_told_in_words() {
    let told = x86_64().tell(0, X86_64.images, 1);
    assert!(told.starts_with("call 1: grommetide_format, image of 512 bytes, blocks 2"), "{told}");
    assert!(told.contains("answer 255"), "{told}");
}

/// Exactly these symbols stay undefined, and no data is written to.
#[test]
fn what_each_archive_needs() {
    archives();
    for target in [X86_64].iter().chain(&OTHERS) {
        let held = contents(&target.archive());
        assert_eq!(held.undefined.iter().collect::<Vec<_>>(), target.undefined, "{}", target.name);
        assert_eq!(held.written, 0, "{}", target.name);
        println!("{}: {} bytes of code, {} of constants", target.name, held.code, held.constants);
    }
}

/// `make tested` makes these targets and no others.
#[test]
fn the_targets_are_those_of_make() {
    let makefile = fs::read_to_string(repository("Makefile")).expect("the Makefile");
    let tested = makefile.lines().find_map(|line| line.strip_prefix("TESTED = ")).expect("a list");
    let own: BTreeSet<_> = OTHERS.iter().filter_map(|target| target.triple).collect();
    assert_eq!(tested.split_whitespace().collect::<BTreeSet<_>>(), own);
}
