//! A target's stream beside that of x86-64.

use crate::link::{Kind, program};
use crate::run::{Ran, run};
use crate::target::{Target, X86_64};
use crate::tools::scratch;
use std::fmt;
use std::path::{Path, PathBuf};

/// The bytes of the stream for each call.
const WORD: usize = 4;
/// Seconds that a program may take for a thousand rounds, and at least.
const PATIENCE: u64 = 600;

/// The first call of which a target gives back something else, as both tell it.
#[derive(Debug)]
pub struct Difference {
    pub call: usize,
    pub own: String,
    pub target: String,
}

impl fmt::Display for Difference {
    fn fmt(&self, f: &mut fmt::Formatter) -> fmt::Result {
        write!(
            f,
            "call {} is the first that differs\nx86-64:\n{}the target:\n{}",
            self.call, self.own, self.target
        )
    }
}

/// A program that was built: calls can be asked of it.
pub struct Built<'a> {
    target: &'a Target,
    program: PathBuf,
}

impl Built<'_> {
    pub fn new<'a>(target: &'a Target, archive: &Path, name: &str) -> Built<'a> {
        Built { target, program: program(target, Kind::Calls, archive, &scratch(name)) }
    }

    fn ran(&self, rounds: u32, limit: u32, asked: usize) -> Ran {
        let seconds = PATIENCE.max(PATIENCE * u64::from(rounds) / 1_000);
        run(self.target, &self.program, [rounds, limit, u32::try_from(asked).expect("a call")], seconds)
    }

    /// What call number `asked` is and what came back, in words.
    pub fn tell(&self, rounds: u32, limit: u32, asked: usize) -> String {
        self.ran(rounds, limit, asked).words
    }
}

/// The stream of x86-64, which must end well.
pub fn reference(built: &Built, rounds: u32, limit: u32) -> Vec<u8> {
    let Ran { stream, words, ended } = built.ran(rounds, limit, 0);
    assert!(ended, "x86-64: {words}");
    stream
}

pub fn own(name: &str) -> Built<'static> {
    Built::new(&X86_64, &X86_64.archive(), name)
}

/// The number of calls in a stream.
pub fn calls(stream: &[u8]) -> usize {
    assert_eq!(stream.len() % WORD, 0);
    stream.len() / WORD
}

/// The first call at which two streams differ, from 1 on; one that ends early differs at the call that it lacks.
fn first_difference(one: &[u8], other: &[u8]) -> Option<usize> {
    let shared = one.chunks(WORD).zip(other.chunks(WORD)).position(|(a, b)| a != b);
    shared.or((one.len() != other.len()).then(|| one.len().min(other.len()) / WORD)).map(|at| at + 1)
}

/// Makes the target's calls and compares: their number, or the first that differs.
pub fn compare(target: &Built, own: &Built, stream: &[u8], rounds: u32) -> Result<usize, Difference> {
    let limit = target.target.images;
    let ran = target.ran(rounds, limit, 0);
    match first_difference(stream, &ran.stream) {
        None if ran.ended => Ok(calls(stream)),
        None => Err(Difference { call: calls(stream), own: String::new(), target: ran.words }),
        Some(call) => {
            let told = target.tell(rounds, limit, call);
            Err(Difference { call, own: own.tell(rounds, limit, call), target: format!("{told}{}", ran.words) })
        }
    }
}
