//! The library on other processors: one freestanding C program, compiled and linked by the kit's own clang and lld, makes the
//! same calls on each of them under emulation. After each call it writes a running hash of all that came back. The stream of
//! x86-64, with the kit's own archive, is the measure.

pub mod compare;
pub mod link;
pub mod object;
pub mod run;
pub mod target;
pub mod tools;

/// Rounds at random in the tests: more than 200,000 calls on each target.
pub const ROUNDS: u32 = 1_000;
