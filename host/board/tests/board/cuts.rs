//! Power cuts at random moments; `cargo run --release -p board -- 1000` makes more of them.

use crate::*;
use board::cuts::Bench;

/// Thirty, or more where the machine is slow: until enough was done to be lost, and a mount was cut.
#[test]
fn thirty_cuts() {
    let mut bench = Bench::new(firmware::made(), scratch("cuts.chip"), 30);
    while bench.tally.boots < 30 || bench.tally.commits < 20 || bench.tally.cut_in_mount < 1 {
        assert!(bench.tally.boots < 300, "{}", bench.tally);
        bench.cut();
    }
    bench.settle();
    println!("{}", bench.tally);
    assert!(bench.tally.cut_in_erase >= 3, "{}", bench.tally);
}
