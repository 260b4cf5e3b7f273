//! Power cuts for as long as one likes: `cargo run --release -p board -- [CUTS [SEED]]`.

use board::cuts::Bench;
use board::firmware;
use std::time::Instant;
use std::{env, process};

fn main() {
    let numbers: Option<Vec<u64>> = env::args().skip(1).map(|text| text.parse().ok()).collect();
    let (cuts, seed) = match numbers.as_deref() {
        Some([]) => (1_000, 1),
        Some([cuts]) => (*cuts, 1),
        Some([cuts, seed]) => (*cuts, *seed),
        _ => {
            eprintln!("usage: board [CUTS [SEED]]");
            process::exit(2);
        }
    };
    let chip = env::temp_dir().join(format!("grommetide-chip-{}", process::id()));
    println!("{cuts} cuts, seed {seed}; the chip is {}", chip.display());
    let (start, mut bench) = (Instant::now(), Bench::new(firmware::made(), chip.clone(), seed));
    for cut in 1..=cuts {
        bench.cut();
        if cut % 100 == 0 {
            println!("{cut} cuts, {} s: {}", start.elapsed().as_secs(), bench.tally);
        }
    }
    bench.settle();
    println!("{}\nNo difference from the book in {cuts} cuts.", bench.tally);
    std::fs::remove_file(chip).expect("the chip's file is there");
}
