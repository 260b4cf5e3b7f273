//! Where it was measured: processor, compilers, commit, load.

use std::fs;
use std::process::Command;
use std::thread;

pub fn print() {
    println!("| | |");
    println!("|---|---|");
    println!(
        "| Processor | {}, {} of them |",
        processor(),
        thread::available_parallelism().map_or(0, usize::from)
    );
    println!("| Library compiled by | {} |", said("rt", &["version"]));
    println!("| Plain and model compiled by | {}, release profile |", env!("BENCH_RUSTC"));
    println!("| Commit | {} |", commit());
    println!("| Load average before | {} |\n", load());
}

/// The line of /proc/cpuinfo that names it.
fn processor() -> String {
    let text = fs::read_to_string("/proc/cpuinfo").unwrap_or_default();
    let named = text.lines().find_map(|line| line.strip_prefix("model name")?.split_once(": "));
    named.map_or("unknown".to_string(), |(_, name)| name.to_string())
}

fn load() -> String {
    let text = fs::read_to_string("/proc/loadavg").unwrap_or_default();
    text.split_whitespace().next().unwrap_or("unknown").to_string()
}

fn commit() -> String {
    let id = said("git", &["rev-parse", "--short=12", "HEAD"]);
    let changed = !said("git", &["status", "--porcelain"]).is_empty();
    if changed { format!("{id}, with changes") } else { id }
}

/// What a program prints in this folder.
fn said(program: &str, words: &[&str]) -> String {
    let output = Command::new(program).args(words).current_dir(env!("CARGO_MANIFEST_DIR")).output();
    match output {
        Ok(output) if output.status.success() => String::from_utf8_lossy(&output.stdout).trim().to_string(),
        _ => "unknown".to_string(),
    }
}
