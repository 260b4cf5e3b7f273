//! The program for one target.

use crate::target::{Machine, Target};
use crate::tools::{kit, output, repository};
use std::os::unix::process::CommandExt;
use std::path::{Path, PathBuf};
use std::process::Command;

/// What is to be linked: the calls that are compared, or the stack that each takes.
#[derive(Clone, Copy, PartialEq, Eq)]
pub enum Kind {
    Calls,
    Stack,
}

const COMMON: [&str; 5] = ["text", "bytes", "calls", "board", "helpers"];
const FLAGS: [&str; 10] = [
    "-std=c11",
    "-O2",
    "-ffreestanding",
    "-ffunction-sections",
    "-fno-stack-protector",
    "-fno-pic",
    "-Wall",
    "-Wextra",
    "-Wpedantic",
    "-Werror",
];

const WASM: [&str; 5] = ["--no-entry", "--export=program", "--export=flush_calls", "-z", "stack-size=65536"];

fn sources(kind: Kind, machine: Machine) -> Vec<PathBuf> {
    let own: &[&str] = match kind {
        Kind::Calls => &["rows", "tickets", "driven", "chance", "journal", "random", "main"],
        Kind::Stack => &["stack"],
    };
    let platform = match machine {
        Machine::Own | Machine::Linux(_) => "linux",
        Machine::Board { .. } => "bare",
        Machine::Node => "wasm",
    };
    let names = COMMON.iter().chain(own).copied().chain([platform]);
    names.map(|name| repository("host/cross/program").join(format!("{name}.c"))).collect()
}

/// Compiles the sources in a folder and gives their objects.
fn compile(target: &Target, kind: Kind, folder: &Path) -> Vec<PathBuf> {
    let sources = sources(kind, target.machine);
    let mut clang = Command::new(kit("clang"));
    clang.arg(format!("--target={}", target.triple.unwrap_or("x86_64-linux-gnu"))).args(FLAGS);
    clang.arg(format!("-fmacro-prefix-map={}/=", repository("host/cross/program").display()));
    clang.arg("-I").arg(repository("host/cross/program/include")).arg("-I").arg(repository("include"));
    if kind == Kind::Stack {
        clang.arg(format!("-DIMAGE_BYTES={}", target.stack_images));
    }
    let words = target.words.iter().filter(|word| kind == Kind::Calls || !word.starts_with("-D"));
    output(clang.args(words).arg("-c").args(&sources).current_dir(folder));
    sources.iter().map(|source| folder.join(source.with_extension("o").file_name().expect("a name"))).collect()
}

/// The program in a folder, linked with an archive of the library.
pub fn program(target: &Target, kind: Kind, archive: &Path, folder: &Path) -> PathBuf {
    let objects = compile(target, kind, folder);
    let program = folder.join("program");
    let mut lld = Command::new(kit("ld.lld"));
    match target.machine {
        Machine::Own | Machine::Linux(_) => lld.args(["-static", "--gc-sections", "-e", "_start"]),
        Machine::Board { script, .. } => {
            let file = repository("host/cross/program").join(script[0]);
            lld.args(["-static", "--gc-sections", "-T"]).arg(file).args(&script[1..])
        }
        Machine::Node => lld.arg0("wasm-ld").args(WASM),
    };
    output(lld.args(objects).arg(archive).arg("-o").arg(&program));
    program
}
