//! The kit's tools, the repository's places, and programs that must be there.

use std::env;
use std::fs;
use std::io::ErrorKind;
use std::path::{Path, PathBuf};
use std::process::{Command, Output};
use std::sync::OnceLock;

pub fn repository(path: &str) -> PathBuf {
    Path::new(concat!(env!("CARGO_MANIFEST_DIR"), "/../..")).join(path)
}

/// A folder for what is built and run here, empty.
pub fn scratch(name: &str) -> PathBuf {
    let folder = repository("target/cross").join(name.replace(' ', "-"));
    let _ = fs::remove_dir_all(&folder);
    fs::create_dir_all(&folder).expect("a folder under target");
    folder
}

/// The package that has a program, by Debian's names; .ci/packages installs them.
fn package(program: &str) -> &str {
    match program {
        "qemu-aarch64" | "qemu-riscv64" => "qemu-user",
        "qemu-system-riscv32" => "qemu-system-misc",
        "node" => "nodejs",
        other => other,
    }
}

/// What a program that did not start was, and where it is to be had.
pub fn missing(program: &str, error: &std::io::Error) -> String {
    match error.kind() {
        ErrorKind::NotFound => format!("{program} is missing; it is in the package {}", package(program)),
        _ => format!("{program}: {error}"),
    }
}

/// Runs a command, which must succeed, and gives what it printed.
pub fn output(command: &mut Command) -> String {
    let program = command.get_program().to_string_lossy().into_owned();
    let Output { status, stdout, stderr } =
        command.output().unwrap_or_else(|error| panic!("{}", missing(&program, &error)));
    assert!(status.success(), "{command:?}: {}", String::from_utf8_lossy(&stderr));
    String::from_utf8(stdout).expect("text")
}

/// The folder of the kit's clang, ld.lld and llvm-ar, found as scripts/cross finds it.
pub fn kit(tool: &str) -> PathBuf {
    let path = env::var_os("PATH").expect("a PATH");
    let rt = env::split_paths(&path).map(|folder| folder.join("rt")).find(|rt| rt.is_file());
    let rt = rt.expect("rt is missing; README names the kit").canonicalize().expect("a path");
    rt.ancestors().nth(2).expect("the kit's folder").join("toolchain/bin").join(tool)
}

pub fn module() -> PathBuf {
    let module = repository("target/module/grommetide.bc");
    assert!(module.is_file(), "target/module/grommetide.bc is missing; `make tested` makes it");
    module
}

/// The archives of all targets, compiled anew from the kept module. Nothing is proved here, whatever is newer.
pub fn archives() {
    static MADE: OnceLock<()> = OnceLock::new();
    MADE.get_or_init(|| {
        module();
        let words = ["-s", "--assume-old=target/module/grommetide.bc", "tested"];
        output(Command::new("make").arg("-C").arg(repository("")).args(words));
    });
}
