//! The firmware as its own Makefile builds it.

use std::path::{Path, PathBuf};
use std::process::Command;
use std::sync::{Mutex, OnceLock};

const ROOT: &str = concat!(env!("CARGO_MANIFEST_DIR"), "/../..");

/// The firmware of the repository, made once in a run of the tests.
pub fn made() -> &'static Path {
    static MADE: OnceLock<PathBuf> = OnceLock::new();
    MADE.get_or_init(|| {
        let build = Path::new(ROOT).join("target/examples/ast1030");
        make(&source(), &build);
        build.join("ast1030.elf")
    })
}

pub fn source() -> PathBuf {
    Path::new(ROOT).join("examples/ast1030")
}

/// Makes the firmware in `source`, which may be a changed copy, in the folder `build`. One at a time: each makes the
/// library's archive anew.
pub fn make(source: &Path, build: &Path) {
    static MAKING: Mutex<()> = Mutex::new(());
    let _guard = MAKING.lock().expect("no build failed before");
    let mut make = Command::new("make");
    make.arg("-C").arg(source).arg(format!("ROOT={ROOT}")).arg(format!("BUILD={}", build.display()));
    let output = make.output().expect("make runs");
    assert!(output.status.success(), "{make:?}: {}", String::from_utf8_lossy(&output.stderr));
}
