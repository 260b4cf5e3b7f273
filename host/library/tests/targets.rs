//! `make TARGET=TRIPLE`: what it refuses, what it installs; and the header where size_t has 32 bits.

use std::fs;
use std::path::{Path, PathBuf};
use std::process::{Command, Output};

const ROOT: &str = concat!(env!("CARGO_MANIFEST_DIR"), "/../..");
const SCRATCH: &str = env!("CARGO_TARGET_TMPDIR");

fn repository(path: &str) -> PathBuf {
    Path::new(ROOT).join(path)
}

/// Runs make with these words. The module that is kept is taken as it is: nothing is proved here, whatever is newer.
fn make(words: &[&str]) -> Output {
    let module = "target/module/grommetide.bc";
    assert!(repository(module).is_file(), "{module} is missing; `make tested` makes it");
    let kept = format!("--assume-old={module}");
    Command::new("make").args(["-s", "-C", ROOT, &kept]).args(words).output().expect("make runs")
}

/// make refuses these words for a target, says why, and leaves no folder.
fn refused(target: &str, words: &[&str], why: &str) {
    let there = repository("target").join(target).exists();
    let named = format!("TARGET={target}");
    let Output { status, stderr, .. } = make(&[&[named.as_str()], words].concat());
    let said = String::from_utf8_lossy(&stderr);
    assert!(!status.success(), "{target} was made");
    assert!(said.contains(why), "{target}: {said}");
    assert!(said.lines().count() < 4, "{target}: {said}");
    assert_eq!(repository("target").join(target).exists(), there, "{target} left its folder");
}

#[test]
fn targets_that_the_kit_does_not_have_are_refused() {
    refused("nonsense", &[], "unknown target triple 'nonsense'");
    refused("mipsel-none-elf", &[], "No available targets are compatible");
    refused("thumbv8m.main-none-eabi", &["TARGET_FLAGS=-mcpu=nonsense"], "unsupported argument 'nonsense'");
}

#[test]
fn big_endian_targets_are_refused() {
    for target in ["armeb-none-eabi", "thumbebv7m-none-eabi", "aarch64_be-none-elf", "mips-none-elf"] {
        refused(target, &[], "is not little-endian");
    }
}

/// The files below a folder, by their paths in it, and what they hold.
fn files(folder: &Path) -> Vec<(String, Vec<u8>)> {
    let mut found = Vec::new();
    let mut folders = vec![folder.to_path_buf()];
    while let Some(next) = folders.pop() {
        for entry in fs::read_dir(&next).expect("a folder") {
            let path = entry.expect("an entry").path();
            if path.is_dir() {
                folders.push(path);
            } else {
                let name = path.strip_prefix(folder).expect("below it").display().to_string();
                found.push((name, fs::read(&path).expect("a file")));
            }
        }
    }
    found.sort();
    found
}

/// What `make install TARGET=..` installs, whole.
fn installs(target: &str, expected: &[(&str, &str)]) {
    let stage = Path::new(SCRATCH).join(format!("stage-{target}"));
    let _ = fs::remove_dir_all(&stage);
    let stage_words = [format!("DESTDIR={}", stage.display()), format!("TARGET={target}")];
    let Output { status, stderr, .. } = make(&["PREFIX=/opt/store", "install", &stage_words[0], &stage_words[1]]);
    assert!(status.success(), "{}", String::from_utf8_lossy(&stderr));
    let mut installed = files(&stage.join("opt/store"));
    installed.retain(|(name, _)| name != "lib/pkgconfig/grommetide.pc");
    let expected: Vec<_> = expected
        .iter()
        .map(|(name, from)| (name.to_string(), fs::read(repository(from)).expect("a file")))
        .collect();
    assert_eq!(installed, expected, "{target}");
}

#[test]
fn an_installed_target_is_that_target() {
    let header = ("include/grommetide.h", "include/grommetide.h");
    installs(
        "thumbv7m-none-eabi",
        &[header, ("lib/libgrommetide.a", "target/thumbv7m-none-eabi/libgrommetide.a")],
    );
    installs(
        "wasm32",
        &[
            header,
            ("lib/grommetide.wasm", "target/wasm32/grommetide.wasm"),
            ("lib/libgrommetide.a", "target/wasm32/libgrommetide.a"),
        ],
    );
    let archive =
        |target: &str| fs::read(repository("target").join(target).join("libgrommetide.a")).expect("made");
    assert_ne!(archive("thumbv7m-none-eabi"), archive("staticlib"));
}

/// Where size_t has 32 bits a size has 64 all the same; where it has 64, a size is a size_t.
#[test]
fn sizes_have_64_bits() {
    let source = Path::new(SCRATCH).join("sizes.c");
    let text = "#include \"grommetide.h\"\n\
        typedef char wide[sizeof(grommetide_size) == 8 ? 1 : -1];\n\
        extern grommetide_size given;\n\
        #ifdef __LP64__\n\
        size_t *own(void);\n\
        size_t *own(void) { return &given; }\n\
        #else\n\
        typedef char narrow[sizeof(size_t) == 4 ? 1 : -1];\n\
        #endif\n";
    fs::write(&source, text).expect("a file in target");
    for width in ["-m32", "-m64"] {
        let flags = ["-std=c99", "-ffreestanding", "-Wall", "-Wextra", "-Wpedantic", "-Werror", "-fsyntax-only"];
        let include = repository("include");
        let Output { status, stderr, .. } = Command::new("gcc")
            .arg(width)
            .args(flags)
            .arg("-I")
            .arg(include)
            .arg(&source)
            .output()
            .expect("gcc runs");
        assert!(status.success(), "{width}: {}", String::from_utf8_lossy(&stderr));
    }
}
