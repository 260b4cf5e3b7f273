//! The header and the library from C: the examples, the program on README's first screen, and that program again with
//! the installed files.

use std::fs;
use std::path::{Path, PathBuf};
use std::process::{Command, Output};

const ROOT: &str = concat!(env!("CARGO_MANIFEST_DIR"), "/../..");
const SCRATCH: &str = env!("CARGO_TARGET_TMPDIR");
const FLAGS: [&str; 6] = ["-std=c99", "-O2", "-Wall", "-Wextra", "-Wpedantic", "-Werror"];

fn repository(path: &str) -> PathBuf {
    Path::new(ROOT).join(path)
}

fn text(path: impl AsRef<Path>) -> String {
    fs::read_to_string(&path).unwrap_or_else(|error| panic!("{}: {error}", path.as_ref().display()))
}

/// Runs a command, which must succeed, and gives what it printed.
fn output(command: &mut Command) -> String {
    let ran = command.output();
    let Output { status, stdout, stderr } = ran.unwrap_or_else(|error| panic!("{command:?}: {error}"));
    assert!(status.success(), "{command:?}: {}", String::from_utf8_lossy(&stderr));
    String::from_utf8(stdout).expect("text")
}

/// Compiles a program with these flags for the library, runs it and gives what it printed.
fn printed(sources: &[PathBuf], name: &str, library: &[String]) -> String {
    let program = Path::new(SCRATCH).join(name);
    output(Command::new("gcc").args(FLAGS).args(sources).args(library).arg("-o").arg(&program));
    output(&mut Command::new(&program))
}

/// The flags for the library as it stands in the repository.
fn in_place() -> Vec<String> {
    let path = |path| repository(path).display().to_string();
    vec!["-I".to_string(), path("include"), path("target/staticlib/libgrommetide.a")]
}

/// An example of these files, the first of which it is named after, prints what stands beside it.
fn try_example(files: &[&str]) {
    let sources: Vec<_> = files.iter().map(|file| repository(&format!("examples/c/{file}.c"))).collect();
    let printed = printed(&sources, files[0], &in_place());
    assert_eq!(printed, text(repository(&format!("examples/c/{}.expected", files[0]))));
}

#[test]
fn the_restart_example() {
    try_example(&["restart"]);
}

#[test]
fn the_power_cuts_example() {
    try_example(&["power_cuts", "spi_nor", "chip"]);
}

#[test]
fn the_broken_example() {
    try_example(&["broken"]);
}

#[test]
fn the_wear_example() {
    try_example(&["wear"]);
}

#[test]
fn the_convert_example() {
    try_example(&["convert"]);
}

/// The first block of a language in README, which must have one.
fn block(language: &str) -> String {
    let readme = text(repository("README.md"));
    let (_, rest) = readme.split_once(&format!("```{language}\n")).expect("a block begins");
    rest.split_once("```").expect("it ends").0.to_string()
}

/// Compiles README's program, which must print what README says.
fn try_readme(name: &str, library: &[String]) {
    let source = Path::new(SCRATCH).join(format!("{name}.c"));
    fs::write(&source, block("c")).expect("a file in target");
    assert_eq!(printed(&[source], name, library), block("text"));
}

#[test]
fn the_program_in_readme_prints_what_readme_says() {
    try_readme("readme", &in_place());
}

/// Installs to a new folder under these variables of the Makefile. Nothing is proved here, whatever is newer.
fn install(folder: &Path, variables: &[String]) {
    let _ = fs::remove_dir_all(folder);
    let make = ["-s", "--assume-old=target/staticlib/libgrommetide.a", "install"];
    output(Command::new("make").arg("-C").arg(ROOT).args(make).args(variables));
}

/// The flags that a pkg-config file names, its variables filled in.
fn flags_in(file: &str) -> Vec<String> {
    let mut variables: Vec<(String, String)> = Vec::new();
    let mut flags = Vec::new();
    for line in file.lines() {
        let line = variables.iter().fold(line.to_string(), |line, (name, value)| line.replace(name, value));
        if let Some((name, value)) = line.split_once('=') {
            variables.push((format!("${{{name}}}"), value.to_string()));
        } else if let Some(named) = line.strip_prefix("Cflags:").or(line.strip_prefix("Libs:")) {
            flags.extend(named.split_whitespace().map(str::to_string));
        }
    }
    flags
}

#[test]
fn the_program_in_readme_with_the_installed_files() {
    let prefix = Path::new(SCRATCH).join("installed");
    install(&prefix, &[format!("PREFIX={}", prefix.display())]);
    let folder = prefix.join("lib/pkgconfig");
    let flags = flags_in(&text(folder.join("grommetide.pc")));
    let mut asked = Command::new("pkg-config");
    asked.args(["--cflags", "--libs", "grommetide"]).env("PKG_CONFIG_PATH", &folder);
    assert_eq!(output(&mut asked).split_whitespace().collect::<Vec<_>>(), flags);
    try_readme("installed-readme", &flags);
}

/// DESTDIR is where the files go, not what they say. The version is the header's, and that of the crates here.
#[test]
fn installed_to_a_staging_folder() {
    let stage = Path::new(SCRATCH).join("stage");
    install(&stage, &[format!("DESTDIR={}", stage.display()), "PREFIX=/opt/store".to_string()]);
    let installed = |path: &str| stage.join("opt/store").join(path);
    assert_eq!(text(installed("include/grommetide.h")), text(repository("include/grommetide.h")));
    assert!(installed("lib/libgrommetide.a").is_file());
    let file = text(installed("lib/pkgconfig/grommetide.pc"));
    assert_eq!(flags_in(&file), ["-I/opt/store/include", "-L/opt/store/lib", "-lgrommetide"]);
    assert!(file.contains(concat!("\nVersion: ", env!("CARGO_PKG_VERSION"), "\n")), "{file}");
}
