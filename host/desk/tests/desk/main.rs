//! The program itself, run as a user runs it.

mod blocks;
mod demo;
mod editions;
mod erase;
mod fault;
mod files;
mod input;
mod mended;
mod part;
mod places;
mod replay;
mod show;
mod words;

use std::ffi::OsStr;
use std::fs;
use std::io::{ErrorKind, Write};
use std::path::{Path, PathBuf};
use std::process::{Command, Output, Stdio};
use std::thread;

/// Header of a half of time 1 to its state byte, and its finished put and commit of bench rows b and c.
const HEADER: &str = "1000014afefffffffcffffffffffffff";
const PUT: &str = "0a0001000205004142fe";
const COMMIT: &str = "0600030002fe";

fn command<A: AsRef<OsStr>>(arguments: &[A]) -> Command {
    let mut command = Command::new(env!("CARGO_BIN_EXE_desk"));
    command.args(arguments).stdin(Stdio::piped()).stdout(Stdio::piped()).stderr(Stdio::piped());
    command
}

/// Runs the program to its end. It need not read all of its input.
fn desk<A: AsRef<OsStr>>(arguments: &[A], input: &[u8]) -> Output {
    let mut child = command(arguments).spawn().expect("desk starts");
    let mut pipe = child.stdin.take().expect("a pipe");
    thread::scope(|scope| {
        scope.spawn(move || match pipe.write_all(input) {
            Err(error) if error.kind() != ErrorKind::BrokenPipe => panic!("{error}"),
            _ => (),
        });
        child.wait_with_output().expect("desk ends")
    })
}

/// Exit status, standard output, standard error.
fn run<A: AsRef<OsStr>>(arguments: &[A], input: &[u8]) -> (i32, String, String) {
    let output = desk(arguments, input);
    let text = |bytes| String::from_utf8(bytes).expect("text");
    (output.status.code().expect("no signal"), text(output.stdout), text(output.stderr))
}

fn replay(script: &[u8]) -> String {
    replay_with(&[], script)
}

fn replay_with(options: &[&str], script: &[u8]) -> String {
    let (status, out, errors) = run(&[&["replay"], options].concat(), script);
    assert_eq!((status, &errors[..]), (0, ""));
    out
}

/// Lines with the answers that each must get.
fn check(pairs: &[(&str, &str)]) {
    check_with(&[], pairs);
}

fn check_with(options: &[&str], pairs: &[(&str, &str)]) {
    let script: Vec<&str> = pairs.iter().map(|(line, _)| *line).collect();
    let output = replay_with(options, script.join("\n").as_bytes());
    let answers: Vec<&str> = output.lines().collect();
    for ((line, expected), answer) in pairs.iter().zip(&answers) {
        assert_eq!(answer, expected, "{line}");
    }
    assert_eq!(answers.len(), pairs.len());
}

/// The bytes of hex digits.
fn unhex(digits: &str) -> Vec<u8> {
    let pairs = digits.as_bytes().chunks(2).map(|pair| std::str::from_utf8(pair).expect("ASCII"));
    pairs.map(|pair| u8::from_str_radix(pair, 16).expect("hex")).collect()
}

/// An image of blocks of `size` bytes that start with these, in hex.
fn image_of<const N: usize>(size: usize, blocks: [&str; N]) -> Vec<u8> {
    let block = |start: &str| {
        let mut bytes = unhex(start);
        bytes.resize(size, 0xFF);
        bytes
    };
    blocks.map(block).concat()
}

/// A folder of a test's own, gone with it.
struct Folder(PathBuf);

impl Folder {
    fn new(test: &str) -> Folder {
        let folder = Path::new(env!("CARGO_TARGET_TMPDIR")).join(format!("{test}-{}", std::process::id()));
        fs::create_dir_all(&folder).expect("a folder");
        Folder(folder)
    }

    fn path(&self, name: &str) -> String {
        self.0.join(name).to_str().expect("text").to_string()
    }

    fn file(&self, name: &str, bytes: &[u8]) -> String {
        fs::write(self.0.join(name), bytes).expect("a file");
        self.path(name)
    }
}

impl Drop for Folder {
    fn drop(&mut self) {
        let _ = fs::remove_dir_all(&self.0);
    }
}
