//! A program under its emulator.

use crate::target::{Machine, Target};
use crate::tools::{missing, repository};
use std::fs::{self, File};
use std::path::Path;
use std::process::{Command, Stdio};
use std::thread::sleep;
use std::time::{Duration, Instant};

/// What a program wrote, and whether it ended well.
pub struct Ran {
    pub stream: Vec<u8>,
    pub words: String,
    pub ended: bool,
}

fn command(target: &Target, program: &Path, numbers: [u32; 3]) -> Command {
    let numbers = numbers.map(|number| number.to_string());
    match target.machine {
        Machine::Own => {
            let mut own = Command::new(program);
            own.args(numbers);
            own
        }
        Machine::Linux(qemu) => {
            let mut user = Command::new(qemu);
            user.arg(program).args(numbers);
            user
        }
        Machine::Board { qemu, board, .. } => {
            let line = numbers.map(|number| format!(",arg={number}")).concat();
            let mut system = Command::new(qemu);
            system.args(board).args(["-display", "none", "-monitor", "none", "-serial", "none"]);
            system.arg("-semihosting-config").arg(format!("enable=on,target=native,arg=program{line}"));
            system.arg("-kernel").arg(program);
            system
        }
        Machine::Node => {
            let mut node = Command::new("node");
            node.arg(repository("host/cross/program/run.mjs")).arg(program).args(numbers);
            node
        }
    }
}

/// Runs the program with three numbers, for so many seconds at most. A board writes its stream to a file by itself.
pub fn run(target: &Target, program: &Path, numbers: [u32; 3], seconds: u64) -> Ran {
    let folder = program.parent().expect("a folder");
    let (stream, words) = (folder.join("stream"), folder.join("words"));
    let file = |path: &Path| File::create(path).expect("a file under target");
    let errors = file(&words);
    let printed = match target.machine {
        Machine::Board { .. } => errors.try_clone().expect("a file"),
        _ => file(&stream),
    };
    let mut command = command(target, program, numbers);
    command.current_dir(folder).stdin(Stdio::null()).stdout(printed).stderr(errors);
    let name = command.get_program().to_string_lossy().into_owned();
    let mut child = command.spawn().unwrap_or_else(|error| panic!("{}", missing(&name, &error)));
    let deadline = Instant::now() + Duration::from_secs(seconds);
    let ended = loop {
        if let Some(status) = child.try_wait().expect("a child") {
            break status.success();
        }
        if Instant::now() > deadline {
            child.kill().expect("it can be ended");
            child.wait().expect("it ended");
            panic!("{}: not done after {seconds} seconds", target.name);
        }
        sleep(Duration::from_millis(20));
    };
    let words = String::from_utf8_lossy(&fs::read(&words).expect("words")).into_owned();
    Ran { stream: fs::read(&stream).unwrap_or_default(), words, ended }
}
