//! The board as a person at its serial line meets it, and with its power cut. Needs qemu-system-arm.

mod cuts;
mod documents;
mod driver;
mod format;
mod refusals;
mod session;

use board::chip::Chip;
use board::firmware;
use board::machine::Machine;
use std::path::{Path, PathBuf};

/// Header of a block of time 1, as far as its state (docs/FORMAT.md).
const HEADER: [u8; 9] = [0x10, 0x00, 0x01, 0x4A, 0xFE, 0xFF, 0xFF, 0xFF, 0xFC];
/// Host 2 puts object 5 = "on", and commits.
const PUT: [u8; 10] = [0x0A, 0x00, 0x01, 0x00, 0x02, 0x05, 0x00, b'o', b'n', 0xFE];
const COMMIT: [u8; 6] = [0x06, 0x00, 0x03, 0x00, 0x02, 0xFE];

/// A chip that is blank but for these bytes at these places.
fn chip(name: &str, parts: &[(usize, &[u8])]) -> Chip {
    Chip::new(scratch(&format!("{name}.chip")), parts)
}

fn scratch(name: &str) -> PathBuf {
    Path::new(env!("CARGO_TARGET_TMPDIR")).join(name)
}

/// Power comes on. After the banner the board prints these lines, and its prompt.
fn start(chip: &Chip, lines: &[&str]) -> Machine {
    let mut machine = Machine::on(firmware::made(), chip.file());
    let banner = "Grommetide on an AST1030: 4 blocks of 4096 bytes on chip bf254a";
    let expected = [&[banner], lines, &["help lists the commands."]].concat();
    assert_eq!(machine.hear().split("\r\n").collect::<Vec<_>>(), expected);
    machine
}

/// Commands with the one line that each must be answered with.
fn check(machine: &mut Machine, pairs: &[(&str, &str)]) {
    for (command, expected) in pairs {
        assert_eq!(machine.answer(command), [*expected], "{command}");
    }
}

/// The lines of the board's answers that several tests wait for.
const MOUNTED: &str = "mount: 0 done";
const BLANK: &str = "mount: 2 no store: the chip is blank";
const FORMATTED: &str = "format: 0 done, 14 steps";
const LEFT: &str =
    "Nothing was changed. Read the flash out first: dump. Only format yes helps, and it loses all objects.";
const NO_OBJECT: &str = "8 no object: no settled object has this id";
const NO_STORE: &str = "2 no store: nothing is mounted; state says why";
