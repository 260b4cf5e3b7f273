//! Changed firmwares: a driver that the chip does not obey, a store at another place, an answer too early.

use crate::*;
use board::chip::{BLOCK, STORE};
use board::cuts::Bench;
use std::fs;
use std::panic::{AssertUnwindSafe, catch_unwind};

/// The firmware with one text in one of its files replaced.
fn changed(name: &str, file: &str, old: &str, new: &str) -> PathBuf {
    let folder = scratch(name);
    let _ = fs::remove_dir_all(&folder);
    fs::create_dir_all(folder.join("include")).expect("a folder can be made");
    for part in ["", "include"] {
        for entry in fs::read_dir(firmware::source().join(part)).expect("the firmware's folder") {
            let path = entry.expect("an entry").path();
            if path.is_file() {
                fs::copy(&path, folder.join(part).join(path.file_name().expect("a name")))
                    .expect("a file is copied");
            }
        }
    }
    let file = folder.join(file);
    let text = fs::read_to_string(&file).expect("a file of the firmware");
    assert_eq!(text.matches(old).count(), 1, "{old}");
    fs::write(&file, text.replace(old, new)).expect("it can be written");
    firmware::make(&folder, &folder.join("build"));
    folder.join("build/ast1030.elf")
}

/// Without a write enable the chip ignores programs: the first byte that a format programs is the flag's.
#[test]
fn writes_not_enabled() {
    let firmware = changed("not-enabled", "nor.c", "NOR_WRITE_ENABLE = 0x06", "NOR_WRITE_ENABLE = 0x04");
    let chip = chip("not-enabled", &[]);
    let mut machine = Machine::on(&firmware, chip.file());
    machine.wait_until(|heard| {
        heard.contains("flash: the chip did not program at byte 16384: it holds ff, not 66. Stopped.\r\n")
    });
    machine.cut();
    assert_eq!(chip.bytes(), vec![0xFF; 4 << 20]);
}

/// With the erase of another chip: block 0 keeps its header.
#[test]
fn erases_ignored() {
    let firmware = changed("not-erased", "nor.c", "NOR_ERASE = 0x20", "NOR_ERASE = 0x04");
    let chip = chip("not-erased", &[(0, &HEADER)]);
    let mut machine = Machine::on(&firmware, chip.file());
    machine.wait_until(|heard| heard.contains("mount: 0 done\r\n"));
    machine.send("format yes\r");
    machine.wait_until(|heard| {
        heard.contains("flash: the chip did not erase at byte 0: it holds 10, not ff. Stopped.\r\n")
    });
    machine.cut();
}

/// The store may stand anywhere on the chip; nothing is written before it, and behind it only the flag's sector is.
#[test]
fn the_store_at_another_place() {
    const AT: usize = 0x12000;
    let firmware = changed("moved", "store.h", "STORE_AT = 0", "STORE_AT = 0x12000");
    let chip = chip("moved", &[(0, b"boot code"), (AT + STORE + BLOCK, b"other data")]);
    let before = chip.bytes();
    let mut machine = Machine::on(&firmware, chip.file());
    assert!(machine.hear().contains(BLANK));
    check(&mut machine, &[("put 2 5 \"on\"", "0 done, 10 steps"), ("commit 2", "0 done, 6 steps")]);
    machine.cut();
    let (store, mut expected) = (AT..AT + 32, before);
    expected[store].copy_from_slice(&[&HEADER[..], &[0xFF; 7], &PUT, &COMMIT].concat());
    assert_eq!(chip.bytes(), expected);
}

/// A firmware that answers a commit before its flash steps are made: a cut right behind the answer loses it.
#[test]
fn an_early_answer_is_noticed() {
    let right = "    if ((kind != PUT && kind != DELETE) || !store_is_worn())\n";
    let early = r#"    if (kind == COMMIT) {
        say_line("0 done");
        store_request((uint8_t)host, message, len);
        return;
    }
"#;
    let firmware = changed("early", "command.c", right, &format!("{early}{right}"));
    let mut bench = Bench::new(&firmware, scratch("early.chip"), 1);
    let cuts = catch_unwind(AssertUnwindSafe(|| (0..60).for_each(|_| bench.cut())));
    let why = cuts.expect_err("a commit that was answered must be lost within 60 cuts");
    let why = why.downcast_ref::<String>().expect("a text");
    assert!(why.contains("the book has others"), "{why}");
}
