//! What a person types. Numbers of steps and bytes are STORE.md's, for four blocks of 4,096 bytes.

use crate::*;
use board::chip::BLOCK;

/// A put takes 8 steps and one for each byte of its value, a delete 8, a commit or abort 6; reads and logs none.
#[test]
fn overlapping_transactions() {
    let chip = chip("overlapping", &[]);
    let mut machine = start(&chip, &[BLANK, FORMATTED]);
    check(
        &mut machine,
        &[
            ("log", "0 done: time 1, 0 objects, 16 of 4096 bytes used"),
            ("put 2 5 \"on\"", "0 done, 10 steps"),
            ("get 5", NO_OBJECT),
            ("put 1 5 \"off\"", "0 done, 11 steps"),
            ("put 1 255 -", "0 done, 8 steps"),
            ("commit 2", "0 done, 6 steps"),
            ("get 5", "0 done: \"on\""),
            ("log", "0 done: time 1, 1 object, 25 of 4096 bytes used"),
            ("commit 2", "0 done"),
            ("commit 1", "0 done, 6 steps"),
            ("get 5", "0 done: \"off\""),
            ("get 255", "0 done: -"),
            ("delete 3 5", "0 done, 8 steps"),
            ("abort 3", "0 done, 6 steps"),
            ("delete 0 255", "0 done, 8 steps"),
            ("put 0 9 0aFF", "0 done, 10 steps"),
            ("commit 0", "0 done, 6 steps"),
            ("get 9", "0 done: 0aff"),
            ("get 255", NO_OBJECT),
        ],
    );
    assert_eq!(machine.answer("list"), ["5 = \"off\"", "9 = 0aff", "0 done"]);
    machine.cut();
}

/// A mount after a change was left pending drops it by a reset, 5 steps.
#[test]
fn a_restart_drops_what_is_pending() {
    let chip = chip("restart", &[]);
    let mut machine = start(&chip, &[BLANK, FORMATTED]);
    check(&mut machine, &[("put 2 5 \"on\"", "0 done, 10 steps"), ("commit 2", "0 done, 6 steps")]);
    check(&mut machine, &[("put 2 5 \"lost\"", "0 done, 12 steps")]);
    machine.cut();
    let mut machine = start(&chip, &["mount: 0 done, 5 steps"]);
    check(&mut machine, &[("commit 2", "0 done"), ("get 5", "0 done: \"on\""), ("mount", MOUNTED)]);
    check(&mut machine, &[("log", "0 done: time 1, 1 object, 25 of 4096 bytes used")]);
    machine.cut();
    let objects = chip.objects().expect("a store");
    assert_eq!(objects.into_iter().collect::<Vec<_>>(), [(5, b"on".to_vec())]);
}

/// A commit that was cut before its last byte, at 42: its kind becomes 0, then its last byte 0xFE, and a reset of 5 bytes follows.
#[test]
fn a_restart_closes_a_torn_frame() {
    let chip = chip("torn", &[(0, &HEADER), (16, &PUT), (26, &COMMIT), (32, &PUT), (42, &COMMIT[..5])]);
    let mut machine = start(&chip, &["mount: 0 done, 7 steps"]);
    check(&mut machine, &[("get 5", "0 done: \"on\""), ("commit 2", "0 done"), ("mount", MOUNTED)]);
    machine.cut();
    assert_eq!(chip.bytes()[42..54], [6, 0, 0, 0, 2, 0xFE, 5, 0, 7, 0, 0xFE, 0xFF]);
}

/// Object 5 needs 16 + 11 + 2 bytes in edition 2: 24 steps. There a put takes 12 steps and one for each byte of its value, a
/// commit 10. A restart finds edition 2.
#[test]
fn a_convert() {
    let chip = chip("convert", &[]);
    let mut machine = start(&chip, &[BLANK, FORMATTED]);
    check(
        &mut machine,
        &[
            ("put 2 5 \"on\"", "0 done, 10 steps"),
            ("convert 0", "16 pending: a host has changes pending: commit or abort them first"),
            ("commit 2", "0 done, 6 steps"),
            ("convert 0", "0 done, 24 steps"),
            ("log", "0 done: time 2, 1 object, 29 of 4096 bytes used"),
            ("convert 3", "0 done"),
            ("put 1 6 \"x\"", "0 done, 13 steps"),
            ("commit 1", "0 done, 10 steps"),
        ],
    );
    machine.cut();
    assert_eq!(chip.bytes()[BLOCK..BLOCK + 4], [0x10, 0x00, 0x02, 0x4A]);
    let mut machine = start(&chip, &[MOUNTED]);
    assert_eq!(machine.answer("list"), ["5 = \"on\"", "6 = \"x\"", "0 done"]);
    machine.cut();
}

#[test]
fn values_of_any_bytes() {
    let chip = chip("values", &[]);
    let mut machine = start(&chip, &[BLANK, FORMATTED]);
    let (longest, longer) = ("5a00".repeat(120), "5a00".repeat(120) + "ff");
    let text = "a quote \\\" and a backslash \\\\";
    check(
        &mut machine,
        &[
            (&format!("put 0 1 {longest}"), "0 done, 248 steps"),
            (&format!("put 0 2 {longer}"), "1 malformed: an id is 0 to 255, a value has at most 240 bytes"),
            (&format!("put 0 3 \"{text}\""), "0 done, 35 steps"),
            ("commit 0", "0 done, 6 steps"),
            ("get 1", &format!("0 done: {longest}")),
            ("get 2", NO_OBJECT),
            ("get 3", &format!("0 done: \"{text}\"")),
        ],
    );
    machine.cut();
}

#[test]
fn lines_that_cannot_be_read() {
    let chip = chip("lines", &[]);
    let mut machine = start(&chip, &[BLANK, FORMATTED]);
    let put = "? it goes like this: put HOST ID VALUE";
    for line in ["put", "put 0", "put 0 5", "put 0 5 abc", "put 0 5 \"on", "put 0 5 on", "put 0 5 \"on\" 1"] {
        check(&mut machine, &[(line, put)]);
    }
    for line in ["put x 5 00", "put 256 5 00", "put 0 65536 00", "put 0 5x 00", "put 0 5 \"on\"x"] {
        check(&mut machine, &[(line, put)]);
    }
    check(
        &mut machine,
        &[
            ("put 0 5 00112233 ", "0 done, 12 steps"),
            ("  abort   0  ", "0 done, 6 steps"),
            ("get", "? it goes like this: get ID"),
            ("get five", "? it goes like this: get ID"),
            ("list 1", "? it goes like this: list"),
            ("format", "? it goes like this: format yes"),
            ("format no", "? it goes like this: format yes"),
            ("dump 0 16385", "? it goes like this: dump FROM COUNT"),
            ("commmit 0", "? no such command; help lists them"),
            ("comm", "? no such command; help lists them"),
            ("put 4 5 00", "10 host range: hosts are 0 to 3"),
            ("commit 255", "10 host range: hosts are 0 to 3"),
            ("put 0 256 00", "1 malformed: an id is 0 to 255, a value has at most 240 bytes"),
            ("get 256", "1 malformed: an id is 0 to 255, a value has at most 240 bytes"),
        ],
    );
    machine.cut();
}

/// Backspace and delete take back one character, control U and control C all. A line has at most 575.
#[test]
fn typing() {
    let chip = chip("typing", &[]);
    let mut machine = start(&chip, &[BLANK, FORMATTED]);
    let mut typed = |keys: &str| {
        machine.send(keys);
        machine.hear()
    };
    assert_eq!(typed("gex\x7ft 4\x085\r"), format!("gex\x08 \x08t 4\x08 \x085\r\n{NO_OBJECT}"));
    assert_eq!(typed("ab\x15get 5\n"), format!("ab\x08 \x08\x08 \x08get 5\r\n{NO_OBJECT}"));
    assert_eq!(typed("a\x03\x08get 5\r\n"), format!("a\x08 \x08get 5\r\n{NO_OBJECT}"));
    assert_eq!(typed("\x1bget 5\r"), format!("\x07get 5\r\n{NO_OBJECT}"));
    assert_eq!(typed(&format!("{}\r", "x".repeat(600))), format!("{}\r\n? the line is too long", "x".repeat(575)));
    assert_eq!(typed("\r"), "");
    let help = typed("help\r");
    let more = ["get", "list", "log", "state", "dump", "mount", "format", "stack"];
    for word in ["put", "delete", "commit", "abort", "convert"].into_iter().chain(more) {
        assert!(help.contains(&format!("\r\n{word}")), "{word} is not in {help}");
    }
    machine.cut();
}

/// What is typed while a flash job runs is not lost.
#[test]
fn typed_ahead() {
    let chip = chip("ahead", &[]);
    let mut machine = start(&chip, &[BLANK, FORMATTED]);
    let value = "5a00".repeat(120);
    machine.send(&format!("put 3 1 {value}\rcommit 3\rget 1\rlog\r"));
    let lines = [
        &format!("put 3 1 {value}"),
        "0 done, 248 steps",
        "> commit 3",
        "0 done, 6 steps",
        "> get 1",
        &format!("0 done: {value}"),
        "> log",
        "0 done: time 1, 1 object, 263 of 4096 bytes used",
        "> ",
    ];
    machine.wait_until(|heard| heard.ends_with("used\r\n> "));
    assert_eq!(machine.cut().split("\r\n").collect::<Vec<_>>(), lines);
}

/// A mount is the deepest of the calls that the firmware makes; the stack in ast1030.ld has 8,192 bytes.
#[test]
fn the_stack_suffices() {
    let chip = chip("stack", &[(0, &HEADER), (16, &PUT), (26, &COMMIT), (32, &PUT)]);
    let mut machine = start(&chip, &["mount: 0 done, 5 steps"]);
    machine.answer("put 0 1 00");
    machine.answer("commit 0");
    machine.answer("list");
    machine.answer("format yes");
    let line = machine.answer("stack").remove(0);
    let used = line.strip_prefix("0 done: ").and_then(|rest| rest.strip_suffix(" of 8192 bytes used at most"));
    let used: u32 = used.and_then(|number| number.parse().ok()).unwrap_or_else(|| panic!("{line}"));
    assert!((1024..=4096).contains(&used), "{line}");
    machine.cut();
}
