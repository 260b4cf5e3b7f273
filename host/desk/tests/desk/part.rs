//! A store that is part of a larger dump, a chip's file say.

use super::{COMMIT, Folder, HEADER, PUT, run, unhex};
use std::fs;

const CHIP: usize = 4 << 20;
const STORE: usize = 16_384;

/// A chip of 4 MiB with a store of four blocks at this byte.
fn chip(at: usize) -> Vec<u8> {
    let mut bytes = vec![0xFF; CHIP];
    let store = unhex(&[HEADER, PUT, COMMIT].concat());
    bytes[at..at + store.len()].copy_from_slice(&store);
    bytes
}

fn shown(options: &[&str], input: &[u8]) -> (i32, String, String) {
    run(&[&["show", "--blocks=4"], options, &["-"]].concat(), input)
}

/// What is shown of the part is what is shown of these bytes alone.
#[test]
fn shown_as_if_cut_out() {
    let folder = Folder::new("part");
    for at in [0, 1, 0x12000, CHIP - STORE] {
        let (bytes, from) = (chip(at), format!("--at={at}"));
        let alone = shown(&[], &bytes[at..at + STORE]);
        assert_eq!((alone.0, &alone.2[..]), (0, ""));
        assert!(alone.1.starts_with("standard input: 16,384 bytes, 4 blocks of 4,096\n"), "{}", alone.1);
        assert!(alone.1.contains("\n    5     23      2  \"AB\"\n"), "{}", alone.1);
        assert_eq!(shown(&[&from, "--length=16384"], &bytes), alone);
        let path = folder.0.join("chip");
        fs::write(&path, &bytes).expect("a file");
        let path = path.to_str().expect("text");
        let (status, report, errors) = run(&["show", "--blocks=4", &from, "--length=16384", path], b"");
        assert_eq!((status, report.replacen(path, "standard input", 1), errors), alone);
    }
}

#[test]
fn in_hex() {
    let digits = format!("00 {HEADER}{PUT}{COMMIT}{} 00", "ff".repeat(480));
    let alone = run(&["show", "--hex", "-"], &digits.as_bytes()[3..3 + 2 * 512]);
    assert_eq!(run(&["show", "--hex", "--at=1", "--length=512", "-"], digits.as_bytes()), alone);
    assert_eq!(alone.0, 0);
}

/// Without a length all that follows is the image.
#[test]
fn up_to_the_end() {
    let bytes = chip(CHIP - STORE);
    let at = format!("--at={}", CHIP - STORE);
    assert_eq!(shown(&[&at], &bytes), shown(&[], &bytes[CHIP - STORE..]));
    let (status, report, _) = shown(&[], &bytes);
    assert_eq!(status, 1);
    assert!(report.starts_with("standard input: more than 1,048,576 bytes\n"), "{report}");
}

#[test]
fn parts_that_are_not_there() {
    let refused = |options: &[&str], why: &str| {
        assert_eq!(shown(options, &chip(0)), (2, String::new(), format!("desk: {why}\n")), "{options:?}");
    };
    refused(&["--at=4194303", "--length=2"], "standard input: 1 of 2 bytes from byte 4194303 on are there");
    refused(&["--at=9999999", "--length=512"], "standard input: 0 of 512 bytes from byte 9999999 on are there");
    refused(&["--length=1048577"], "--length= goes with a number from 0 to 1048576, not 1048577");
    refused(&["--at=-1"], "--at= goes with a number from 0 to 4294967295, not -1");
    refused(&["--at="], "--at= goes with a number from 0 to 4294967295, not ");
}
