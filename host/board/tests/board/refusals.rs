//! Chips that a board comes back with: damaged, worn, full. The board changes nothing unless it is told to.

use crate::*;
use board::chip::BLOCK;

/// Header of a block of the last time, 4,294,967,295, and of the one before it.
const LAST: [u8; 9] = [0x10, 0x00, 0x01, 0x4A, 0x00, 0x00, 0x00, 0x00, 0xFC];
const LAST_BUT_ONE: [u8; 9] = [0x10, 0x00, 0x01, 0x4A, 0x01, 0x00, 0x00, 0x00, 0xFC];

const WORN: &str = "6 worn: the creation time can't rise any more; read-only: commit or abort what is pending, \
                    then copy the objects";
const READ_ONLY: &str = "The creation time is the last one. The store is read-only: get, list and log work.";

/// A mount that is refused is told in these two lines; then only dump and state help, and the flash stays as it is.
fn refused(name: &str, parts: &[(usize, &[u8])], first: &str) {
    let chip = chip(name, parts);
    let before = chip.bytes();
    let mut machine = start(&chip, &[first, LEFT]);
    for command in ["get 5", "list", "log", "put 0 1 00", "delete 0 1", "commit 0", "abort 0"] {
        check(&mut machine, &[(command, NO_STORE)]);
    }
    assert_eq!(machine.answer("state"), [first, LEFT]);
    assert_eq!(machine.answer("mount"), [first, LEFT]);
    assert_eq!(machine.answer("format"), ["? it goes like this: format yes"]);
    let (at, part) = parts[0];
    let hex: String = part.iter().map(|byte| format!("{byte:02x}")).collect();
    assert_eq!(machine.answer(&format!("dump {at} {}", part.len())), [&hex, "0 done"]);
    machine.cut();
    assert_eq!(chip.bytes(), before, "{name}: the flash was changed");

    let mut machine = start(&chip, &[first, LEFT]);
    check(&mut machine, &[("format yes", FORMATTED), ("put 0 1 \"new\"", "0 done, 11 steps")]);
    check(&mut machine, &[("commit 0", "0 done, 6 steps"), ("get 1", "0 done: \"new\"")]);
    machine.cut();
    start(&chip, &[MOUNTED]).cut();
}

/// FORMAT's example: a commit by host 4.
#[test]
fn damaged() {
    let frame = [0x06, 0x00, 0x03, 0x00, 0x04, 0xFE];
    refused("damaged", &[(16, &frame), (0, &HEADER)], "mount: 3 foreign: block 0 broke at its host, byte 20");
}

/// Object 5 = "AB" in edition 2, and its value has lost a bit.
#[test]
fn of_another_checksum() {
    let frame = [0x0D, 0x00, 0x05, 0x00, 0x05, 0x00, b'A', b'@', 0xC1, 0xF5, 0x84, 0xE8, 0xFE];
    let mut header = HEADER;
    header[2] = 0x02;
    refused("checksum", &[(16, &frame), (0, &header)], "mount: 3 foreign: block 0 broke at its crc, byte 24");
}

#[test]
fn of_another_kind() {
    let mut header = HEADER;
    header[2] = 0x00;
    refused("kind", &[(2 * BLOCK, &header)], "mount: 3 foreign: block 2 broke at its kind, byte 2");
}

#[test]
fn of_equal_times() {
    let first = "mount: 3 foreign: block 1 broke at its time, byte 4";
    refused("equal", &[(BLOCK, &HEADER), (3 * BLOCK, &HEADER)], first);
}

/// One wrong bit of its state makes a valid block one in progress: it holds its objects still.
#[test]
fn without_a_store_and_not_blank() {
    let mut header = HEADER;
    header[8] = 0xFE;
    let first = "mount: 2 no store: no block is valid, and the chip is not blank";
    refused("progress", &[(0, &header), (16, &PUT), (26, &COMMIT)], first);
}

/// The last time, and changes pending up to the block's end, 16 + 16 * 248 + 104 + 8 bytes: a mount has no room to drop them there,
/// and would leave them behind by a transfer.
#[test]
fn worn_and_a_transfer_due() {
    let first = "mount: 6 worn: a transfer is needed, and the creation time can't rise any more";
    let put = |length: u8| {
        let value = vec![b'v'; usize::from(length) - 8];
        [&[length, 0x00, 0x01, 0x00, 0x02, 0x05, 0x00][..], &value, &[0xFE]].concat()
    };
    let puts = [put(248).repeat(16), put(104)].concat();
    let delete = [0x08, 0x00, 0x02, 0x00, 0x01, 0x05, 0x00, 0xFE];
    refused("worn", &[(BLOCK - delete.len(), &delete), (16, &puts), (0, &LAST)], first);
}

/// The last time, nothing pending: what is there can be read, and nothing is taken that a power cut could leave pending.
#[test]
fn worn_and_read_only() {
    let chip = chip("read-only", &[(0, &LAST), (16, &PUT), (26, &COMMIT)]);
    let before = chip.bytes();
    let mut machine = start(&chip, &[MOUNTED, READ_ONLY]);
    check(
        &mut machine,
        &[
            ("get 5", "0 done: \"on\""),
            ("log", "0 done: time 4294967295, 1 object, 25 of 4096 bytes used"),
            ("put 0 1 00", WORN),
            ("delete 0 5", WORN),
            ("commit 0", "0 done"),
        ],
    );
    assert_eq!(machine.answer("list"), ["5 = \"on\"", "0 done"]);
    machine.cut();
    assert_eq!(chip.bytes(), before);
}

/// The last transfer comes while two hosts have changes pending. They can still commit, and a restart finds all.
///
/// Sixteen puts of 240 bytes to object 5, each committed, end at 16 + 16 * 254 = 4080. Then 9 bytes fit and 11 more do not:
/// C is 16 + 247 + 9, so that the transfer and the put are C - 5 + 11 = 278 steps.
#[test]
fn worn_under_way() {
    let put =
        [&[0xF8, 0x00, 0x01, 0x00, 0x02, 0x05, 0x00][..], &[b'v'; 240], &[0xFE], &COMMIT].concat().repeat(16);
    let chip = chip("last", &[(0, &LAST_BUT_ONE), (16, &put)]);
    let mut machine = start(&chip, &[MOUNTED]);
    check(
        &mut machine,
        &[
            ("put 1 7 \"x\"", "0 done, 9 steps"),
            ("put 2 5 \"new\"", "0 done, 278 steps"),
            ("put 3 1 \"y\"", WORN),
            ("commit 1", "0 done, 6 steps"),
            ("commit 2", "0 done, 6 steps"),
            ("delete 2 5", WORN),
        ],
    );
    machine.cut();
    let mut machine = start(&chip, &[MOUNTED, READ_ONLY]);
    assert_eq!(machine.answer("list"), ["5 = \"new\"", "7 = \"x\"", "0 done"]);
    machine.cut();
}

/// Eight puts of 240 bytes are 8 * 248 = 1984 bytes of the 2,048 that are half a block; 56 bytes of value make it full.
#[test]
fn a_host_that_is_full() {
    let chip = chip("host-full", &[]);
    let mut machine = start(&chip, &[BLANK, FORMATTED]);
    let value = "ab".repeat(240);
    for id in 0..8 {
        check(&mut machine, &[(&format!("put 1 {id} {value}"), "0 done, 248 steps")]);
    }
    let full = "12 host full: this host may have half a block pending: commit or abort first";
    check(
        &mut machine,
        &[
            (&format!("put 1 8 {value}"), full),
            (&format!("put 1 8 {}", "cd".repeat(57)), full),
            (&format!("put 1 8 {}", "cd".repeat(56)), "0 done, 64 steps"),
            ("delete 1 8", full),
            (&format!("put 2 9 {value}"), "0 done, 248 steps"),
            ("commit 1", "0 done, 6 steps"),
            ("delete 1 8", "0 done, 8 steps"),
            ("log", "0 done: time 1, 9 objects, 2055 of 4096 bytes used"),
        ],
    );
    machine.cut();
}

/// Each object of 240 bytes needs 247, its put 248 + 6 + 14: after sixteen, 16 + 16 * 247 + 268 is more than 4,096. Frames
/// then end at 16 + 16 * 254 = 4080. A delete and its commit fit behind them, and the next put comes with a transfer:
/// 16 + 15 * 247 - 5 + 248 = 3964 steps.
#[test]
fn full() {
    let chip = chip("full", &[]);
    let mut machine = start(&chip, &[BLANK, FORMATTED]);
    let value = "ab".repeat(240);
    for id in 0..16 {
        check(
            &mut machine,
            &[(&format!("put 1 {id} {value}"), "0 done, 248 steps"), ("commit 1", "0 done, 6 steps")],
        );
    }
    let no_room =
        "7 no room: commit or abort what is pending, or delete objects and commit; deletes need less room";
    check(
        &mut machine,
        &[
            (&format!("put 1 16 {value}"), no_room),
            ("log", "0 done: time 1, 16 objects, 3968 of 4096 bytes used"),
            ("delete 2 3", "0 done, 8 steps"),
            ("commit 2", "0 done, 6 steps"),
            (&format!("put 1 16 {value}"), "0 done, 3964 steps"),
            ("commit 1", "0 done, 6 steps"),
            ("log", "0 done: time 2, 16 objects, 3968 of 4096 bytes used"),
            ("get 3", NO_OBJECT),
        ],
    );
    machine.cut();
}
