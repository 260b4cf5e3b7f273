//! The calls byte for byte, on document 01's rows, forged records and lines that cannot be read.

use super::{check, check_with, command, desk, replay, run};

const TICKETS: &str = concat!(env!("CARGO_MANIFEST_DIR"), "/../../examples/tickets");

fn put_of(id: u8, size: usize) -> String {
    format!("req 0 {:02x}000101{id:02x}00{} 0", 6 + size, "aa".repeat(size))
}

#[test]
fn rows_a_to_h() {
    let half = |start: &str| format!("{start}{}", "ff".repeat(256 - start.len() / 2));
    let image = |start: &str| format!("image={}{}", half(start), half(""));
    let header = "1000014afefffffffc";
    let put = "ffffffffffffff0a0001000205004142fe";
    check(&[
        ("new 512", "ok"),
        ("format", "more"),
        ("run", "0 steps=12"),
        ("dump", &image(header)),
        ("req 2 0800010105004142 0", "more"),
        ("run", "0 steps=10"),
        ("dump", &image(&format!("{header}{put}"))),
        ("req 2 04000301 0", "more"),
        ("run", "0 steps=6"),
        ("dump", &image(&format!("{header}{put}0600030002fe"))),
        ("record", "idle len=512 half=0 end=32 blocks=2 edition=1 pending=0,0,0,0 place=5:16"),
        ("read 1 060005010500", "0 at=23 len=2"),
        ("req 1 0500060101 14", "0 reply=0e00010201000000010019000001"),
        ("mount", "0"),
        ("run", "0 steps=0"),
        ("read 1 060005010500", "0 at=23 len=2"),
        (&image(&format!("{header}{put}")).replace('=', " "), "ok"),
        ("mount", "more"),
        ("run", "0 steps=5"),
        ("read 1 060005010500", "8"),
        ("record", "idle len=512 half=0 end=31 blocks=2 edition=1 pending=0,0,0,0"),
        ("dump", &image(&format!("{header}{put}05000700fe"))),
        (&image(&format!("{header}{put}0600030002")).replace('=', " "), "ok"),
        ("mount", "more"),
        ("run", "0 steps=7"),
        ("read 1 060005010500", "8"),
        ("dump", &image(&format!("{header}{put}0600000002fe05000700fe"))),
    ]);
}

/// The desk's own example of K11: rows f and g, one after the other.
#[test]
fn rows_f_and_g() {
    check(&[
        ("new 512", "ok"),
        ("format", "more"),
        ("run", "0 steps=12"),
        ("req 2 0800010105004142 0", "more"),
        ("run", "0 steps=10"),
        ("mount", "more"),
        ("run", "0 steps=5"),
        ("record", "idle len=512 half=0 end=31 blocks=2 edition=1 pending=0,0,0,0"),
        ("req 2 0800010105004142 0", "more"),
        ("run", "0 steps=10"),
        ("req 2 04000301 0", "more"),
        ("step 5", "more"),
        ("mount", "more"),
        ("run", "0 steps=7"),
        ("record", "idle len=512 half=0 end=52 blocks=2 edition=1 pending=0,0,0,0"),
    ]);
}

/// As K7 has them: each put gets a commit, and the second would be refused without the first's.
#[test]
fn rows_i_to_m() {
    let old = "idle len=512 half=0 end=250 blocks=2 edition=1 pending=0,0,0,0 place=1:16 place=2:94 place=3:172";
    let new = "idle len=512 half=1 end=229 blocks=2 edition=1 pending=0,0,0,0 place=1:16 place=2:87 place=3:158";
    let (first, second, third) = (put_of(1, 64), put_of(2, 64), put_of(3, 64));
    let commit = [("req 0 04000301 0", "more"), ("run", "0 steps=6")];
    let formatted = [("new 512", "ok"), ("format", "more"), ("run", "0 steps=12")];
    let full = [
        (&first[..], "more"),
        ("run", "0 steps=72"),
        (&second, "12"),
        ("record", "idle len=512 half=0 end=88 blocks=2 edition=1 pending=72,0,0,0"),
    ];
    let [second, third] = [&second, &third].map(|put| [(&put[..], "more"), ("run", "0 steps=72")]);
    let delete = [
        ("record", old),
        ("req 0 060001010400 0", "7"),
        ("req 0 04000301 0", "0"),
        ("req 0 060001010400 0", "7"),
        ("req 0 060002010100 0", "more"),
    ];
    let before = [&formatted[..], &full, &commit, &second, &commit, &third, &commit, &delete].concat();
    let pending = new.replace("end=229", "end=237").replace("pending=0", "pending=8");
    let deleted = [("run", "0 steps=232"), ("record", &pending[..])];
    let put = [
        ("req 0 060001010400 0", "more"),
        ("run", "0 steps=8"),
        ("record", "idle len=512 half=1 end=251 blocks=2 edition=1 pending=8,0,0,0 place=2:87 place=3:158"),
    ];
    check(&[&before[..], &deleted, &commit, &put].concat());
    for (cut, record, places) in
        [("step 222", old, ["23", "101", "179"]), ("step 223", new, ["278", "349", "420"])]
    {
        let mount = [(cut, "more"), ("mount", "more"), ("run", "0 steps=1"), ("record", record)];
        let [one, two, three] = places.map(|place| format!("0 at={place} len=64"));
        let reads: [(&str, &str); 3] =
            [("read 0 060005010100", &one), ("read 0 060005010200", &two), ("read 0 060005010300", &three)];
        check(&[&before[..], &mount, &reads].concat());
    }
}

/// The desk's own example: a second put of 72 bytes is too much for host 2 and not for host 1; a record that says one byte less.
#[test]
fn a_host_that_is_full() {
    let value: String = (0..64).map(|byte| format!("{byte:02x}")).collect();
    let [put_2, put_1] = [2, 1].map(|host| format!("req {host} 460001010900{value} 0"));
    check(&[
        ("new 512", "ok"),
        ("format", "more"),
        ("run", "0 steps=12"),
        (&put_2, "more"),
        ("run", "0 steps=72"),
        ("record", "idle len=512 half=0 end=88 blocks=2 edition=1 pending=0,0,72,0"),
        (&put_2, "12"),
        (&put_1, "more"),
        ("idle 512 0 88 pending=0,0,71,0", "ok"),
        ("req 2 04000301 0", "11"),
        ("idle 512 0 88 pending=0,0,72,0", "ok"),
        ("req 2 04000301 0", "more"),
    ]);
}

/// Without the field nothing is pending, whatever the image holds; the fields in any order.
#[test]
fn records_with_and_without_pending() {
    check(&[
        ("new 512", "ok"),
        ("format", "more"),
        ("run", "0 steps=12"),
        ("idle 512 0 16", "ok"),
        ("req 1 04000301 0", "0"),
        ("idle 512 0 16 pending=0,0,0,0", "ok"),
        ("req 1 060002010500 0", "more"),
        ("record", "job"),
        ("run", "0 steps=8"),
        ("record", "idle len=512 half=0 end=24 blocks=2 edition=1 pending=0,8,0,0"),
        ("idle 512 0 24", "ok"),
        ("record", "idle len=512 half=0 end=24 blocks=2 edition=1 pending=0,0,0,0"),
        ("req 1 04000301 0", "11"),
        ("read 1 060005010500", "8"),
        ("idle 512 0 24 pending=0,8,0,0 blocks=2", "ok"),
        ("read 1 060005010500", "8"),
        ("idle 512 0 24 blocks=3 pending=65535,0,00001,65534", "ok"),
        ("record", "idle len=512 half=0 end=24 blocks=3 edition=1 pending=65535,0,1,65534"),
        ("idle 512 0 24 edition=2 pending=0,8,0,0 blocks=2", "ok"),
        ("record", "idle len=512 half=0 end=24 blocks=2 edition=2 pending=0,8,0,0"),
        ("req 1 04000301 0", "11"),
        ("idle 512 0 24 pending=0,8,0,0 edition=1", "ok"),
        ("req 1 04000301 0", "more"),
        ("run", "0 steps=6"),
        ("record", "idle len=512 half=0 end=30 blocks=2 edition=1 pending=0,0,0,0"),
        ("put 3 1 -", "more"),
        ("run", "0 steps=8"),
        ("mount", "more"),
        ("run", "0 steps=5"),
        ("record", "idle len=512 half=0 end=43 blocks=2 edition=1 pending=0,0,0,0"),
    ]);
}

#[test]
fn rows_n_to_p() {
    check(&[
        ("new 512", "ok"),
        ("format", "more"),
        ("run", "0 steps=12"),
        ("req 0 05000301 0", "1"),
        ("req 0 060001010001 0", "1"),
        ("req 4 060001010100 0", "10"),
        ("req 3 060001010100 0", "more"),
        ("req 3 06000101ff00 0", "5"),
        ("run", "0 steps=8"),
        ("req 3 06000101ff00 0", "more"),
        ("new 768", "ok"),
        ("format", "more"),
        ("new 65536", "ok"),
        ("format", "more"),
        ("new 256", "ok"),
        ("format", "4"),
        ("new 511", "ok"),
        ("mount", "4"),
    ]);
}

/// Row o's value cases as K2 has them: 240 and 241 bytes, 00, 01, 02 and so on, at 1,024 bytes.
#[test]
fn row_o_at_1024_bytes() {
    let value = |size: u8| (0..size).map(|byte| format!("{byte:02x}")).collect::<String>();
    let most = format!("req 0 f60001010900{} 0", value(240));
    let too_many = format!("req 0 f70001010900{} 0", value(241));
    check(&[
        ("new 1024", "ok"),
        ("format", "more"),
        ("run", "0 steps=12"),
        (&most, "more"),
        ("run", "0 steps=248"),
        (&too_many, "1"),
    ]);
}

/// The same in words: at 512 bytes the longest value is more than half a block, at 1,024 it comes back as it was put.
#[test]
fn the_longest_values_in_words() {
    let (value, too_many) = ("7e".repeat(240), format!("put 1 9 {}", "7e".repeat(241)));
    let put = format!("put 1 9 {value}");
    let got = format!("0 value={value} \"{}\"", "~".repeat(240));
    check_with(
        &["--words"],
        &[
            ("new 512", "ok"),
            ("format", "more"),
            ("run", "0 steps=12"),
            (&put, "12 host full"),
            (&too_many, "1 malformed"),
            ("new 1024", "ok"),
            ("format", "more"),
            ("run", "0 steps=12"),
            (&too_many, "1 malformed"),
            (&put, "more"),
            ("run", "0 steps=248"),
            ("commit 1", "more"),
            ("run", "0 steps=6"),
            ("get 0 9", &got),
            ("log 0", "0 time=1 objects=1 used=263 size=512"),
        ],
    );
}

#[test]
fn lines_that_cannot_be_read() {
    check(&[
        ("mount", "4"),
        ("dump", "image=-"),
        ("nothing", "? line 3: no call is named nothing"),
        ("mount now", "? line 4: mount stands alone"),
        ("req 0 04000301", "? line 5: req goes with HOST HEX LEN"),
        ("req 256 04000301 0", "? line 6: 256 is more than 255"),
        ("req -1 04000301 0", "? line 7: -1 is no number"),
        ("req 0 0400030 0", "? line 8: bytes are hex digits, two a byte, or - for none"),
        ("req 0 0400030g 0", "? line 9: bytes are hex digits, two a byte, or - for none"),
        ("step 0", "? line 10: 0 is less than 1"),
        ("new 1048577", "? line 11: 1048577 is more than 1048576"),
        ("new 99999999999999999999", "? line 12: 99999999999999999999 is too large"),
        ("poke 0 00", "? line 13: the image has only 0 bytes"),
        ("poke 18446744073709551615 00", "? line 14: the image has only 0 bytes"),
        ("idle 0 0 0", "? line 15: 0 is less than 1"),
        ("idle 65536 255 65535", "ok"),
        ("record", "idle len=65536 half=255 end=65535 blocks=2 edition=1 pending=0,0,0,0"),
        ("idle 65537 0 0", "? line 18: 65537 is more than 65536"),
        ("record", "idle len=65536 half=255 end=65535 blocks=2 edition=1 pending=0,0,0,0"),
        ("unmount", "ok"),
        ("record", "unmounted"),
    ]);
}

#[test]
fn comments_blank_lines_and_line_ends() {
    assert_eq!(replay(b"# a\n\n   \t\r\n  # b\r\nnew 2\r\n\tdump  \nrecord"), "ok\nimage=ffff\nunmounted\n");
    assert_eq!(replay(b"\xFF\xFE\nnew 1\n"), "? line 1: not text\nok\n");
    assert_eq!(replay(b"\xEF\xBB\xBFnew 1\n # \xFF\ndump\n"), "ok\nimage=ff\n");
    assert_eq!(replay(b""), "");
}

#[test]
fn pokes_and_forged_records() {
    check(&[
        ("new 512", "ok"),
        ("format", "more"),
        ("step", "more"),
        ("step 10", "more"),
        ("record", "job"),
        ("req 0 - 0", "5"),
        ("step 5", "0"),
        ("step 5", "0"),
        ("req 0 - 0", "1"),
        ("req 0 0500060101 13", "9"),
        ("req 0 0500060101 16", "0 reply=0e000102010000000000100000010000"),
        ("idle 512 0 17", "ok"),
        ("req 0 - 0", "11"),
        ("read 0 060005010100", "8"),
        ("idle 512 0 16", "ok"),
        ("read 0 060005010100", "8"),
        ("poke 511 fe", "ok"),
        ("req 0 04000301 0", "11"),
        ("poke 8 ff", "ok"),
        ("mount", "3 half=0 fault=state place=8"),
        ("poke 8 fc", "ok"),
        ("mount", "more"),
        ("poke 504 fcffffffffffffff", "ok"),
        ("poke 505 fcffffffffffffff", "? line 24: the image has only 512 bytes"),
        ("poke 512 -", "ok"),
        ("unmount", "ok"),
        ("req 0 04000301 0", "2"),
    ]);
}

#[test]
fn calls_that_are_not_there_yet() {
    check(&[
        ("log-open", "? line 1: no call is named log-open"),
        ("boot-read", "? line 2: no call is named boot-read"),
        ("dump", "image=-"),
        ("record", "unmounted"),
    ]);
}

#[test]
fn tickets() {
    let expected = |name: &str| std::fs::read_to_string(format!("{TICKETS}/{name}.expected")).expect("answers");
    for ticket in ["1-bad-log-length", "2-power-cuts", "3-power-lost-in-erase", "4-four-blocks"] {
        let (status, out, errors) = run(&["replay", "--strict", &format!("{TICKETS}/{ticket}.desk")], b"");
        assert_eq!((status, &out, &errors[..]), (0, &expected(ticket), ""), "{ticket}");
    }
    for (board, status) in [("returned-board", 0), ("damaged-board", 1)] {
        let show = ["show", "--hex", "--journal", &format!("{board}.hex")];
        let output = command(&show).current_dir(TICKETS).output().expect("desk ends");
        assert_eq!(String::from_utf8(output.stdout).expect("text"), expected(board));
        assert_eq!(output.status.code(), Some(status));
    }
}

#[test]
fn wrong_commands() {
    for arguments in [&[][..], &["play"], &["replay", "a", "b"]] {
        let (status, out, errors) = run(arguments, b"");
        assert_eq!((status, &out[..]), (2, ""));
        assert!(!errors.is_empty());
    }
    assert_eq!(desk(&["replay", "no such file"], b"").status.code(), Some(1));
    let help = desk(&["help"], b"");
    assert!(help.status.success() && help.stdout.starts_with(b"desk"));
}
