//! The second edition (K9): convert, its refusals, records of either edition, checksums.

use super::{check, check_with, image_of, run};

/// A settled object 5 = "AB" in edition 1, as a format, a put and a commit leave it.
const SETTLED: [(&str, &str); 7] = [
    ("new 512", "ok"),
    ("format", "more"),
    ("run", "0 steps=12"),
    ("req 2 0800010105004142 0", "more"),
    ("run", "0 steps=10"),
    ("req 2 04000301 0", "more"),
    ("run", "0 steps=6"),
];

/// Header of edition 2 and time 2, and object 5 = "AB" in it. The checksum is python3's `zlib.crc32`, as all are here.
const SECOND: &str = "1000024afdfffffffcffffffffffffff0d00050005004142c1f584e8fe";

/// Header of edition 1 up to its time.
const FIRST: &str = "1000014a";

/// So many settled frames of edition 1, the first of which has this many bytes of value.
fn settled(objects: usize, bytes: usize) -> String {
    let size = |id| if id == 0 { bytes } else { 0 };
    let frame = |id| format!("{:02x}000500{id:02x}00{}fe", 7 + size(id), "aa".repeat(size(id)));
    (0..objects).map(frame).collect()
}

/// A script with the image of this first half, in hex, the other half being blank.
fn on(half: &str, lines: &[(&str, &str)]) {
    let image: String = image_of(256, [half, ""]).iter().map(|byte| format!("{byte:02x}")).collect();
    let image = format!("image {image}");
    check(&[&[(&image[..], "ok")], lines].concat());
}

/// The desk's own example: 16 with something pending, a convert, records of either edition, a checksum that is wrong.
#[test]
fn a_convert() {
    check(&[
        ("new 512", "ok"),
        ("format", "more"),
        ("run", "0 steps=12"),
        ("req 2 0800010105004142 0", "more"),
        ("run", "0 steps=10"),
        ("req 2 04000801 0", "16"),
        ("req 2 04000301 0", "more"),
        ("run", "0 steps=6"),
        ("req 2 04000801 0", "more"),
        ("run", "0 steps=24"),
        ("record", "idle len=512 half=1 end=29 blocks=2 edition=2 pending=0,0,0,0 place=5:16"),
        ("read 0 060005010500", "0 at=278 len=2"),
        ("req 2 04000801 0", "0"),
        ("idle 512 1 29 place=5:16", "ok"),
        ("req 2 04000801 0", "11"),
        ("idle 512 1 29 place=5:16 edition=2", "ok"),
        ("req 2 04000801 0", "0"),
        ("poke 282 00", "ok"),
        ("mount", "3 half=1 fault=crc place=24"),
    ]);
}

/// Frames of edition 2, byte for byte; a mount's reset has a checksum too, a format writes edition 1.
#[test]
fn bytes_of_edition_2() {
    let half = |start: &str| format!("{start}{}", "ff".repeat(256 - start.len() / 2));
    let (put, commit) = ("0e0001000205004142223912b4fe", "0a00030002c930da60fe");
    let (delete, reset) = ("0c0002000105001878b95cfe", "0900070051060d13fe");
    let [converted, put, committed, mended] = [
        SECOND.to_string(),
        format!("{SECOND}{put}"),
        format!("{SECOND}{put}{commit}"),
        format!("{SECOND}{put}{commit}{delete}{reset}"),
    ]
    .map(|start| format!("image={}{}", half(""), half(&start)));
    let lines = [
        ("req 0 04000801 0", "more"),
        ("run", "0 steps=24"),
        ("dump", &converted[..]),
        ("req 2 0800010105004142 0", "more"),
        ("run", "0 steps=14"),
        ("record", "idle len=512 half=1 end=43 blocks=2 edition=2 pending=0,0,14,0 place=5:16"),
        ("dump", &put),
        ("req 2 04000301 0", "more"),
        ("run", "0 steps=10"),
        ("dump", &committed),
        ("log 0", "0 time=2 objects=1 used=29 size=256"),
        ("req 1 060002010500 0", "more"),
        ("run", "0 steps=12"),
        ("mount", "more"),
        ("run", "0 steps=9"),
        ("record", "idle len=512 half=1 end=74 blocks=2 edition=2 pending=0,0,0,0 place=5:29"),
        ("dump", &mended),
        ("format", "more"),
        ("run", "0 steps=12"),
        ("record", "idle len=512 half=0 end=16 blocks=2 edition=1 pending=0,0,0,0"),
    ];
    check(&[&SETTLED[..], &lines].concat());
}

/// 16 whichever host has something pending, in edition 2 too; a body is 1.
#[test]
fn converts_with_something_pending() {
    let lines = [
        ("req 3 060002010500 0", "more"),
        ("run", "0 steps=8"),
        ("req 0 0500080100 0", "1 malformed"),
        ("req 0 04000801 0", "16 pending"),
        ("abort 3", "more"),
        ("run", "0 steps=6"),
        ("req 0 04000801 0", "more"),
        ("run", "0 steps=24"),
        ("put 1 6 -", "more"),
        ("run", "0 steps=12"),
        ("req 3 04000801 0", "16 pending"),
        ("mount", "more"),
        ("run", "0 steps=9"),
        ("req 3 04000801 0", "0"),
    ];
    let named: Vec<_> = SETTLED.iter().chain(&lines).copied().collect();
    check_with(&["--words"], &named);
}

/// 7 exactly if U in edition 2 is more than S: 16 + 20 * 11 + 20 = 256, and 16 + 22 * 11 = 258.
#[test]
fn converts_with_and_without_room() {
    let header = format!("{FIRST}fefffffffcffffffffffffff");
    // the first frame has 31 bytes
    let others: String = (1..20).map(|id| format!(" place={id}:{}", 47 + 11 * (id - 1))).collect();
    on(
        &format!("{header}{}", settled(20, 20)),
        &[
            ("mount", "0"),
            ("req 0 04000801 0", "more"),
            ("run", "0 steps=251"),
            (
                "record",
                &format!("idle len=512 half=1 end=256 blocks=2 edition=2 pending=0,0,0,0 place=0:16{others}"),
            ),
            ("log 0", "0 time=2 objects=20 used=256 size=256"),
        ],
    );
    on(&format!("{header}{}", settled(20, 21)), &[("mount", "0"), ("req 0 04000801 0", "7")]);
    on(
        &format!("{header}{}", settled(22, 0)),
        &[
            ("mount", "0"),
            ("req 0 04000801 0", "7"),
            ("delete 0 21", "more"),
            ("run", "0 steps=8"),
            ("req 1 04000801 0", "16"),
            ("commit 0", "more"),
            ("run", "0 steps=6"),
            ("req 1 04000801 0", "more"),
            ("run", "0 steps=242"),
        ],
    );
}

/// At the last time a convert is 6, after 16 and 7; in edition 2 it needs no transfer.
#[test]
fn converts_at_the_last_time() {
    let header = |kind: &str| format!("1000{kind}4a00000000fcffffffffffffff");
    on(&header("01"), &[("mount", "0"), ("req 0 04000801 0", "6"), ("record", RECORD)]);
    on(&format!("{}{}", header("01"), settled(22, 0)), &[("mount", "0"), ("req 0 04000801 0", "7")]);
    on(&header("01"), &[("mount", "0"), ("put 2 5 -", "more"), ("run", "0 steps=8"), ("req 0 04000801 0", "16")]);
    on(&header("02"), &[("mount", "0"), ("req 0 04000801 0", "0")]);
}

const RECORD: &str = "idle len=512 half=0 end=16 blocks=2 edition=1 pending=0,0,0,0";

/// Two values of 101 bytes at S = 256: a convert is taken, and then every put and delete is 7. All else works.
#[test]
fn a_tight_store() {
    let put = |id: u8| format!("put 0 {id} {}", "aa".repeat(101));
    let ([one, two], value) = ([1, 2].map(put), format!("0 value={}", "aa".repeat(101)));
    let commit = [("commit 0", "more"), ("run", "0 steps=6")];
    let [first, second] = [&one, &two].map(|put| [(&put[..], "more"), ("run", "0 steps=109")]);
    let lines = [
        ("log 0", "0 time=1 objects=2 used=232 size=256"),
        ("req 0 04000801 0", "more"),
        ("run", "0 steps=235"),
        ("record", "idle len=512 half=1 end=240 blocks=2 edition=2 pending=0,0,0,0 place=1:16 place=2:128"),
        ("put 0 1 -", "7"),
        ("delete 1 1", "7"),
        ("commit 0", "0"),
        ("abort 3", "0"),
        ("req 2 04000801 0", "0"),
        ("get 3 1", &value),
        ("get 3 2", &value),
        ("log 0", "0 time=2 objects=2 used=240 size=256"),
        ("mount", "0"),
        ("delete 1 1", "7"),
        ("format", "more"),
        ("run", "0 steps=12"),
        (&one, "more"),
    ];
    check(&[&SETTLED[..3], &first, &commit, &second, &commit, &lines].concat());
}

/// Power is lost after each step of a convert: the store is of edition 1 up to the last byte of the header, then of 2.
#[test]
fn a_convert_that_is_cut() {
    let old = "idle len=512 half=0 end=32 blocks=2 edition=1 pending=0,0,0,0 place=5:16";
    let new = "idle len=512 half=1 end=29 blocks=2 edition=2 pending=0,0,0,0 place=5:16";
    for steps in 1..24 {
        let step = format!("step {steps}");
        let (record, place) = if steps < 23 { (old, "0 at=23 len=2") } else { (new, "0 at=278 len=2") };
        let lines = [
            ("req 0 04000801 0", "more"),
            (&step[..], "more"),
            ("mount", "more"),
            ("run", "0 steps=1"),
            ("record", record),
            ("read 0 060005010500", place),
        ];
        check(&[&SETTLED[..], &lines].concat());
    }
    let lost = [
        ("req 0 04000801 0", "more"),
        ("step 23", "more"),
        ("cut-erase 0000ff", "ok"),
        ("mount", "more"),
        ("run", "0 steps=1"),
        ("record", new),
    ];
    check(&[&SETTLED[..], &lost].concat());
}

/// What `show` says of a sound block of edition 2, and of one whose checksum is wrong.
#[test]
fn what_show_says() {
    let (status, report, errors) = run(&["show", "-"], &image_of(256, ["", SECOND]));
    assert_eq!((status, &errors[..]), (0, ""));
    assert!(
        report.contains("half 1, current: valid, edition 2, time 2\n  1 frame up to byte 285, the rest"),
        "{report}"
    );
    assert!(report.contains("Settled in half 1: 1 object; 29 of 256 bytes used\n"), "{report}");
    assert!(report.contains("  5    278      2  \"AB\"\n"), "{report}");
    let broken = SECOND.replace("4142", "4143");
    let (status, report, _) = run(&["show", "-"], &image_of(256, ["", &broken]));
    assert_eq!(status, 1);
    for part in [
        "  the checksum at byte 24 (280 of the image) is not its frame's\n",
        "mount answers 3, foreign.\nhalf 1: the checksum at byte 24 is not its frame's.\n",
    ] {
        assert!(report.contains(part), "{report}");
    }
}
