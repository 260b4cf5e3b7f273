//! Places of objects in the record (K8), and reads that go by them.

use super::check;

/// Object 5 = "AB" in a put at 16, committed at 26.
const SETTLED: [(&str, &str); 7] = [
    ("new 512", "ok"),
    ("format", "more"),
    ("run", "0 steps=12"),
    ("req 2 0800010105004142 0", "more"),
    ("run", "0 steps=10"),
    ("req 2 04000301 0", "more"),
    ("run", "0 steps=6"),
];

/// The desk's own example.
#[test]
fn a_read_goes_by_its_place() {
    let lines = [
        ("record", "idle len=512 half=0 end=32 blocks=2 edition=1 pending=0,0,0,0 place=5:16"),
        ("read 0 060005010500", "0 at=23 len=2"),
        ("idle 512 0 32", "ok"),
        ("read 0 060005010500", "8"),
        ("req 0 0500060101 14", "11"),
        ("idle 512 0 99 place=5:16 place=6:16", "ok"),
        ("read 0 060005010500", "0 at=23 len=2"),
        ("read 0 060005010600", "11"),
        ("req 0 060005010700 0", "8"),
        ("req 0 0700050105000000 0", "1"),
        ("idle 512 0 32 place=5:16", "ok"),
        ("req 0 0500060101 14", "0 reply=0e00010201000000010019000001"),
    ];
    check(&[&SETTLED[..], &lines].concat());
}

/// With all requests landed: a record of two blocks, of an image of three.
#[test]
fn a_read_under_another_number_of_blocks() {
    check(&[
        ("new 768 3", "ok"),
        ("format", "more"),
        ("run", "0 steps=13"),
        ("req 0 0800010105004142 0", "more"),
        ("run", "0 steps=10"),
        ("blocks 2", "ok"),
        ("req 0 060005010500 0", "11"),
        ("blocks 3", "ok"),
        ("req 0 04000301 0", "more"),
        ("run", "0 steps=6"),
        ("idle 768 0 32 place=5:16 blocks=2", "ok"),
        ("read 0 060005010500", "11"),
        ("idle 768 2 32 place=5:16", "ok"),
        ("read 0 060005010500", "11"),
        ("idle 768 3 32 place=5:16", "ok"),
        ("read 0 060005010500", "11"),
        ("read 0 060005010600", "8"),
    ]);
}

/// Of two places for one object the last counts, and 0 is none; what `record` prints puts that record back.
#[test]
fn places_there_and_back() {
    let record = "idle len=512 half=0 end=32 blocks=2 edition=1 pending=0,0,0,0";
    let [all, last] =
        [" place=0:65535 place=5:16 place=255:1", " place=5:16"].map(|places| format!("{record}{places}"));
    let lines = [
        (
            "idle 512 0 32 place=255:1 place=5:9 pending=0,0,0,0 place=0:65535 place=7:16 place=5:16 place=7:0",
            "ok",
        ),
        ("record", &all[..]),
        ("read 1 06000501ff00", "11"),
        ("read 1 060005010000", "11"),
        ("read 1 060005010700", "8"),
        ("req 1 04000301 0", "11"),
        ("idle 512 0 32 place=5:16 place=5:0", "ok"),
        ("record", record),
        ("req 1 04000301 0", "11"),
        ("idle 512 0 32 place=5:0 place=5:16", "ok"),
        ("record", &last),
        ("req 1 04000301 0", "0"),
    ];
    check(&[&SETTLED[..], &lines].concat());
}

/// An aborted put gives no place, a committed delete takes one away, a transfer and a convert give new ones: of the settled
/// frames from 16 on, and of a put that is committed behind them.
#[test]
fn where_objects_go() {
    let put = |host: u8| format!("put {host} 9 {}", "77".repeat(100));
    let (dropped, kept) = (put(0), put(1));
    let lines = [
        ("put 1 6 \"CD\"", "more"),
        ("run", "0 steps=10"),
        ("abort 1", "more"),
        ("run", "0 steps=6"),
        ("record", "idle len=512 half=0 end=48 blocks=2 edition=1 pending=0,0,0,0 place=5:16"),
        ("delete 3 5", "more"),
        ("run", "0 steps=8"),
        ("put 3 8 \"E\"", "more"),
        ("run", "0 steps=9"),
        ("commit 3", "more"),
        ("run", "0 steps=6"),
        ("record", "idle len=512 half=0 end=71 blocks=2 edition=1 pending=0,0,0,0 place=8:56"),
        (&dropped[..], "more"),
        ("run", "0 steps=108"),
        ("abort 0", "more"),
        ("run", "0 steps=6"),
        // it would end at 293; C is 24
        (&kept, "more"),
        ("run", "0 steps=127"),
        ("record", "idle len=512 half=1 end=132 blocks=2 edition=1 pending=0,108,0,0 place=8:16"),
        ("commit 1", "more"),
        ("run", "0 steps=6"),
        ("record", "idle len=512 half=1 end=138 blocks=2 edition=1 pending=0,0,0,0 place=8:16 place=9:24"),
        // U in edition 2 is 16 + 12 + 111
        ("req 0 04000801 0", "more"),
        ("run", "0 steps=134"),
        ("record", "idle len=512 half=0 end=139 blocks=2 edition=2 pending=0,0,0,0 place=8:16 place=9:28"),
        ("get 0 8", "0 value=45"),
    ];
    check(&[&SETTLED[..], &lines].concat());
}

/// The record stays as it was.
#[test]
fn places_that_cannot_be_read() {
    let lines = [
        ("idle 512 0", "? line 8: idle goes with LEN HALF END [FIELD].."),
        ("idle 512 0 32 place=", "? line 9: place= is no field of a record"),
        ("idle 512 0 32 place=5", "? line 10: 5 is not ID:OFFSET"),
        ("idle 512 0 32 place=256:16", "? line 11: 256 is more than 255"),
        ("idle 512 0 32 place=5:65536", "? line 12: 65536 is more than 65535"),
        ("idle 512 0 32 place=5:16:7", "? line 13: 16:7 is no number"),
        ("idle 512 0 32 place=5: place=6:16", "? line 14: 5: is not ID:OFFSET"),
        ("idle 512 0 32 \"place=5:16\"", "? line 15: \"place=5:16\" is no field of a record"),
        ("record", "idle len=512 half=0 end=32 blocks=2 edition=1 pending=0,0,0,0 place=5:16"),
    ];
    check(&[&SETTLED[..], &lines].concat());
}
