//! Power lost inside an erase: `cut-erase`.

use super::{COMMIT, HEADER, PUT, check, check_with, image_of};

const FORMATTED: [(&str, &str); 3] = [("new 512", "ok"), ("format", "more"), ("run", "0 steps=12")];
const NO_ERASE: &str = "the next step is no erase";

/// A put of half a half, 128 bytes, of an object that was put before and aborted: it begins with a transfer of nothing, 11 steps.
fn put_twice() -> [(String, &'static str); 5] {
    let put = format!("put 2 5 {}", "77".repeat(120));
    let [run, abort] = ["run", "abort 2"].map(str::to_string);
    [(put.clone(), "more"), (run.clone(), "0 steps=128"), (abort, "more"), (run, "0 steps=6"), (put, "more")]
}

/// Checks calls behind a format and those of `put_twice`.
fn check_after_put(calls: &[(&str, &str)]) {
    let puts = put_twice();
    let puts: Vec<(&str, &str)> = puts.iter().map(|(line, answer)| (&line[..], *answer)).collect();
    check(&[&FORMATTED[..], &puts, calls].concat());
}

/// A transfer that is cut inside the erase of half 0: byte 8 and each ninth byte after it become 0xFF. The next mount erases
/// that half, and is cut too.
#[test]
fn a_transfer_and_a_mount() {
    check_after_put(&[
        ("step 10", "more"),
        ("cut-erase 0000000000000000ff", "ok"),
        ("record", "unmounted"),
        ("mount", "more"),
        ("cut-erase -", "ok"),
        ("mount", "more"),
        ("run", "0 steps=1"),
        ("record", "idle len=512 half=1 end=16 blocks=2 edition=1 pending=0,0,0,0"),
        ("cut-erase ff", "? line 17: the next step is no erase"),
    ]);
}

/// Format erases the valid half last: half 1, so the cut inside the second erase leaves half 0 blank.
#[test]
fn a_format() {
    check_after_put(&[
        ("run", "0 steps=139"),
        ("abort 2", "more"),
        ("run", "0 steps=6"),
        ("format", "more"),
        ("step", "more"),
        ("cut-erase 00", "ok"),
        ("mount", "0"),
        ("record", "idle len=512 half=1 end=150 blocks=2 edition=1 pending=0,0,0,0"),
    ]);
}

/// The image as a dump shows it.
fn dump(image: &[u8]) -> String {
    format!("image={}", image.iter().map(|byte| format!("{byte:02x}")).collect::<String>())
}

/// The mask starts anew at the half and ends with it: halves of 384 bytes, masks of one, seven and 400 bytes. Two puts that are
/// pending, of 248 and 104 bytes, end where the half does: a mount has no room for a reset.
#[test]
fn masks_of_any_length() {
    let [long, short] = [("f8", 240), ("68", 96)].map(|(length, size)| {
        let value = "77".repeat(size);
        format!("{length}000100020600{value}fe")
    });
    let old = format!("{HEADER}{PUT}{COMMIT}{long}{short}");
    for mask in ["01".to_string(), "00010204081020".to_string(), "20".repeat(383) + &"ff".repeat(17)] {
        let mut image = image_of(384, ["", &old]);
        let bits = super::unhex(&mask);
        for (at, byte) in image[384..].iter_mut().enumerate() {
            *byte |= bits[at % bits.len()];
        }
        // Object 5 as a settled frame of 9 bytes, in half 0 with time 2.
        image[..25].copy_from_slice(&super::unhex("1000014afdfffffffcffffffffffffff0900050005004142fe"));
        let before = format!("image {}", &dump(&image_of(384, ["", &old]))[6..]);
        let cut = format!("cut-erase {mask}");
        check(&[
            (&before, "ok"),
            ("mount", "more"),
            // U - 5, U being 16 + 9; the erase is the last.
            ("step 19", "more"),
            (&cut, "ok"),
            ("dump", &dump(&image)),
            ("mount", "more"),
            ("run", "0 steps=1"),
            ("get 0 5", "0 value=4142"),
            ("record", "idle len=768 half=0 end=25 blocks=2 edition=1 pending=0,0,0,0 place=5:16"),
        ]);
    }
}

#[test]
fn no_erase_comes_next() {
    let calls = [
        ("cut-erase ff", NO_ERASE),
        ("put 2 5 \"AB\"", "more"),
        ("cut-erase ff", NO_ERASE),
        ("step 9", "more"),
        ("cut-erase ff", NO_ERASE),
        ("record", "job"),
        ("step", "0"),
        ("cut-erase -", NO_ERASE),
        ("unmount", "ok"),
        ("cut-erase ff", NO_ERASE),
        ("mount", "more"),
        ("step 4", "more"),
        ("cut-erase ff", NO_ERASE),
        ("step", "0"),
        ("format", "more"),
        ("cut-erase", "cut-erase goes with MASKHEX"),
        ("cut-erase 0 1", "cut-erase goes with MASKHEX"),
        ("cut-erase f", "bytes are hex digits, two a byte, or - for none"),
        ("record", "job"),
        ("cut-erase ff", "ok"),
        ("mount", "0"),
        ("record", "idle len=512 half=0 end=31 blocks=2 edition=1 pending=0,0,0,0"),
    ];
    let mut lines: Vec<(String, String)> = Vec::new();
    for (line, answer) in FORMATTED.into_iter().chain(calls) {
        let unread = line.starts_with("cut-erase") && answer != "ok";
        let prefix = if unread { format!("? line {}: ", lines.len() + 1) } else { String::new() };
        lines.push((line.to_string(), prefix + answer));
    }
    check(&lines.iter().map(|(line, answer)| (&line[..], &answer[..])).collect::<Vec<_>>());
}

/// The erase of a half that is blank already can be cut too, and shows nothing; in an image of no store both can.
#[test]
fn erases_of_blank_halves() {
    let blank = dump(&[0xFF; 512]);
    check(&[
        ("cut-erase ff", "? line 1: the next step is no erase"),
        ("new 512", "ok"),
        ("format", "more"),
        ("cut-erase 00", "ok"),
        ("record", "unmounted"),
        ("format", "more"),
        ("step", "more"),
        ("cut-erase 00", "ok"),
        ("dump", &blank),
        ("format", "more"),
        ("step 2", "more"),
        ("cut-erase 00", "? line 12: the next step is no erase"),
        ("run", "0 steps=10"),
    ]);
}

/// In words: a put whose transfer is cut, and what host 0 finds.
#[test]
fn a_put_with_a_transfer() {
    let value = "7e".repeat(64);
    let (put, again) = (format!("put 0 1 {value}"), format!("put 0 2 {value}"));
    let got = format!("0 value={value} \"{}\"", "~".repeat(64));
    let calls: [(&str, &str); 18] = [
        (&put, "more"),
        ("run", "0 steps=72"),
        ("commit 0", "more"),
        ("run", "0 steps=6"),
        (&put, "more"),
        ("run", "0 steps=72"),
        ("commit 0", "more"),
        ("run", "0 steps=6"),
        ("record", "idle len=512 half=0 end=172 blocks=2 edition=1 pending=0,0,0,0 place=1:94"),
        ("put 3 9 -", "more"),
        ("run", "0 steps=8"),
        ("abort 3", "more"),
        ("run", "0 steps=6"),
        // It would end at 258. C is 16 + 71: 82 steps, of which the erase is the last.
        (&again, "more"),
        ("step 81", "more"),
        ("cut-erase 02", "ok"),
        ("mount", "more"),
        ("run", "0 steps=1"),
    ];
    let found: [(&str, &str); 3] =
        [("get 0 1", &got), ("get 0 2", "8 no object"), ("log 0", "0 time=2 objects=1 used=87 size=256")];
    check_with(&["--words"], &[&FORMATTED[..], &calls, &found].concat());
}
