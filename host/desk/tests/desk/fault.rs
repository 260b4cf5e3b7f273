//! Where a block broke: what `mount` prints after a 3, and what `show` says to people.

use super::{COMMIT, HEADER, PUT, check, image_of, run};

#[test]
fn what_mount_says_of_a_poked_image() {
    check(&[
        ("new 512", "ok"),
        ("mount", "2"),
        ("poke 0 1000014afefffffffc", "ok"),
        ("mount", "0"),
        // A commit of host 4, then of host 1.
        ("poke 16 0600030004fe", "ok"),
        ("mount", "3 half=0 fault=host place=20"),
        ("poke 20 01", "ok"),
        ("mount", "0"),
        ("poke 9 00", "ok"),
        ("mount", "3 half=0 fault=rest place=9"),
        ("record", "unmounted"),
        ("poke 9 ff", "ok"),
        // A second half of the same time, then of a later one.
        ("poke 256 1000014afefffffffc", "ok"),
        ("mount", "3 half=0 fault=time place=4"),
        ("poke 260 fd", "ok"),
        ("mount", "more"),
        ("run", "0 steps=1"),
        ("record", "idle len=512 half=1 end=16 blocks=2 edition=1 pending=0,0,0,0"),
    ]);
}

/// Other refusals stay bare numbers, and so do those of other calls.
#[test]
fn only_mount_and_only_after_a_3() {
    // a put of 240 bytes, pending up to the half's end
    let last = format!("poke 0 1000014a00000000fcfffffffffffffff0000100020500{}fe", "77".repeat(232));
    check(&[
        ("mount", "4"),
        ("new 512", "ok"),
        ("mount", "2"),
        (&last, "ok"),
        ("mount", "6"),
        ("poke 255 00", "ok"),
        ("mount", "3 half=0 fault=finish place=255"),
        ("log 0", "2"),
        ("format", "more"),
        ("log 0", "5"),
    ]);
}

/// An image with these bytes, in hex, behind a header, a put and a commit: from byte 32 on.
fn behind(bytes: &str) -> String {
    format!("{HEADER}{PUT}{COMMIT}{bytes}")
}

/// A first half, in hex, what is wrong with it, and that in a sentence.
fn broken() -> Vec<(String, &'static str, &'static str)> {
    let header = |bytes: &str| format!("{bytes}{}", &HEADER[bytes.len()..]);
    vec![
        (header("11"), "length place=0", "the header's length at byte 0 is not 16"),
        (header("1000034a"), "kind place=2", "the header's kind at byte 2 is not 0x4A01 or 0x4A02"),
        (header("1000014affffffff00"), "time place=4", "the time at byte 4 was never programmed"),
        (header("1000014afefffffffd"), "state place=8", "the state at byte 8 is not 0xFC, valid data"),
        (format!("{}fe", &HEADER[..30]), "rest place=9", "the rest of the header at byte 9 is not all 0xFF"),
        (behind("0400030002fe"), "length place=32", "the length at byte 32 is not one that may stand there"),
        (behind("0500030002fe"), "kind place=34", "the kind at byte 34 is not one that may stand there"),
        (behind("0600060002fe"), "kind place=34", "the kind at byte 34 is not one that may stand there"),
        (behind("0600030004fe"), "host place=36", "the host at byte 36 is not 0 to 3"),
        (behind("08000200000001fe"), "id place=37", "the id at byte 37 is not one that may stand there"),
        (behind("060004000200"), "finish place=37", "the finish byte at byte 37 is not 0xFE"),
        // a settled frame behind others, of a length that others have and of one that they don't
        (behind("080005000900fffe"), "kind place=34", "the kind at byte 34 is not one that may stand there"),
        (behind("070005000900fe"), "length place=32", "the length at byte 32 is not one that may stand there"),
        // a closed frame of that length
        (behind("070000000900fe"), "length place=32", "the length at byte 32 is not one that may stand there"),
    ]
}

/// Both halves in turn, the other one blank. In half 1 the place is still counted from the half.
#[test]
fn each_field_for_scripts_and_for_people() {
    for (half, fault, sentence) in broken() {
        for (number, halves) in [(0, [&half[..], ""]), (1, ["", &half[..]])] {
            let image = image_of(256, halves);
            let hex: String = image.iter().map(|byte| format!("{byte:02x}")).collect();
            check(&[(&format!("image {hex}"), "ok"), ("mount", &format!("3 half={number} fault={fault}"))]);
            let (status, report, errors) = run(&["show", "-"], &image);
            assert_eq!((status, &errors[..]), (1, ""));
            let mount = format!("mount answers 3, foreign.\nhalf {number}: {sentence}.\nOnly a format helps");
            assert!(report.contains(&mount), "{report}");
            assert!(number == 1 || report.contains(&format!("or it is damaged\n  {sentence}\n")), "{report}");
            assert!(report.lines().all(|line| line.len() <= 80), "{report}");
        }
    }
}

/// Two foreign halves: a mount names half 0, the report says of each where it broke.
#[test]
fn both_halves() {
    let [first, second] = [behind("0600060002fe"), behind("0600030004fe")];
    let (_, report, _) = run(&["show", "-"], &image_of(256, [&first, &second]));
    for part in [
        "half 0: foreign: power was lost while it was being erased, or it is damaged
  the kind at byte 34 is not one that may stand there\n",
        "half 1: foreign: power was lost while it was being erased, or it is damaged
  the host at byte 36 (292 of the image) is not 0 to 3\n",
        "mount answers 3, foreign.\nhalf 0: the kind at byte 34 is not one that may stand there.\n",
    ] {
        assert!(report.contains(part), "{report}");
    }
    // the longest of these lines, at the end of the largest image
    let mut image = image_of(32_768, ["", HEADER]);
    image[65_535] = 0;
    let mut at = 32_768 + 16;
    while at + 248 < 65_535 {
        image[at..at + 248].fill(0);
        (image[at], image[at + 2], image[at + 247]) = (248, 1, 0xFE);
        at += 248;
    }
    image[at] = 250;
    let (_, report, _) = run(&["show", "-"], &image);
    let line =
        format!("  the length at byte {} ({at} of the image) is not one that may stand there\n", at - 32_768);
    assert!(report.contains(&line), "{report}");
    assert!(report.lines().all(|line| line.len() <= 80), "{report}");
}
