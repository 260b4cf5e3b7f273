//! Boards that a mount mends: torn frames, changes to drop, and what an earlier mount closed and dropped.

use super::show::{LAST, check};
use super::{COMMIT, HEADER, PUT, image_of, run};

/// A change that a reset dropped, and a commit that was cut and closed.
#[test]
fn a_mended_journal() {
    let half = format!("{HEADER}{PUT}05000700fe{PUT}0600000002fe05000700fe");
    let image = image_of(256, [&half, ""]);
    let journal = "Journal of half 0: 5 frames
     16  host 2  put 5 = \"AB\"
     26          reset
     31  host 2  put 5 = \"AB\"
     41          closed, 6 bytes
     47          reset

Settled in half 0: no objects; 16 of 256 bytes used

Pending in half 0: no changes

mount answers 0, done, without a step.
Half 0 is then current.
";
    let (status, report, errors) = run(&["show", "--journal", "-"], &image);
    assert_eq!((status, &errors[..]), (0, ""));
    assert!(report.contains("      0  HHHHHHHHHHHHHHHHxxxxxxxxxxCCCCCxxxxxxxxxxxxxxxxCCCCC....."), "{report}");
    assert!(report.ends_with(journal), "{report}");
}

#[test]
fn torn_frames() {
    // Row g: cut after 5 of the commit's 6 steps. Closing has 4, 3, 3 or 2 steps after 1, 2, 3 or more bytes, or fewer if it
    // has begun; the reset 5.
    for (torn, said, drawn, steps) in [
        ("0600030002", "5 bytes of a torn commit of host 2", "PPPPPPPPPPTTTTT...", 7),
        ("060004", "3 bytes of a torn abort", "PPPPPPPPPPTTT...", 8),
        ("08000200", "4 bytes of a torn delete", "PPPPPPPPPPTTTT...", 7),
        ("48000100010600ff00", "9 bytes of a torn put of host 1", "PPPPPPPPPPTTTTTTT.T...", 7),
        ("08", "1 byte of a torn frame", "PPPPPPPPPPT...", 9),
        ("050007", "3 bytes of a torn reset", "PPPPPPPPPPTTT...", 8),
        ("060000ff02", "a torn frame of 6 bytes, closed in part", "PPPPPPPPPPTTT.T...", 7),
        ("48000000010600ff00", "a torn frame of 72 bytes, closed in part", "PPPPPPPPPPTTTTTTT.T...", 6),
    ] {
        let mount = format!(
            "mount answers more (255 in C), and 0, done, after {steps} steps.
It closes the torn frame and drops what is pending, in half 0 itself.\nHalf 0 is then current.\n"
        );
        let half = format!("{HEADER}{PUT}{torn}");
        let state = format!("half 0, current: valid, edition 1, time 1\n  1 frame up to byte 26, then {said}\n");
        check(
            [&half, ""],
            0,
            &[&state, drawn, "1 change, which a mount drops\n  host 2  put 5 = \"AB\"\n", &mount],
        );
    }
    // nothing is pending
    let mount = "after 4 steps.\nIt closes the torn frame, in half 0 itself.\nHalf 0 is then current.\n";
    check([&format!("{HEADER}08"), ""], 0, &["then 1 byte of a torn frame\n", mount]);
}

/// In edition 2 a reset has a checksum, which is no host.
#[test]
fn a_torn_reset_of_edition_2() {
    let half = format!("{}090007005106", HEADER.replace("014a", "024a"));
    check([&half, ""], 0, &["then 6 bytes of a torn reset\n", "after 2 steps.\nIt closes the torn frame,"]);
}

/// A put of 224 bytes that ends where the half does: there is no room for a reset, and the mount transfers.
fn full(header: &str) -> String {
    let value = "77".repeat(216);
    format!("{header}{PUT}{COMMIT}e0000100020600{value}fe")
}

#[test]
fn no_room_to_drop_what_is_pending() {
    let mount = "mount answers more (255 in C), and 0, done, after 20 steps.
There is no room to drop what is pending, so it moves what is settled.\nHalf 1 is then current.\n";
    check([&full(HEADER), ""], 0, &["3 frames up to byte 256,", "  host 2  put 6 = ", mount]);
}

#[test]
fn worn_out() {
    let half = full(LAST);
    let refused = "mount answers 6, worn. A transfer is needed, and the time cannot rise.
Only a format helps, and it loses all objects.\n";
    let state = "half 0, current: valid, edition 1, time 4294967295\n";
    check([&half, ""], 1, &[state, "    5     23      2  \"AB\"\n", "  host 2  put 6 = ", refused]);
}
