//! Images loaded and saved by a script.

use super::{COMMIT, Folder, HEADER, PUT, check, image_of, replay, run};
use std::fs;

#[test]
fn saved_byte_for_byte_and_loaded_again() {
    let folder = Folder::new("saved");
    let (image, spaces) = (folder.path("image"), folder.path("an image"));
    let [save, load] = ["save", "load"].map(|call| format!("{call} {image}"));
    let [save_spaces, load_spaces] = ["save", "load"].map(|call| format!("{call} \"{spaces}\""));
    check(&[
        ("new 512", "ok"),
        ("format", "more"),
        ("run", "0 steps=12"),
        ("put 2 5 \"AB\"", "more"),
        ("run", "0 steps=10"),
        (&save_spaces, "ok"),
        ("commit 2", "more"),
        ("run", "0 steps=6"),
        (&save, "ok"),
        ("record", "idle len=512 half=0 end=32 blocks=2 edition=1 pending=0,0,0,0 place=5:16"),
        (&load_spaces, "ok"),
        ("record", "unmounted"),
        ("mount", "more"),
        ("run", "0 steps=5"),
        ("get 0 5", "8"),
        (&load, "ok"),
        ("mount", "0"),
        ("get 0 5", "0 value=4142"),
    ]);
    let [put, commit] = [format!("{HEADER}{PUT}"), format!("{HEADER}{PUT}{COMMIT}")];
    assert_eq!(fs::read(spaces).expect("saved"), image_of(256, [&put, ""]));
    assert_eq!(fs::read(image).expect("saved"), image_of(256, [&commit, ""]));
}

#[test]
fn saved_over_a_longer_file_and_of_no_bytes() {
    let folder = Folder::new("over");
    let old = folder.file("old", &[7; 2000]);
    check(&[("new 3", "ok"), (&format!("save {old}"), "ok"), ("poke 1 00", "ok")]);
    assert_eq!(fs::read(&old).expect("saved"), [0xFF; 3]);
    check(&[(&format!("save {old}"), "ok"), (&format!("load {old}"), "ok"), ("dump", "image=-")]);
    assert_eq!(fs::read(&old).expect("saved"), []);
}

#[test]
fn lengths_that_can_be_loaded() {
    let folder = Folder::new("lengths");
    let most = format!("load {}", folder.file("most", &vec![0xFF; 1_048_576]));
    check(&[
        ("new 2", "ok"),
        ("load /dev/zero", "? line 2: /dev/zero: more than 1048576 bytes"),
        ("dump", "image=ffff"),
        (&most, "ok"),
        ("mount", "4"),
    ]);
    let more = format!("load {}\ndump\n", folder.file("more", &vec![0xFF; 1_048_577]));
    let answers = replay(more.as_bytes());
    assert!(
        answers.starts_with("? line 1: ") && answers.ends_with(": more than 1048576 bytes\nimage=-\n"),
        "{answers}"
    );
}

#[test]
fn files_that_cannot_be_had_change_nothing() {
    check(&[
        ("new 512", "ok"),
        ("format", "more"),
        ("run", "0 steps=12"),
        ("load /no/such", "? line 4: /no/such: no such file or directory"),
        ("load /", "? line 5: /: this is a directory, not a file"),
        ("save /no/such", "? line 6: /no/such: no such file or directory"),
        ("save /", "? line 7: /: this is a directory, not a file"),
        ("save /dev/full", "? line 8: /dev/full: No space left on device (os error 28)"),
        ("load /proc/self/mem", "? line 9: /proc/self/mem: Input/output error (os error 5)"),
        ("load -", "? line 10: - is no file name"),
        ("save -", "? line 11: - is no file name"),
        ("load", "? line 12: load goes with FILE [BLOCKS]"),
        ("save a b", "? line 13: save goes with FILE"),
        ("load \"a\u{1b}\"", "? line 14: \"a\\u{1b}\": no such file or directory"),
        ("record", "idle len=512 half=0 end=16 blocks=2 edition=1 pending=0,0,0,0"),
        ("put 0 1 -", "more"),
    ]);
}

#[test]
fn a_returned_board_from_end_to_end() {
    let folder = Folder::new("returned");
    let script = format!("new 512\nformat\nrun\nput 2 5 \"AB\"\nrun\nsave {}\n", folder.path("board"));
    assert_eq!(run(&["replay", "--strict"], script.as_bytes()).0, 0);
    let (status, shown, _) = run(&["show", &folder.path("board")], b"");
    assert_eq!(status, 0);
    assert!(shown.contains("  host 2  put 5 = \"AB\"\n"), "{shown}");
    // Row f.
    let mount = "mount answers more (255 in C), and 0, done, after 5 steps.
It drops what is pending, in half 0 itself.\nHalf 0 is then current.\n";
    assert!(shown.ends_with(mount), "{shown}");
}
