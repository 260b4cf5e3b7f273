//! Returned boards. The images are put together by document 01's tables of headers and frames.

use super::{COMMIT, Folder, HEADER, PUT, image_of, replay, replay_with, run, unhex};

/// A header of time 2, and one of the last time.
const SECOND: &str = "1000014afdfffffffcffffffffffffff";
pub const LAST: &str = "1000014a00000000fcffffffffffffff";

const LEGEND: &str = "  H header     S settled value   P pending change   C commit, abort, reset
  x used up    T torn frame      w being written    ? foreign   . blank
  In front of each row: where it starts, counted from the image's start.
";

/// Exit status and report of an image read from standard input.
fn show(image: &[u8]) -> (i32, String) {
    let (status, report, errors) = run(&["show", "-"], image);
    assert_eq!(errors, "");
    assert!(report.lines().all(|line| line.len() <= 80), "{report}");
    (status, report)
}

/// Checks the exit status and, in this order, parts of the report.
pub fn check(halves: [&str; 2], status: i32, parts: &[&str]) {
    let (found, report) = show(&image_of(256, halves));
    let mut rest = &report[..];
    for part in parts {
        rest = rest.split_once(part).unwrap_or_else(|| panic!("no {part:?} in its place:\n{report}")).1;
    }
    assert_eq!(found, status, "{report}");
}

#[test]
fn a_whole_report() {
    // Rows b and c, then host 1 puts 6 = 0xFF and host 3 deletes 5: frames of 9 and 8 bytes.
    let half = format!("{HEADER}{PUT}{COMMIT}09000100010600fffe08000200030500fe");
    let folder = Folder::new("report");
    let file = folder.file("board\u{1b}.bin", &image_of(256, [&half, ""]));
    let named = file.replace('\u{1b}', "\\u{1b}");
    let expected = format!(
        "{named}: 512 bytes, two halves of 256

{LEGEND}
half 0, current: valid, edition 1, time 1
  4 frames up to byte 49, the rest is blank
      0  HHHHHHHHHHHHHHHHSSSSSSSSSSCCCCCCPPPPPPPPPPPPPPPPP...............
     64  192 bytes blank

half 1: blank
    256  256 bytes blank

Settled in half 0: 1 object; 25 of 256 bytes used
   id     at  bytes  value
    5     23      2  \"AB\"

Pending in half 0: 2 changes, which a mount drops
  host 1  put 6 = ff
          9 of 128 bytes used
  host 3  delete 5
          8 of 128 bytes used

mount answers more (255 in C), and 0, done, after 5 steps.
It drops what is pending, in half 0 itself.
Half 0 is then current.
"
    );
    assert_eq!(run(&["show", &file], b""), (0, expected, String::new()));
}

#[test]
fn a_journal() {
    let half =
        format!("{HEADER}0900050005004142fe07000500ff00fe{COMMIT}08000100000100fe08000200030500fe0600040000fe");
    let image = image_of(256, ["", &half]);
    let (_, report) = show(&image);
    let journal = "Journal of half 1: 6 frames
    272          settled 5 = \"AB\"
    281          settled 255 = -
    288  host 2  commit
    294  host 0  put 1 = -
    302  host 3  delete 5
    310  host 0  abort

Settled in half 1";
    let expected = report.replace("Settled in half 1", journal);
    assert_ne!(report, expected);
    assert_eq!(run(&["show", "--journal", "-"], &image), (0, expected, String::new()));
}

#[test]
fn nothing_to_tidy_up() {
    let nothing = ["Settled in half 0: no objects; 16 of 256 bytes used\n\n", "Pending in half 0: no changes\n\n"];
    let mount = "mount answers 0, done, without a step.\nHalf 0 is then current.\n";
    let state = "half 0, current: valid, edition 1, time 1\n  no frames up to byte 16, the rest is blank\n";
    check([HEADER, ""], 0, &[state, nothing[0], nothing[1], mount]);
    let settled = format!("{HEADER}{PUT}{COMMIT}");
    check([&settled, ""], 0, &["2 frames up to byte 32, the rest is blank\n", "  \"AB\"\n", mount]);
    // A settled frame in half 1: places count from the image's start. The last time does no harm here.
    let second = format!("{LAST}0900050005004142fe");
    let parts = [
        "half 1, current: valid, edition 1, time 4294967295\n  1 frame up to byte 281,",
        "    5    278      2  \"AB\"\n",
    ];
    check(["", &second], 0, &[parts[0], parts[1], "without a step.\nHalf 1 is then current.\n"]);
}

#[test]
fn halves_beside_the_current_one() {
    let one_step = "mount answers more (255 in C), and 0, done, after 1 step.\nHalf 0 is then current.\n";
    let cut = "half 1: in progress: power was lost while it was being written\n    256  ........w.......";
    check([HEADER, "fffffffffffffffffe"], 0, &["half 0, current: valid", cut, one_step]);
    let old = format!("{HEADER}{PUT}{COMMIT}");
    let parts = [
        "half 0, current: valid, edition 1, time 2\n",
        "half 1, older: valid, edition 1, time 1\n",
        "Settled in half 0: no objects",
    ];
    check([SECOND, &old], 0, &[parts[0], parts[1], parts[2], one_step]);
    let (_, report) = show(&image_of(256, [SECOND, &old]));
    assert!(!report.contains("AB"), "{report}");
}

#[test]
fn no_store() {
    let none = "mount answers 2, no store. No half is valid. A format makes an empty store.\n";
    check(["", ""], 1, &["half 0: blank\n      0  256 bytes blank\n\nhalf 1: blank\n", none]);
    check(["", "1000014afffffffffe"], 1, &["half 0: blank\n", "half 1: in progress", none]);
}

#[test]
fn foreign_halves_and_equal_times() {
    let refused = |sentence: &str| {
        format!("mount answers 3, foreign.\n{sentence}.\nOnly a format helps, and it loses all objects.\n")
    };
    let state = "half 1: foreign: power was lost while it was being erased, or it is damaged
  the header's length at byte 0 (256 of the image) is not 16\n    256  ?...";
    let length = refused("half 1: the header's length at byte 0 is not 16");
    check(["", "00"], 1, &["half 0: blank\n", state, &length]);
    let in_progress = "half 0: in progress: power was lost while it was being written\n";
    check(["fffffffffffffffffe", "00"], 1, &[in_progress, state, &length]);
    let old = format!("{HEADER}{PUT}{COMMIT}");
    let pending = format!("{HEADER}{PUT}");
    let parts = ["Settled in half 0: 1 object;", "Settled in half 1: no objects;", "  host 2  put 5 = \"AB\"\n"];
    let time = refused("half 0: the time at byte 4 is the other half's too");
    check([&old, &pending], 1, &["half 1: valid, edition 1, time 1\n", parts[0], parts[1], parts[2], &time]);
}

/// K4: what the valid half holds counts, and the foreign one is erased.
#[test]
fn a_foreign_half_beside_a_valid_one() {
    let state = "half 1: foreign: power was lost while it was being erased, or it is damaged
  the header's length at byte 0 (256 of the image) is not 16\n    256  ?...";
    let old = format!("{HEADER}{PUT}{COMMIT}");
    let mount = "mount answers more (255 in C), and 0, done, after 1 step.
Its first step erases the foreign half.\nHalf 0 is then current.\n";
    let object = "    5     23      2  \"AB\"\n";
    check([&old, "00"], 0, &["half 0, current: valid, edition 1, time 1\n", state, object, mount]);
    // Row f with a foreign half 1: 1 + 5 steps.
    let mount = "mount answers more (255 in C), and 0, done, after 6 steps.
Its first step erases the foreign half.\nIt drops what is pending, in half 0 itself.\nHalf 0 is then current.\n";
    check([&format!("{HEADER}{PUT}"), "00"], 0, &["half 0, current: valid", state, mount]);
}

#[test]
fn values_of_every_kind() {
    // From '0' to 'o', with a backslash.
    let quoted = format!("\"{}\"", (b'0'..b'p').map(char::from).collect::<String>().replace('\\', "\\\\"));
    let puts = [
        "put 0 0 -".to_string(),
        format!("put 0 1 {quoted}"),
        format!("put 0 2 {}", "0a".repeat(64)),
        "put 0 255 \"q\\\"\\\\\"".to_string(),
        "commit 0".to_string(),
        format!("put 3 1 {}", "ff".repeat(25)),
    ];
    let script = format!("new 1024\nformat\nrun\n{}\nrun\ndump\n", puts.join("\nrun\n"));
    let answers = replay(script.as_bytes());
    let (_, dump) = answers.split_once("image=").expect("a dump");
    let (status, report) = show(&unhex(dump.trim_end()));
    assert_eq!(status, 0);
    // The header, then puts with 0, 64, 64 and 3 bytes of value, each 7 bytes into its frame.
    let (first, second) = quoted.split_at(48);
    let expected = format!(
        "Settled in half 0: 4 objects; 175 of 512 bytes used
   id     at  bytes  value
    0     23      0  -
    1     31     64  {first}
                     {second}
    2    103     64  {hex}
                     {hex}
                     {rest}
  255    175      3  \"q\\\"\\\\\"

Pending in half 0: 1 change, which a mount drops
  host 3  put 1 = {ff}
                  ff
",
        hex = "0a".repeat(24),
        rest = "0a".repeat(16),
        ff = "ff".repeat(24),
    );
    assert!(report.contains(&expected), "{expected}\n{report}");
}

/// 240 letters in quotes are five lines of 48 and one of 2; as a settled object, U is 16 + 247.
#[test]
fn the_longest_value() {
    let value = format!("\"{}\"", "x".repeat(240));
    let script = format!("new 1024\nformat\nrun\nput 1 9 {value}\nrun\ncommit 1\nrun\ndump\n");
    let answers = replay(script.as_bytes());
    let (_, dump) = answers.split_once("image=").expect("a dump");
    let (status, report) = show(&unhex(dump.trim_end()));
    assert_eq!(status, 0);
    let line = |text: String| format!("                     {text}\n");
    let (first, full) = (format!("    9     23    240  \"{}\n", "x".repeat(47)), line("x".repeat(48)));
    let settled = "Settled in half 0: 1 object; 263 of 512 bytes used\n   id     at  bytes  value\n";
    let expected = format!("{settled}{first}{}{}", full.repeat(4), line("x\"".to_string()));
    assert!(report.contains(&expected), "{expected}\n{report}");
}

#[test]
fn lengths() {
    let refused = "\n\nmount answers 4, image length. It must be a multiple of 256 from 512 to 65,536.\n";
    for (length, said) in [
        (0, "no bytes"),
        (1, "1 byte"),
        (256, "256 bytes"),
        (511, "511 bytes"),
        (65_792, "65,792 bytes"),
        (1_048_576, "1,048,576 bytes"),
        (1_048_577, "more than 1,048,576 bytes"),
        (3_000_000, "more than 1,048,576 bytes"),
    ] {
        assert_eq!(show(&vec![0xFF; length]), (1, format!("standard input: {said}{refused}")));
    }
    for (length, half) in [(768, "384"), (65_536, "32,768")] {
        let mut image = vec![0xFF; length];
        assert_eq!(show(&image).0, 1);
        image[..16].copy_from_slice(&unhex(HEADER));
        let (status, report) = show(&image);
        assert_eq!(status, 0);
        assert!(report.contains(&format!(" bytes, two halves of {half}\n")), "{report}");
    }
}

#[test]
fn hex_files() {
    let image = image_of(256, [&format!("{HEADER}{PUT}{COMMIT}"), ""]);
    let report = show(&image);
    let digits: String = image.iter().map(|byte| format!("{byte:02X}")).collect();
    let rows: Vec<&str> = digits.as_bytes().chunks(32).map(|row| std::str::from_utf8(row).expect("hex")).collect();
    for text in [digits.clone(), rows.join("\r\n"), format!(" image={}\n", digits.to_lowercase())] {
        let (status, shown, errors) = run(&["show", "--hex", "-"], text.as_bytes());
        assert_eq!(((status, shown), &errors[..]), (report.clone(), ""));
    }
    // Hex without the option is another image; it is noticed.
    let (status, shown) = show(digits.as_bytes());
    assert_eq!(status, 1);
    assert!(shown.starts_with("standard input: 1,024 bytes, two halves of 512\n"), "{shown}");
    assert!(shown.ends_with("\nFILE is all hex digits, though: try --hex.\n"), "{shown}");
    assert!(!report.1.contains("--hex"));
    for (text, why) in [
        ("00f", "no hex: 3 digits, an odd number"),
        ("00\u{1b}", "no hex: byte 0x1b at 2"),
        ("0x00", "no hex: byte 0x78 at 1"),
    ] {
        let errors = format!("desk: standard input: {why}\n");
        assert_eq!(run(&["show", "--hex", "-"], text.as_bytes()), (2, String::new(), errors));
    }
    let long = run(&["show", "--hex", "-"], &vec![b'0'; 4_194_305]);
    assert_eq!(long, (2, String::new(), "desk: standard input: more than 4194304 bytes of hex\n".to_string()));
}

/// What is listed for every cut in some changes is what the store reads after a mount.
#[test]
fn objects_as_after_a_restart() {
    let folder = Folder::new("restart");
    // The journal ends at 16 + 11 * 19 = 225; the fourth change needs a transfer, C - 5 = 28 + 29 - 5 steps.
    let mut script = format!("new 512\nformat\nrun\n{}", "put 0 1 \"solid\"\nrun\ncommit 0\nrun\n".repeat(11));
    let changes = [
        ("put 1 1 \"low\"", 11),
        ("put 3 2 00ff", 10),
        ("delete 1 3", 8),
        ("put 1 4 -", 52 + 8),
        ("commit 1", 6),
        ("commit 3", 6),
    ];
    let mut cuts = Vec::new();
    for (change, steps) in changes {
        script += &format!("{change}\n");
        for _ in 0..steps {
            cuts.push(folder.path(&cuts.len().to_string()));
            script += &format!("step\nsave {}\n", cuts[cuts.len() - 1]);
        }
    }
    let (status, answers, _) = run(&["replay", "--strict"], script.as_bytes());
    assert_eq!((status, answers.lines().filter(|answer| *answer == "0").count()), (0, changes.len()));
    let found = cuts.iter().map(|cut| {
        let (status, report, _) = run(&["show", cut], b"");
        assert_eq!((status, listed(&report)), (0, read_after_restart(cut)), "{report}");
        listed(&report).len()
    });
    // "solid"; after 95 steps host 1's "low" and the empty 4; after 101 host 3's 00ff too.
    assert_eq!(found.collect::<Vec<_>>(), [vec![1; 94], vec![2; 6], vec![3]].concat());
}

/// Ids and values that hosts get after a restart with this image.
fn read_after_restart(file: &str) -> Vec<(String, String)> {
    let script = format!("load {file}\nmount\nrun\nget 0 1\nget 0 2\nget 0 3\nget 0 4\nlog 0\n");
    let answers = replay_with(&["--words"], script.as_bytes());
    let values = answers.lines().skip(3).take(4).zip(1..).filter(|(answer, _)| *answer != "8 no object");
    let value = |answer: &str| answer.split(['=', ' ']).next_back().expect("a value").to_string();
    let read: Vec<(String, String)> = values.map(|(answer, id)| (id.to_string(), value(answer))).collect();
    assert!(answers.contains(&format!(" objects={} ", read.len())), "{answers}");
    read
}

/// Ids and values of the settled objects in a report.
fn listed(report: &str) -> Vec<(String, String)> {
    let (_, rest) = report.split_once("Settled").expect("objects");
    let (objects, _) = rest.split_once("\n\nPending").expect("changes");
    let words =
        objects.lines().skip(2).map(|line| line.split_whitespace().map(str::to_string).collect::<Vec<_>>());
    words.map(|words| (words[0].clone(), words[3].clone())).collect()
}
