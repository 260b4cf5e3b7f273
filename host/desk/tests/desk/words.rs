//! Requests in words, names of refusals, and strict scripts.

use super::{COMMIT, HEADER, PUT, check, check_with, replay_with, run};

const FORMATTED: [(&str, &str); 3] = [("new 512", "ok"), ("format", "more"), ("run", "0 steps=12")];

#[test]
fn rows_b_to_h_in_words() {
    let half = |start: String| format!("{start}{}", "ff".repeat(256 - start.len() / 2));
    let image = |start: String| format!("image={}{}", half(start), half(String::new()));
    let (put, commit) = (image(format!("{HEADER}{PUT}")), image(format!("{HEADER}{PUT}{COMMIT}")));
    let after = [
        ("put 2 5 \"AB\"", "more"),
        ("run", "0 steps=10"),
        ("dump", &put),
        ("get 2 5", "8"),
        ("commit 2", "more"),
        ("run", "0 steps=6"),
        ("dump", &commit),
        ("get 1 5", "0 value=4142"),
        ("log 1", "0 time=1 objects=1 used=25 size=256"),
        ("mount", "0"),
        ("get 0 5", "0 value=4142"),
        ("put 0 5 \"C\"", "more"),
        ("mount", "0"),
        ("get 3 5", "0 value=4142"),
        ("put 2 6 4142", "more"),
        ("run", "0 steps=10"),
        ("mount", "more"),
        ("run", "0 steps=5"),
        ("get 0 6", "8"),
        ("log 3", "0 time=1 objects=1 used=25 size=256"),
    ];
    check(&[&FORMATTED[..], &after].concat());
}

#[test]
fn the_same_as_byte_for_byte() {
    let pairs = [
        ("put 0 5 \"AB\"", "req 0 0800010105004142 0"),
        ("put 0 5 4142", "req 0 0800010105004142 0"),
        ("put 0 5 \"say \\\"\\\\\\\" é\"", "req 0 10000101050073617920225c2220c3a9 0"),
        ("put 1 255 -", "req 1 06000101ff00 0"),
        ("put 1 255 \"\"", "req 1 06000101ff00 0"),
        ("put 1 256 -", "req 1 060001010001 0"),
        ("delete 2 5", "req 2 060002010500 0"),
        ("delete 2 65535", "req 2 06000201ffff 0"),
        ("commit 0", "req 0 04000301 0"),
        ("abort 0", "req 0 04000401 0"),
        ("abort 4", "req 4 04000401 0"),
    ];
    for (words, bytes) in pairs {
        let script = |line: &str| format!("new 512\nformat\nrun\nput 0 1 \"x\"\nrun\n{line}\nrun\ndump\nrecord\n");
        let [words_out, bytes_out] = [words, bytes].map(|line| replay_with(&[], script(line).as_bytes()));
        assert_eq!(words_out, bytes_out, "{words}");
    }
}

#[test]
fn hosts_in_turn() {
    let after = [
        ("put 0 1 \"one\"", "more"),
        ("run", "0 steps=11"),
        ("put 1 2 ff00", "more"),
        ("run", "0 steps=10"),
        ("put 3 3 -", "more"),
        ("run", "0 steps=8"),
        ("abort 1", "more"),
        ("run", "0 steps=6"),
        ("commit 1", "0"),
        ("commit 3", "more"),
        ("run", "0 steps=6"),
        ("get 0 1", "8"),
        ("get 0 2", "8"),
        ("get 0 3", "0 value=-"),
        ("commit 0", "more"),
        ("get 0 1", "5"),
        ("log 0", "5"),
        ("run", "0 steps=6"),
        ("delete 2 3", "more"),
        ("run", "0 steps=8"),
        ("get 2 3", "0 value=-"),
        ("commit 2", "more"),
        ("run", "0 steps=6"),
        ("get 2 3", "8"),
        ("get 2 1", "0 value=6f6e65"),
        // 16 for the header, 7 + 3 for the object.
        ("log 2", "0 time=1 objects=1 used=26 size=256"),
    ];
    check(&[&FORMATTED[..], &after].concat());
}

/// Calls that get each refusal, with and without its name.
const REFUSED: [(&str, &str, &str); 16] = [
    ("mount", "4", "4 image length"),
    ("new 512", "ok", "ok"),
    ("mount", "2", "2 no store"),
    ("commit 0", "2", "2 no store"),
    ("poke 8 00", "ok", "ok"),
    ("mount", "3 half=0 fault=length place=0", "3 foreign half=0 fault=length place=0"),
    ("format", "more", "more"),
    ("commit 0", "5", "5 busy"),
    ("run", "0 steps=12", "0 steps=12"),
    ("req 0 05000301 0", "1", "1 malformed"),
    ("get 0 1", "8", "8 no object"),
    ("read 0 060005010100", "8", "8 no object"),
    ("req 0 0500060101 13", "9", "9 short reply"),
    ("put 4 1 -", "10", "10 host range"),
    ("nothing", "? line 15: no call is named nothing", "? line 15: no call is named nothing"),
    (
        "record",
        "idle len=512 half=0 end=16 blocks=2 edition=1 pending=0,0,0,0",
        "idle len=512 half=0 end=16 blocks=2 edition=1 pending=0,0,0,0",
    ),
];

#[test]
fn refusals_by_name() {
    check(&REFUSED.map(|(line, answer, _)| (line, answer)));
    check_with(&["--words"], &REFUSED.map(|(line, _, named)| (line, named)));
    let [first, second, third] = [1, 2, 3].map(|id| format!("put 0 {id} {}", "aa".repeat(64)));
    let commit = [("commit 0", "more"), ("run", "0 steps=6")];
    let [one, two, three] = [&first, &second, &third].map(|put| [(&put[..], "more"), ("run", "0 steps=72")]);
    let full = [(&second[..], "12 host full")];
    let last = format!("poke 16 f0000100000100{}fe", "aa".repeat(232));
    let after = [
        // Row j.
        ("put 0 4 -", "7 no room"),
        ("idle 512 0 17", "ok"),
        ("commit 0", "11 stale"),
        ("new 512", "ok"),
        // Time 4,294,967,295, inverted 0, and a put that is not committed and ends where the half does.
        ("poke 0 1000014a00000000fc", "ok"),
        (&last, "ok"),
        ("mount", "6 worn"),
    ];
    let begin = [&FORMATTED[..], &one, &full, &commit, &two, &commit].concat();
    check_with(&["--words"], &[&begin[..], &three, &commit, &after].concat());
}

#[test]
fn values_in_words() {
    let after = [
        ("put 0 1 \"say \\\"hi\\\" \\\\\"", "more"),
        ("run", "0 steps=18"),
        ("put 0 2 0041", "more"),
        ("run", "0 steps=10"),
        ("put 0 3 -", "more"),
        ("run", "0 steps=8"),
        ("commit 0", "more"),
        ("run", "0 steps=6"),
        ("get 0 1", "0 value=7361792022686922205c \"say \\\"hi\\\" \\\\\""),
        ("get 0 2", "0 value=0041"),
        ("get 0 3", "0 value=-"),
    ];
    check_with(&["--words"], &[&FORMATTED[..], &after].concat());
}

#[test]
fn words_that_cannot_be_read() {
    let value = "a value is \"text\", hex digits, or - for none";
    let most = format!("put 0 1 {}", "aa".repeat(65_529));
    let too_many = format!("put 0 1 {}", "aa".repeat(65_530));
    let pairs = [
        ("put 0 1", "put goes with HOST ID VALUE"),
        ("put 0 1 41 42", "put goes with HOST ID VALUE"),
        ("put 0 1 4", value),
        ("put 0 1 AB\"", value),
        ("put 0 1 \"AB", "a text has no closing \""),
        ("put 0 1 \"AB\\", "in a text, \\ stands before \" or \\"),
        ("put 0 1 \"A\\n\"", "in a text, \\ stands before \" or \\"),
        ("put 0 1 \"A\"B", "a text is followed by a space"),
        ("put 0 65536 -", "65536 is more than 65535"),
        ("put 256 1 -", "256 is more than 255"),
        ("put 0 \"1\" -", "\"1\" is no number"),
        ("put x 1 -", "x is no number"),
        (&too_many, "a message has room for 65529 bytes of value"),
        ("get 0", "get goes with HOST ID"),
        ("log", "log goes with HOST"),
        ("commit", "commit goes with HOST"),
        ("image \"00\"", "bytes are hex digits, two a byte, or - for none"),
        ("\"mount\"", "no call is named \"mount\""),
        ("\u{a0}", "no call"),
    ];
    let mut lines: Vec<(String, String)> = FORMATTED.map(|(line, answer)| (line.into(), answer.into())).into();
    for (line, why) in pairs {
        lines.push((line.to_string(), format!("? line {}: {why}", lines.len() + 1)));
    }
    lines.push((most, "1".to_string()));
    lines
        .push(("record".to_string(), "idle len=512 half=0 end=16 blocks=2 edition=1 pending=0,0,0,0".to_string()));
    check(&lines.iter().map(|(line, answer)| (&line[..], &answer[..])).collect::<Vec<_>>());
}

#[test]
fn strict_scripts_end_at_a_line_that_cannot_be_read() {
    let script = b"new 512\n# mount\nmount\nnothing\nformat\n";
    let answers = "ok\n2\n? line 4: no call is named nothing\n";
    assert_eq!(run(&["replay"], script), (0, format!("{answers}more\n"), String::new()));
    assert_eq!(run(&["replay", "--strict"], script), (1, answers.to_string(), String::new()));
    assert_eq!(run(&["replay", "--strict", "-"], b"mount\nload nowhere\n").0, 1);
    // A refusal can be read.
    assert_eq!(run(&["replay", "--strict", "--words"], b"mount\n"), (0, "4 image length\n".into(), String::new()));
}

/// However late in the script.
#[test]
fn strict_scripts_end_at_a_late_line_too() {
    for lines in [4, 5, 8, 300, 70_000] {
        let script = format!("{}nothing\nformat\n", "new 512\n".repeat(lines));
        let answers = format!("{}? line {}: no call is named nothing\n", "ok\n".repeat(lines), lines + 1);
        assert_eq!(run(&["replay", "--strict"], script.as_bytes()), (1, answers, String::new()), "{lines} lines");
    }
}

/// Each refusal that a read may get has its own number.
#[test]
fn what_get_is_refused_with() {
    check_with(
        &["--words"],
        &[
            ("get 0 1", "4 image length"),
            ("new 512", "ok"),
            ("get 4 1", "10 host range"),
            ("get 0 1", "2 no store"),
            ("format", "more"),
            ("get 0 1", "5 busy"),
            ("run", "0 steps=12"),
            ("get 0 256", "1 malformed"),
            ("get 0 1", "8 no object"),
            ("idle 512 0 17", "ok"),
            ("get 0 1", "8 no object"),
            ("idle 512 0 16 place=1:16", "ok"),
            ("get 0 1", "11 stale"),
            ("get 0 256", "1 malformed"),
            ("get 0 2", "8 no object"),
            ("idle 768 0 16", "ok"),
            ("get 0 2", "11 stale"),
            ("get 0 256", "1 malformed"),
        ],
    );
}
