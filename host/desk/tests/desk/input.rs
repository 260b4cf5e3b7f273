//! Arguments, lines and pipes as nobody wants them.

use super::{Folder, command, replay, run};
use std::ffi::OsStr;
use std::fs;
use std::io::{self, BufRead, BufReader, Read, Write};
use std::os::unix::ffi::OsStrExt;
use std::process::{Child, Stdio};
use std::thread;
use std::time::Duration;

const LONGEST: usize = 4_194_304;

/// The most memory that a running program has had so far, in kB.
fn peak(child: &Child) -> usize {
    let status = fs::read_to_string(format!("/proc/{}/status", child.id())).expect("it runs");
    let line = status.lines().find(|line| line.starts_with("VmHWM:")).expect("a peak");
    line.split_whitespace().nth(1).and_then(|number| number.parse().ok()).expect("a number")
}

#[test]
fn arguments_that_are_not_text() {
    let odd = OsStr::from_bytes(b"a\xFFb\x1b");
    let named = "a\\xffb\\u{1b}";
    let (status, out, errors) = run(&[odd], b"");
    assert_eq!((status, &out[..]), (2, ""));
    assert!(errors.starts_with(&format!("desk: no command is named {named}\n")), "{errors}");
    for (command, expected) in [("show", 2), ("replay", 1)] {
        let (status, out, errors) = run(&[OsStr::new(command), odd], b"");
        assert_eq!((status, &out[..]), (expected, ""));
        assert_eq!(errors, format!("desk: {named}: no such file or directory\n"));
    }
    let (status, _, errors) = run(&[OsStr::new("replay"), OsStr::new("x"), odd], b"");
    assert_eq!(status, 2);
    assert_eq!(
        errors,
        format!("desk: replay does not go with {named}\nusage: desk replay [--words] [--strict] [FILE]\n")
    );
    let folder = Folder::new("odd");
    let path = folder.0.join(odd);
    fs::write(&path, b"new 1\ndump\n").expect("a file");
    assert_eq!(run(&[OsStr::new("replay"), path.as_os_str()], b"").1, "ok\nimage=ff\n");
}

#[test]
fn unknown_commands_and_options() {
    let commands = "commands: show, replay, demo, help; `desk help` says more\n";
    assert_eq!(run(&["play"], b""), (2, String::new(), format!("desk: no command is named play\n{commands}")));
    assert_eq!(run(&[""], b"").2, format!("desk: no command is named \n{commands}"));
    let usage = [
        (
            &["show"][..],
            "show goes with a file\nusage: desk show [--hex] [--journal] [--blocks=N] [--at=BYTE] [--length=BYTES] FILE\n",
        ),
        (
            &["show", "--hex"],
            "show goes with a file\nusage: desk show [--hex] [--journal] [--blocks=N] [--at=BYTE] [--length=BYTES] FILE\n",
        ),
        (
            &["show", "a", "b"],
            "show does not go with b\nusage: desk show [--hex] [--journal] [--blocks=N] [--at=BYTE] [--length=BYTES] FILE\n",
        ),
        (
            &["show", "--words", "a"],
            "show has no option --words\nusage: desk show [--hex] [--journal] [--blocks=N] [--at=BYTE] [--length=BYTES] FILE\n",
        ),
        (&["replay", "--hex"], "replay has no option --hex\nusage: desk replay [--words] [--strict] [FILE]\n"),
        (&["demo", "x"], "demo does not go with x\nusage: desk demo\n"),
        (&["demo", "--x"], "demo has no option --x\nusage: desk demo\n"),
    ];
    for (arguments, errors) in usage {
        assert_eq!(run(arguments, b""), (2, String::new(), format!("desk: {errors}")));
    }
    // Behind -- there are no options.
    assert_eq!(run(&["show", "--", "--hex"], b"").2, "desk: --hex: no such file or directory\n");
}

#[test]
fn help_fits_and_names_the_limits() {
    let (status, help, errors) = run(&["help"], b"");
    assert_eq!((status, &errors[..]), (0, ""));
    for asked in [&["--help"][..], &["-h"], &["show", "--help"], &["replay", "-h"]] {
        assert_eq!(run(asked, b""), (0, help.clone(), String::new()));
    }
    assert!(help.lines().all(|line| line.len() <= 80));
    assert!(
        help.contains(&format!("A line has at most {LONGEST} bytes")) && help.contains("at most 1048576 bytes")
    );
    assert!(run::<&str>(&[], b"").2.ends_with(&help["desk: ".len()..]));
}

#[test]
fn directories_and_unreadable_files() {
    for (file, why) in [
        ("/", "this is a directory, not a file"),
        ("/no/such", "no such file or directory"),
        ("/proc/self/mem", "Input/output error (os error 5)"),
    ] {
        let errors = format!("desk: {file}: {why}\n");
        assert_eq!(run(&["replay", file], b""), (1, String::new(), errors.clone()));
        for arguments in [&["show", file][..], &["show", "--hex", file]] {
            assert_eq!(run(arguments, b""), (2, String::new(), errors.clone()));
        }
    }
}

#[test]
fn lines_that_are_too_long() {
    let line = |length: usize| "a".repeat(length);
    let script = format!(
        "{}\nnew 1\n{}\ndump\n#{}\n{}",
        line(LONGEST),
        line(LONGEST + 1),
        line(LONGEST),
        line(LONGEST + 9)
    );
    let answers = [
        format!("? line 1: no call is named {}..", line(100)),
        "ok".to_string(),
        format!("? line 3: a line has at most {LONGEST} bytes"),
        "image=ff".to_string(),
        format!("? line 6: a line has at most {LONGEST} bytes"),
    ];
    assert_eq!(replay(script.as_bytes()).lines().collect::<Vec<_>>(), answers);
    // An image in hex may fill a line.
    let image = format!("image {}\nmount\n", "f".repeat(LONGEST - 6));
    assert_eq!(replay(image.as_bytes()), "ok\n4\n");
}

#[test]
fn words_are_repeated_without_escape_codes_and_cut() {
    let script = "a\u{1b}[2J\u{7}\nnew \u{1b}c\nnew 9\u{200e}\n\u{9b}31m é\nmount \u{8}\n";
    let answers = [
        "? line 1: no call is named a\\u{1b}[2J\\u{7}",
        "? line 2: \\u{1b}c is no number",
        "? line 3: 9\\u{200e} is no number",
        "? line 4: no call is named \\u{9b}31m",
        "? line 5: mount stands alone",
    ];
    assert_eq!(replay(script.as_bytes()).lines().collect::<Vec<_>>(), answers);
    let long = format!("new {}\n{}\n", "9".repeat(101), "b".repeat(1 << 20));
    let answers = format!(
        "? line 1: {}.. is too large\n? line 2: no call is named {}..\n",
        "9".repeat(100),
        "b".repeat(100)
    );
    assert_eq!(replay(long.as_bytes()), answers);
}

#[test]
fn endless_input_is_not_held() {
    let mut child = command(&["replay", "/dev/zero"]).spawn().expect("desk starts");
    thread::sleep(Duration::from_millis(500));
    let kilobytes = peak(&child);
    let running = child.try_wait().expect("a child").is_none();
    child.kill().expect("a child");
    child.wait().expect("a child");
    assert!(running && kilobytes < 32_768, "{kilobytes} kB");
}

#[test]
fn long_input_is_not_held() {
    let mut child = command(&["replay"]).spawn().expect("desk starts");
    let mut input = child.stdin.take().expect("a pipe");
    let mut answers = BufReader::new(child.stdout.take().expect("a pipe"));
    let mut answer = || {
        let mut line = String::new();
        answers.read_line(&mut line).expect("an answer");
        line
    };
    let chunk = |line: &str| line.repeat((1 << 20) / line.len());
    // One line of 64 MB, one of as many words, and as much in comments.
    for (start, line) in [("", "a"), ("", "a "), ("\n", "# a comment\n")] {
        input.write_all(start.as_bytes()).expect("desk reads");
        for _ in 0..64 {
            input.write_all(chunk(line).as_bytes()).expect("desk reads");
        }
        input.write_all(b"\nrecord\n").expect("desk reads");
        if start.is_empty() {
            assert!(answer().ends_with(&format!(": a line has at most {LONGEST} bytes\n")));
        }
        // The answer comes at once, while there may be more input.
        assert_eq!(answer(), "unmounted\n");
    }
    let words = format!("{}\nrecord\n", "a ".repeat(LONGEST / 2));
    input.write_all(words.as_bytes()).expect("desk reads");
    assert!(answer().ends_with(": no call is named a\n"));
    let kilobytes = peak(&child);
    drop(input);
    assert!(child.wait().expect("a child").success());
    assert!(kilobytes < 32_768, "{kilobytes} kB");
}

#[test]
fn nobody_reads_the_output() {
    let folder = Folder::new("closed");
    let blank = folder.file("blank", &[0xFF; 512]);
    for (arguments, status) in
        [(&["demo"][..], 0), (&["help"], 0), (&["show", &blank], 1), (&["replay"], 0), (&["play"], 2)]
    {
        let (reader, writer) = io::pipe().expect("a pipe");
        drop(reader);
        let mut child = command(arguments).stdout(writer).spawn().expect("desk starts");
        // A script that is not read to its end is no failure either.
        let _ = child.stdin.take().expect("a pipe").write_all("record\n".repeat(1000).as_bytes());
        let mut errors = String::new();
        child.stderr.take().expect("a pipe").read_to_string(&mut errors).expect("text");
        assert_eq!(child.wait().expect("a child").code(), Some(status), "{arguments:?}");
        assert!(!errors.contains("panic"), "{errors}");
    }
}

#[test]
fn nobody_reads_the_errors() {
    let (reader, writer) = io::pipe().expect("a pipe");
    drop(reader);
    let mut child = command(&["play"]).stderr(writer).spawn().expect("desk starts");
    assert_eq!(child.wait().expect("a child").code(), Some(2));
}

#[test]
fn a_full_disk_is_said() {
    for (arguments, status) in [(&["demo"][..], 1), (&["help"], 1), (&["show", "/dev/null"], 2), (&["replay"], 1)]
    {
        let full = fs::OpenOptions::new().write(true).open("/dev/full").expect("a full device");
        let mut child = command(arguments).stdout(Stdio::from(full)).spawn().expect("desk starts");
        let _ = child.stdin.take().expect("a pipe").write_all(b"record\n");
        let output = child.wait_with_output().expect("desk ends");
        assert_eq!(output.status.code(), Some(status), "{arguments:?}");
        let errors = String::from_utf8(output.stderr).expect("text");
        assert_eq!(errors, "desk: standard output: No space left on device (os error 28)\n");
    }
}
