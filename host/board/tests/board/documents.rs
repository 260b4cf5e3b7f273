//! What documents show is what there is.

use crate::*;
use std::fs;

/// The session in the example's README is what a person sees.
#[test]
fn as_in_the_readme() {
    let readme = fs::read_to_string(firmware::source().join("README.md")).expect("the example's README");
    let shown = readme.split("```text\n").nth(1).and_then(|rest| rest.split("\n```").next()).expect("a session");
    let chip = chip("readme", &[]);
    let mut machine = Machine::on(firmware::made(), chip.file());
    let mut heard = machine.hear();
    for command in shown.lines().filter_map(|line| line.strip_prefix("> ")) {
        machine.send(&format!("{command}\r"));
        heard += &format!("\r\n> {}", machine.hear());
    }
    assert_eq!(heard.replace("\r\n", "\n"), shown);
    machine.cut();
}

/// The code in PORTING stands in the firmware so.
#[test]
fn as_in_porting() {
    let porting = fs::read_to_string(firmware::source().join("../../docs/PORTING.md")).expect("PORTING");
    let files =
        ["nor.c", "store.c"].map(|file| fs::read_to_string(firmware::source().join(file)).expect("a file"));
    let blocks: Vec<&str> = porting.split("```c\n").skip(1).filter_map(|rest| rest.split("```").next()).collect();
    assert_eq!(blocks.len(), 2);
    for block in blocks {
        assert!(files.iter().any(|file| file.contains(block)), "not in the firmware:\n{block}");
    }
}
