//! A build that is wrong in one byte of the module's constants is told from a right one, by the first call that differs.

use cross::compare::{Built, Difference, compare, own, reference};
use cross::target::{CORTEX_M0, CORTEX_M3, RISCV64, Target, WASM32};
use cross::tools::{kit, module, output, repository, scratch};
use std::fs;
use std::path::{Path, PathBuf};
use std::process::Command;

/// Rounds for calls that come before any at random.
const ROUNDS: u32 = 50;
/// Rounds for a call that comes at random, some 34 times in a thousand of them.
const RANDOM_ROUNDS: u32 = 300;

/// The kept module as text.
fn text() -> String {
    let flags = ["-Wno-override-module", "-S", "-emit-llvm", "-o", "-", "-x", "ir"];
    output(Command::new(kit("clang")).args(flags).arg(module()))
}

/// The kept module's text with `right`, which stands in one function once, changed to `wrong`.
fn changed(function: &str, right: &str, wrong: &str) -> String {
    let (text, name) = (text(), format!(" @\"{function}\"("));
    let is_it = |part: &&str| part.lines().any(|line| line.starts_with("define ") && line.contains(&name));
    let parts: Vec<_> = text.split_inclusive("\n}\n").collect();
    let part = *parts.iter().find(|part| is_it(part)).unwrap_or_else(|| panic!("the module has no {function}"));
    assert_eq!(part.matches(right).count(), 1, "{right:?} in {function}");
    text.replacen(part, &part.replacen(right, wrong, 1), 1)
}

/// What the comparison says of an archive on a target: the first call that differs, or their number.
fn compared(name: &str, target: &Target, archive: &Path, rounds: u32) -> Result<usize, Difference> {
    let own = own(&format!("wrong-{name}-x86-64"));
    let stream = reference(&own, rounds, target.images);
    compare(&Built::new(target, archive, &format!("wrong-{name}-program")), &own, &stream, rounds)
}

/// What the comparison says of a wrong archive on a target.
fn noticed(name: &str, target: &Target, archive: &Path, rounds: u32) -> Difference {
    let difference = compared(name, target, archive, rounds).expect_err("a wrong build went unnoticed");
    println!("{name}: {difference}");
    difference
}

/// The library compiled from a wrong text of the module, on a target: what the comparison says.
fn found(name: &str, target: &Target, rounds: u32, text: &str) -> Difference {
    let folder = scratch(&format!("wrong-{name}"));
    let module = folder.join("wrong.ll");
    fs::write(&module, text).expect("a file under target");
    let words = target.words.iter().filter(|word| word.starts_with("-m"));
    let mut cross = Command::new(repository("scripts/cross"));
    output(cross.arg(&module).arg(target.triple.expect("a triple")).arg(&folder).args(words));
    noticed(name, target, &folder.join("libgrommetide.a"), rounds)
}

/// The header's kind, 0x4A01, is programmed as 0x4B01: the fifth step of the first format programs its high byte.
#[test]
fn a_wrong_kind() {
    let Difference { call, own, target } =
        found("kind", &CORTEX_M3, ROUNDS, &changed("job::actions::open_write", "store i8 74,", "store i8 75,"));
    let told = |words: &str| words.starts_with(&format!("call {call}: grommetide_step, image of 512 bytes"));
    assert!(call <= 8 && told(&own) && told(&target) && own != target, "{own}{target}");
}

/// A value of 241 bytes is no longer malformed, so that the host's share refuses it: row o asks at S = 256.
#[test]
fn a_longer_value() {
    let Difference { own, target, .. } =
        found("value", &RISCV64, ROUNDS, &changed("wire::id_and_value", "i64 6, i64 246)", "i64 6, i64 247)"));
    let told = |words: &str| {
        words.contains("grommetide_request") && words.contains("message of 247 bytes: f7 00 01 01 09 00")
    };
    assert!(
        told(&own) && own.contains("answer 1\n") && told(&target) && target.contains("answer 12\n"),
        "{own}{target}"
    );
}

/// A log's reply may be of 13 bytes: only calls at random ask so. The message is a log of page 1, refused for its reply only.
#[test]
fn a_shorter_reply() {
    let text = changed("serving::Held::serve_log", ", 14\n", ", 13\n");
    let Difference { own, target, .. } = found("reply", &WASM32, RANDOM_ROUNDS, &text);
    let told = |words: &str| {
        let log = words.contains("message of 5 bytes: 05 00 06 01 01\n");
        log && words.contains("grommetide_request") && words.contains("  reply of 13")
    };
    assert!(told(&own) && own.contains("  answer 9\n"), "{own}{target}");
    assert!(target.starts_with("call ") && !target.contains("  answer 9\n"), "{own}{target}");
}

/// A line of the module as scripts/cross gives it to a processor of 32 bits: an Option of a reference says the bytes
/// between its parts, and the difference of two addresses is one of numbers.
fn of_32_bits(line: &str) -> String {
    let parts = line.contains("extractvalue { i8, ptr }") || line.contains("insertvalue { i8, ptr }");
    let line = match line.strip_suffix(", 1") {
        Some(front) if parts => format!("{front}, 2"),
        _ => line.to_string(),
    };
    line.replace("{ i8, ptr }", "{ i8, i32, ptr }").replace(" = ptrtoaddr ", " = ptrtoint ")
}

/// The module's text compiled for a Cortex-M0 as it is, less what it says of x86-64's processor and layout.
fn compiled(folder: &Path, name: &str, text: &str) -> PathBuf {
    let (module, object) = (folder.join(format!("{name}.ll")), folder.join(format!("{name}.o")));
    let text: String = text.lines().map(|line| of_32_bits(line) + "\n").collect();
    fs::write(&module, text.replace(" \"target-cpu\"=\"x86-64\"", "")).expect("a file under target");
    let mut clang = Command::new(kit("clang"));
    clang.args(["--target=thumbv6m-none-eabi", "-Wno-override-module", "-O2", "-mllvm", "-inline-threshold=4000"]);
    clang.args(["-x", "ir"]).arg(&module);
    output(clang.arg("-c").arg("-o").arg(&object));
    object
}

/// The module as the kit makes it does not say that answers are extended to a register, which scripts/cross adds. Without
/// that a Cortex-M0 gives back an answer with other bits above its byte, and a C caller would take it for another. With the
/// added word the same module agrees.
#[test]
fn an_answer_that_is_not_extended() {
    let (folder, text) = (scratch("wrong-answer"), text());
    let right = text.replace("\ndefine noundef i8 @grommetide_", "\ndefine noundef zeroext i8 @grommetide_");
    assert_ne!(right, text);
    let made = compared("answer", &CORTEX_M0, &compiled(&folder, "right", &right), ROUNDS);
    assert!(made.is_ok(), "{made:?}");
    let Difference { own, target, .. } = noticed("answer", &CORTEX_M0, &compiled(&folder, "wrong", &text), ROUNDS);
    assert!(own.contains("  answer ") && target.contains("this must hold: answer == byte"), "{own}{target}");
}
