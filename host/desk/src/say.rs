//! Words for people: names of answers, values, and what others wrote, made safe to print.

use std::ffi::OsStr;
use std::fmt::Write;
use store::{Answer, Field, hex};

/// The most characters of a word that are repeated in an answer.
const REPEATED: usize = 100;

/// Refusals as include/grommetide.h names them.
const NAMES: [(Answer, &str); 14] = [
    (Answer::MALFORMED, "malformed"),
    (Answer::NO_STORE, "no store"),
    (Answer::FOREIGN, "foreign"),
    (Answer::IMAGE_LENGTH, "image length"),
    (Answer::BUSY, "busy"),
    (Answer::WORN, "worn"),
    (Answer::NO_ROOM, "no room"),
    (Answer::NO_OBJECT, "no object"),
    (Answer::SHORT_REPLY, "short reply"),
    (Answer::HOST_RANGE, "host range"),
    (Answer::STALE, "stale"),
    (Answer::HOST_FULL, "host full"),
    (Answer::PENDING, "pending"),
    (Answer::WRONG_RECORD, "wrong record"),
];

/// An answer with the name of its refusal, if it is one.
pub fn named(answer: Answer) -> String {
    match NAMES.iter().find(|(number, _)| *number == answer) {
        Some((_, name)) => format!("{answer} {name}"),
        None => answer.to_string(),
    }
}

/// What a block is called: with two of them, as in document 01, a half.
pub fn block(blocks: u8) -> &'static str {
    if blocks == 2 { "half" } else { "block" }
}

/// "two halves", "4 blocks".
pub fn blocks(blocks: u8) -> String {
    if blocks == 2 { "two halves".to_string() } else { format!("{blocks} blocks") }
}

/// What is wrong with a field that starts here in its block.
pub fn fault(field: Field, place: usize, at: &str) -> String {
    let (name, wrong) = match (field, place) {
        (Field::Length, 0) => ("header's length", "is not 16"),
        (Field::Kind, 2) => ("header's kind", "is not 0x4A01 or 0x4A02"),
        (Field::Time, _) => ("time", "was never programmed"),
        (Field::State, _) => ("state", "is not 0xFC, valid data"),
        (Field::Rest, _) => ("rest of the header", "is not all 0xFF"),
        (Field::Host, _) => ("host", "is not 0 to 3"),
        (Field::Finish, _) => ("finish byte", "is not 0xFE"),
        (Field::Crc, _) => ("checksum", "is not its frame's"),
        (Field::Length, _) => ("length", "is not one that may stand there"),
        (Field::Kind, _) => ("kind", "is not one that may stand there"),
        (Field::Id, _) => ("id", "is not one that may stand there"),
    };
    format!("the {name} at byte {at} {wrong}")
}

/// Bytes as the desk's lines have them.
pub fn bytes(bytes: &[u8]) -> String {
    if bytes.is_empty() { "-".to_string() } else { hex::show(bytes) }
}

/// A value as a quoted text, if it is one that any screen can show.
pub fn text(value: &[u8]) -> Option<String> {
    let printable = |byte: &u8| matches!(byte, b' '..=b'~');
    if value.is_empty() || !value.iter().all(printable) {
        return None;
    }
    let inner: String = value.iter().map(|byte| char::from(*byte)).collect();
    Some(format!("\"{}\"", inner.replace('\\', "\\\\").replace('"', "\\\"")))
}

/// A value as `put` takes it: a text if it can be shown as one, else hex.
pub fn value(value: &[u8]) -> String {
    text(value).unwrap_or_else(|| bytes(value))
}

/// "no objects", "1 object", "2 objects".
pub fn count(number: usize, what: &str) -> String {
    match number {
        0 => format!("no {what}s"),
        1 => format!("1 {what}"),
        _ => format!("{} {what}s", grouped(number)),
    }
}

/// A number with commas between thousands.
pub fn grouped(number: usize) -> String {
    if number < 1_000 { number.to_string() } else { format!("{},{:03}", grouped(number / 1_000), number % 1_000) }
}

/// A word of a script, to be repeated in an answer: cut short, and nothing in it that a screen would obey.
pub fn word(word: &str) -> String {
    match word.char_indices().nth(REPEATED) {
        Some((end, _)) => escaped(&word[..end]) + "..",
        None => escaped(word),
    }
}

/// A name from the command line, which need not be text.
pub fn name(name: &OsStr) -> String {
    let mut safe = String::new();
    for chunk in name.as_encoded_bytes().utf8_chunks() {
        safe += &escaped(chunk.valid());
        for byte in chunk.invalid() {
            // Writing to a string does not fail.
            let _ = write!(safe, "\\x{byte:02x}");
        }
    }
    safe
}

fn escaped(text: &str) -> String {
    let mut safe = String::new();
    for letter in text.chars() {
        match letter {
            ' '..='~' => safe.push(letter),
            _ => safe.extend(letter.escape_debug()),
        }
    }
    safe
}

#[cfg(test)]
mod tests {
    use super::*;

    #[test]
    fn values() {
        assert_eq!(value(b"AB"), "\"AB\"");
        assert_eq!(value(b"say \"a\\b\""), r#""say \"a\\b\"""#);
        assert_eq!(value(b""), "-");
        assert_eq!(value(b"a\nb"), "610a62");
        assert_eq!(value(b"\x7f"), "7f");
        assert_eq!(value("é".as_bytes()), "c3a9");
    }

    #[test]
    fn nothing_a_screen_would_obey() {
        assert_eq!(word("a\u{1b}[2Jb"), "a\\u{1b}[2Jb");
        assert_eq!(word("tab\tline\nend\r\u{7f}\u{9b}"), "tab\\tline\\nend\\r\\u{7f}\\u{9b}");
        assert_eq!(word("Grüße \u{202e}"), "Grüße \\u{202e}");
        assert_eq!(word(&"é".repeat(100)), "é".repeat(100));
        assert_eq!(word(&"é".repeat(101)), "é".repeat(100) + "..");
    }

    #[test]
    fn counts() {
        let said = [0, 1, 2, 999, 1_000, 65_535].map(|number| count(number, "step"));
        assert_eq!(said, ["no steps", "1 step", "2 steps", "999 steps", "1,000 steps", "65,535 steps"]);
    }
}
