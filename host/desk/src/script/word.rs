//! The words of a script's line: plain ones, and texts in quotes.

use crate::say;
use std::path::Path;
use store::hex;

#[derive(PartialEq, Debug)]
pub enum Word<'l> {
    Plain(&'l str),
    /// What stood between quotes.
    Text(String),
}

impl Word<'_> {
    /// A decimal number from `least` to `most`.
    pub fn number(&self, least: usize, most: usize) -> Result<usize, String> {
        let word = match self {
            Word::Plain(word) if word.bytes().all(|byte| byte.is_ascii_digit()) => word,
            _ => return Err(format!("{} is no number", self.said())),
        };
        match word.parse() {
            Ok(number) if number > most => Err(format!("{} is more than {most}", self.said())),
            Ok(number) if number < least => Err(format!("{} is less than {least}", self.said())),
            Ok(number) => Ok(number),
            Err(_) => Err(format!("{} is too large", self.said())),
        }
    }

    pub fn byte(&self) -> Result<u8, String> {
        self.number(0, 255).map(|number| number as u8)
    }

    pub fn short(&self) -> Result<u16, String> {
        self.number(0, 65_535).map(|number| number as u16)
    }

    /// Four such numbers with commas between them.
    pub fn four(&self) -> Result<[u16; 4], String> {
        let wrong = || format!("{} is not four numbers with commas between them", self.said());
        let Word::Plain(word) = self else { return Err(wrong()) };
        let numbers: Vec<u16> =
            word.split(',').map(|number| Word::Plain(number).short()).collect::<Result<_, _>>()?;
        numbers.try_into().map_err(|_| wrong())
    }

    /// An object's id and an offset with a colon between them.
    pub fn place(&self) -> Result<(u8, u16), String> {
        let pair = if let Word::Plain(word) = self { word.split_once(':') } else { None };
        let pair = pair.filter(|(id, place)| !id.is_empty() && !place.is_empty());
        let (id, place) = pair.ok_or_else(|| format!("{} is not ID:OFFSET", self.said()))?;
        Ok((Word::Plain(id).byte()?, Word::Plain(place).short()?))
    }

    /// What stands behind `name=` in this word, if anything does.
    pub fn field(&self, name: &str) -> Option<Word<'_>> {
        match self {
            Word::Plain(word) => {
                let value = word.strip_prefix(name)?.strip_prefix('=')?;
                (!value.is_empty()).then_some(Word::Plain(value))
            }
            Word::Text(_) => None,
        }
    }

    /// Bytes in hex.
    pub fn bytes(&self) -> Result<Vec<u8>, String> {
        let bytes = match self {
            Word::Plain("-") => Some(Vec::new()),
            Word::Plain(word) => hex::parse(word),
            Word::Text(_) => None,
        };
        bytes.ok_or_else(|| "bytes are hex digits, two a byte, or - for none".to_string())
    }

    /// A value: bytes in hex, or a text.
    pub fn value(&self) -> Result<Vec<u8>, String> {
        match self {
            Word::Text(text) => Ok(text.as_bytes().to_vec()),
            Word::Plain(_) => {
                self.bytes().map_err(|_| "a value is \"text\", hex digits, or - for none".to_string())
            }
        }
    }

    pub fn file(&self) -> Result<&Path, String> {
        match self {
            Word::Plain("-") => Err("- is no file name".to_string()),
            Word::Plain(name) => Ok(Path::new(name)),
            Word::Text(name) => Ok(Path::new(name)),
        }
    }

    /// The word, to be repeated in an answer.
    pub fn said(&self) -> String {
        match self {
            Word::Plain(word) => say::word(word),
            Word::Text(text) => format!("\"{}\"", say::word(text)),
        }
    }
}

/// The words that are left of a line.
pub struct Words<'l>(pub &'l str);

impl<'l> Iterator for Words<'l> {
    type Item = Result<Word<'l>, String>;

    fn next(&mut self) -> Option<Self::Item> {
        let rest = self.0.trim_start();
        if let Some(quoted) = rest.strip_prefix('"') {
            return Some(self.text(quoted));
        }
        let end = rest.find(char::is_whitespace).unwrap_or(rest.len());
        let (word, left) = rest.split_at(end);
        self.0 = left;
        (!word.is_empty()).then_some(Ok(Word::Plain(word)))
    }
}

impl<'l> Words<'l> {
    /// The text that `quoted` starts with, up to its closing quote.
    fn text(&mut self, quoted: &'l str) -> Result<Word<'l>, String> {
        let mut text = String::new();
        let mut letters = quoted.chars();
        loop {
            match letters.next().ok_or("a text has no closing \"")? {
                '"' => break,
                '\\' => {
                    let letter = letters.next().filter(|letter| matches!(letter, '"' | '\\'));
                    text.push(letter.ok_or("in a text, \\ stands before \" or \\")?);
                }
                letter => text.push(letter),
            }
        }
        self.0 = letters.as_str();
        if self.0.starts_with(|letter: char| !letter.is_whitespace()) {
            return Err("a text is followed by a space".to_string());
        }
        Ok(Word::Text(text))
    }
}

#[cfg(test)]
mod tests {
    use super::*;

    fn words(line: &str) -> Result<Vec<Word<'_>>, String> {
        Words(line).collect()
    }

    #[test]
    fn plain_words_and_texts() {
        let text = |text: &str| Word::Text(text.to_string());
        assert_eq!(words("  put 0\t5  4142 "), Ok(["put", "0", "5", "4142"].map(Word::Plain).into()));
        assert_eq!(words("put \"a b\" x"), Ok(vec![Word::Plain("put"), text("a b"), Word::Plain("x")]));
        assert_eq!(words(r#""" "\"\\" a"b"#), Ok(vec![text(""), text("\"\\"), Word::Plain("a\"b")]));
        assert_eq!(words(" \t "), Ok(vec![]));
    }

    #[test]
    fn no_texts() {
        for line in [r#"""#, r#""a"#, r#""a\"#, r#""a\n""#, r#""a"b"#, r#""a""b""#] {
            assert!(words(line).is_err(), "{line}");
        }
    }
}
