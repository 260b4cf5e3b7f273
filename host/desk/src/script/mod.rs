//! Scripts: one call a line, one line back for each.

mod call;
mod word;

use crate::board::{BLOCKS, Board};
use crate::input::{self, LONGEST, Line};
use crate::say;
use call::Call;
use std::io::{self, BufRead, Write};
use store::{Answer, Store};
use word::{Word, Words};

/// What some editors put in front of a text.
const BYTE_ORDER_MARK: &[u8] = b"\xEF\xBB\xBF";

/// How the caller wants it.
#[derive(Clone, Copy, Default)]
pub struct Manner {
    /// Names after the numbers of refusals, texts after values.
    pub words: bool,
    /// A line that cannot be read is the last one.
    pub strict: bool,
}

pub enum Trouble {
    Input(io::Error),
    Output(io::Error),
}

/// What a call gives back.
pub enum Back {
    Ok,
    /// The answer, and the fields after it.
    Answer(Answer, String),
    Value(Vec<u8>),
    Plain(String),
}

impl Back {
    fn line(self, words: bool) -> String {
        match self {
            Back::Ok => "ok".to_string(),
            Back::Answer(answer, fields) => {
                let answer = if words { say::named(answer) } else { answer.to_string() };
                if fields.is_empty() { answer } else { format!("{answer} {fields}") }
            }
            Back::Value(value) => {
                let text = say::text(&value).filter(|_| words).map(|text| format!(" {text}"));
                format!("0 value={}{}", say::bytes(&value), text.unwrap_or_default())
            }
            Back::Plain(line) => line,
        }
    }
}

/// Plays a script; false if a strict one was ended by a line that cannot be read.
pub fn replay<S: Store>(
    store: &S,
    manner: Manner,
    mut script: impl BufRead,
    mut out: impl Write,
) -> Result<bool, Trouble> {
    let mut board = Board::new(store, Vec::new(), BLOCKS);
    let mut bytes = Vec::new();
    for number in 1.. {
        let line = input::line(&mut script, &mut bytes).map_err(Trouble::Input)?;
        let start = bytes.strip_prefix(BYTE_ORDER_MARK).unwrap_or(&bytes).trim_ascii();
        let back = match line {
            Line::End => break,
            _ if start.starts_with(b"#") => continue,
            Line::Whole if start.is_empty() => continue,
            Line::Whole => read(&mut board, start),
            Line::Long => Err(format!("a line has at most {LONGEST} bytes")),
        };
        let readable = back.is_ok();
        let answer = back.map_or_else(|why| format!("? line {number}: {why}"), |back| back.line(manner.words));
        writeln!(out, "{answer}").map_err(Trouble::Output)?;
        if manner.strict && !readable {
            return Ok(false);
        }
    }
    out.flush().map_err(Trouble::Output)?;
    Ok(true)
}

/// Makes the call of a line; what it gives back, or why the line cannot be read.
fn read<S: Store>(board: &mut Board<S>, line: &[u8]) -> Result<Back, String> {
    let line = std::str::from_utf8(line).map_err(|_| "not text".to_string())?;
    let mut words = Words(line);
    let name = match words.next() {
        Some(Ok(Word::Plain(name))) => name,
        Some(Ok(text)) => return Err(format!("no call is named {}", text.said())),
        Some(Err(why)) => return Err(why),
        None => return Err("no call".to_string()),
    };
    let call = Call::ALL.iter().find(|call| call.name == name);
    let call = call.ok_or_else(|| format!("no call is named {}", say::word(name)))?;
    call.make(board, words)
}
