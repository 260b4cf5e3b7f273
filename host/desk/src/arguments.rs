//! Commands and what may follow them on the command line.

use crate::input;
use crate::say;
use std::ffi::{OsStr, OsString};
use std::io::{self, Read};
use std::path::Path;

/// The exit status for what cannot be done as asked.
pub const WRONG: u8 = 2;

pub struct Command {
    pub name: &'static str,
    /// Its options and its file, in brackets what may be left out.
    pub takes: &'static str,
    /// Whether all went well: exit status 0, else 1.
    pub run: fn(&Asked) -> Result<bool, Failure>,
}

/// What follows a command.
pub struct Asked {
    /// Each with what stands behind its `=`.
    options: Vec<(&'static str, String)>,
    file: Option<OsString>,
}

pub struct Failure {
    pub status: u8,
    pub why: String,
}

impl Command {
    pub fn read(&self, words: &[OsString]) -> Result<Asked, Failure> {
        let mut asked = Asked { options: Vec::new(), file: None };
        let mut options = true;
        for word in words {
            match word.to_str() {
                Some("--") if options => options = false,
                Some(text) if options && text.starts_with('-') && text != "-" => {
                    let option = self.option(text).ok_or_else(|| self.wrong("has no option", word))?;
                    asked.options.push(option);
                }
                _ if asked.file.is_none() && self.takes.contains("FILE") => asked.file = Some(word.clone()),
                _ => return Err(self.wrong("does not go with", word)),
            }
        }
        if asked.file.is_none() && self.takes.split(' ').any(|word| word == "FILE") {
            return Err(Failure {
                status: WRONG,
                why: format!("{} goes with a file\n{}", self.name, self.usage()),
            });
        }
        Ok(asked)
    }

    /// The option that a word is, and what stands behind its `=` where the command wants something there.
    fn option(&self, text: &str) -> Option<(&'static str, String)> {
        let mut known = self.takes.split(' ').map(|word| word.trim_matches(['[', ']']));
        known.find_map(|word| match (word.split_once('='), text.split_once('=')) {
            (None, _) if word == text => Some((word, String::new())),
            (Some((name, _)), Some((given, value))) if name == given => Some((name, value.to_string())),
            _ => None,
        })
    }

    fn wrong(&self, how: &str, word: &OsStr) -> Failure {
        Failure { status: WRONG, why: format!("{} {how} {}\n{}", self.name, say::name(word), self.usage()) }
    }

    fn usage(&self) -> String {
        format!("usage: desk {} {}", self.name, self.takes).trim_end().to_string()
    }
}

impl Asked {
    pub fn has(&self, option: &str) -> bool {
        self.options.iter().any(|(name, _)| *name == option)
    }

    /// The number behind an option, if it is there.
    pub fn number(&self, option: &str, most: usize) -> Result<Option<usize>, Failure> {
        let Some((_, value)) = self.options.iter().rfind(|(name, _)| *name == option) else { return Ok(None) };
        let wrong = || format!("{option}= goes with a number from 0 to {most}, not {}", say::word(value));
        let number = value.parse().ok().filter(|number| *number <= most);
        number.map(Some).ok_or_else(|| Failure { status: WRONG, why: wrong() })
    }

    /// The file, or standard input if none is named.
    pub fn open(&self) -> Result<Box<dyn Read>, String> {
        match self.path() {
            Some(path) => Ok(Box::new(input::open(path)?)),
            None => Ok(Box::new(io::stdin().lock())),
        }
    }

    /// What messages call the file.
    pub fn name(&self) -> String {
        self.path().map_or("standard input".to_string(), |path| say::name(path.as_os_str()))
    }

    fn path(&self) -> Option<&Path> {
        self.file.as_deref().filter(|file| *file != "-").map(Path::new)
    }
}
