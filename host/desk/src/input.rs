//! Files and lines, never more of either in memory than is stated here.

use std::fs::File;
use std::io::{self, BufRead, ErrorKind, Read};
use std::path::Path;
use store::hex;

/// The most bytes of an image or reply that the desk makes or reads.
pub const LARGEST: usize = 1 << 20;

/// The most bytes of a script's line, or of a file of hex.
pub const LONGEST: usize = 4 << 20;

/// What `dump` puts in front of an image.
const DUMP: &[u8] = b"image=";

/// A file to read from. A directory can be opened too, but not read.
pub fn open(path: &Path) -> Result<File, String> {
    let file = File::open(path).map_err(|error| why(&error))?;
    let metadata = file.metadata().map_err(|error| why(&error))?;
    if metadata.is_dir() { Err(why(&ErrorKind::IsADirectory.into())) } else { Ok(file) }
}

/// All bytes of `input`, but no more than one above `most`.
pub fn whole(input: impl Read, most: usize) -> io::Result<Vec<u8>> {
    let mut bytes = Vec::new();
    input.take(most as u64 + 1).read_to_end(&mut bytes)?;
    Ok(bytes)
}

/// The part of a larger dump that is the image.
pub struct Part {
    pub at: usize,
    /// All that follows, if it is not given.
    pub length: Option<usize>,
}

impl Part {
    /// Its bytes in the dump that `input` is. Of a dump without an end no more than one above `LARGEST`.
    pub fn of(&self, mut input: impl Read) -> io::Result<Vec<u8>> {
        io::copy(&mut input.by_ref().take(self.at as u64), &mut io::sink())?;
        match self.length {
            Some(length) => {
                let mut bytes = Vec::new();
                input.take(length as u64).read_to_end(&mut bytes)?;
                Ok(bytes)
            }
            None => whole(input, LARGEST),
        }
    }

    /// Why these bytes are not all of it.
    pub fn lacks(&self, bytes: &[u8]) -> Option<String> {
        let length = self.length.filter(|length| *length > bytes.len())?;
        Some(format!("{} of {length} bytes from byte {} on are there", bytes.len(), self.at))
    }
}

/// Why a file cannot be had, without the system's numbers where plain words do.
pub fn why(error: &io::Error) -> String {
    match error.kind() {
        ErrorKind::NotFound => "no such file or directory".to_string(),
        ErrorKind::PermissionDenied => "permission denied".to_string(),
        ErrorKind::IsADirectory => "this is a directory, not a file".to_string(),
        _ => error.to_string(),
    }
}

pub enum Line {
    End,
    Whole,
    /// Longer than `LONGEST`; only its start is held.
    Long,
}

/// The next line, without its line feed.
pub fn line(input: &mut impl BufRead, line: &mut Vec<u8>) -> io::Result<Line> {
    line.clear();
    if input.by_ref().take(LONGEST as u64 + 1).read_until(b'\n', line)? == 0 {
        return Ok(Line::End);
    }
    if line.pop_if(|byte| *byte == b'\n').is_some() || line.len() <= LONGEST {
        return Ok(Line::Whole);
    }
    input.skip_until(b'\n')?;
    Ok(Line::Long)
}

/// The bytes of a file of hex digits; white space and the `image=` of a dump are skipped.
pub fn from_hex(file: &[u8]) -> Result<Vec<u8>, String> {
    if file.len() > LONGEST {
        return Err(format!("more than {LONGEST} bytes of hex"));
    }
    let start = file.trim_ascii_start();
    let text = start.strip_prefix(DUMP).unwrap_or(start);
    let skipped = file.len() - text.len();
    let mut digits = String::new();
    for (place, byte) in (skipped..).zip(text).filter(|(_, byte)| !byte.is_ascii_whitespace()) {
        if !byte.is_ascii_hexdigit() {
            return Err(format!("no hex: byte 0x{byte:02x} at {place}"));
        }
        digits.push(char::from(*byte));
    }
    hex::parse(&digits).ok_or_else(|| format!("no hex: {} digits, an odd number", digits.len()))
}

/// Whether bytes that were taken for an image are hex instead.
pub fn looks_like_hex(file: &[u8]) -> bool {
    !file.is_empty() && from_hex(file).is_ok()
}

#[cfg(test)]
mod tests {
    use super::*;

    #[test]
    fn hex_files() {
        assert_eq!(from_hex(b"00 Fe\r\n12\t\n"), Ok(vec![0, 0xFE, 0x12]));
        assert_eq!(from_hex(b"image=0aff\n"), Ok(vec![10, 255]));
        assert_eq!(from_hex(b" \n"), Ok(vec![]));
        assert_eq!(from_hex(b"00 f\n"), Err("no hex: 3 digits, an odd number".to_string()));
        assert_eq!(from_hex(b"00 \x1b"), Err("no hex: byte 0x1b at 3".to_string()));
        assert!(from_hex(&vec![b'0'; LONGEST + 1]).is_err());
    }

    #[test]
    fn lines_up_to_the_longest() {
        let text = [&vec![b'a'; LONGEST][..], b"\n", &vec![b'b'; LONGEST + 1], b"\nc\n\n", &[b'd'; 2]].concat();
        let (mut input, mut bytes) = (&text[..], Vec::new());
        let mut next = || {
            let kind = line(&mut input, &mut bytes).expect("a slice can be read");
            (kind, bytes.len(), bytes.first().copied())
        };
        assert!(matches!(next(), (Line::Whole, LONGEST, Some(b'a'))));
        assert!(matches!(next(), (Line::Long, _, Some(b'b'))));
        assert!(matches!(next(), (Line::Whole, 1, Some(b'c'))));
        assert!(matches!(next(), (Line::Whole, 0, None)));
        assert!(matches!(next(), (Line::Whole, 2, Some(b'd'))));
        assert!(matches!(next(), (Line::End, ..)));
    }
}
