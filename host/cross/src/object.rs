//! What an archive of the library holds: sizes and undefined symbols of ELF and WebAssembly objects.

use std::collections::BTreeSet;
use std::fs;
use std::path::Path;

/// Bytes of code, of constants and of data that is written to; symbols that others must bring.
#[derive(Debug, Default)]
pub struct Contents {
    pub code: usize,
    pub constants: usize,
    pub written: usize,
    pub undefined: BTreeSet<String>,
    defined: BTreeSet<String>,
}

/// All objects of an archive together.
pub fn contents(archive: &Path) -> Contents {
    let bytes = fs::read(archive).unwrap_or_else(|error| panic!("{}: {error}", archive.display()));
    let mut contents = Contents::default();
    for member in members(&bytes) {
        if member.starts_with(b"\x7FELF") {
            Elf::new(member).add_to(&mut contents);
        } else {
            assert!(member.starts_with(b"\0asm"), "neither ELF nor WebAssembly");
            add_wasm(member, &mut contents);
        }
    }
    let Contents { undefined, defined, .. } = &mut contents;
    undefined.retain(|name| !defined.contains(name));
    contents
}

/// The archive's objects, without its tables of symbols and long names.
fn members(archive: &[u8]) -> Vec<&[u8]> {
    let mut rest = archive.strip_prefix(b"!<arch>\n").expect("an archive");
    let mut members = Vec::new();
    while rest.len() >= 60 {
        let (head, body) = rest.split_at(60);
        let text = |range: std::ops::Range<usize>| str::from_utf8(&head[range]).expect("text").trim_end();
        let size: usize = text(48..58).parse().expect("a size");
        if !["/", "//", "/SYM64/"].contains(&text(0..16)) {
            members.push(&body[..size]);
        }
        rest = &body[(size + size % 2).min(body.len())..];
    }
    members
}

/// A little-endian ELF object of 32 or 64 bits.
struct Elf<'a> {
    bytes: &'a [u8],
    wide: bool,
}

/// The section header's fields that are needed here.
struct Section {
    kind: usize,
    flags: usize,
    offset: usize,
    size: usize,
    link: usize,
}

impl Elf<'_> {
    fn new(bytes: &[u8]) -> Elf<'_> {
        assert_eq!(bytes[5], 1, "not little-endian");
        Elf { bytes, wide: bytes[4] == 2 }
    }

    fn number(&self, at: usize, len: usize) -> usize {
        self.bytes[at..at + len].iter().rev().fold(0, |number, byte| number << 8 | usize::from(*byte))
    }

    fn sections(&self) -> Vec<Section> {
        let (start, size, count) = if self.wide {
            (self.number(40, 8), self.number(58, 2), self.number(60, 2))
        } else {
            (self.number(32, 4), self.number(46, 2), self.number(48, 2))
        };
        (0..count).map(|index| self.section(start + index * size)).collect()
    }

    fn section(&self, at: usize) -> Section {
        let (kind, width) = (self.number(at + 4, 4), if self.wide { 8 } else { 4 });
        let field = |index: usize| self.number(at + 8 + index * width, width);
        Section {
            kind,
            flags: field(0),
            offset: field(2),
            size: field(3),
            link: self.number(at + 8 + 4 * width, 4),
        }
    }

    fn name(&self, strings: &Section, at: usize) -> String {
        let text = &self.bytes[strings.offset + at..];
        let end = text.iter().position(|byte| *byte == 0).expect("a name ends");
        String::from_utf8(text[..end].to_vec()).expect("text")
    }

    fn add_to(&self, contents: &mut Contents) {
        const SYMBOLS: usize = 2;
        const UNWIND: usize = 0x7000_0001;
        let (write, alloc, execute) = (1, 2, 4);
        let sections = self.sections();
        for section in &sections {
            match section.flags & (write | alloc | execute) {
                flags if flags & alloc == 0 || section.kind == UNWIND => {}
                flags if flags & write != 0 => contents.written += section.size,
                flags if flags & execute != 0 => contents.code += section.size,
                _ => contents.constants += section.size,
            }
            if section.kind == SYMBOLS {
                self.add_symbols(section, &sections[section.link], contents);
            }
        }
    }

    fn add_symbols(&self, table: &Section, strings: &Section, contents: &mut Contents) {
        let (size, info, section) = if self.wide { (24, 4, 6) } else { (16, 12, 14) };
        for at in (table.offset..table.offset + table.size).step_by(size) {
            let local = self.bytes[at + info] >> 4 == 0;
            let name = self.name(strings, self.number(at, 4));
            if !local && self.number(at + section, 2) == 0 {
                contents.undefined.insert(name);
            } else if !local {
                contents.defined.insert(name);
            }
        }
    }
}

/// A WebAssembly module, read from front to back.
struct Wasm<'a>(&'a [u8]);

impl<'a> Wasm<'a> {
    fn byte(&mut self) -> u8 {
        let (first, rest) = self.0.split_first().expect("a byte");
        self.0 = rest;
        *first
    }

    /// A number in LEB128.
    fn number(&mut self) -> usize {
        let byte = usize::from(self.byte());
        if byte < 128 { byte } else { byte - 128 + 128 * self.number() }
    }

    fn bytes(&mut self) -> &'a [u8] {
        let len = self.number();
        let (taken, rest) = self.0.split_at(len);
        self.0 = rest;
        taken
    }

    /// The limits of a memory or table.
    fn limits(&mut self) {
        let flags = self.byte();
        self.number();
        if flags & 1 != 0 {
            self.number();
        }
    }

    /// One thing that the module imports; its name, if it is a function.
    fn import(&mut self) -> Option<String> {
        self.bytes();
        let name = String::from_utf8(self.bytes().to_vec()).expect("text");
        match self.byte() {
            0 => {
                self.number();
                return Some(name);
            }
            1 => {
                self.byte();
                self.limits();
            }
            2 => self.limits(),
            _ => {
                self.byte();
                self.byte();
            }
        }
        None
    }
}

fn add_wasm(bytes: &[u8], contents: &mut Contents) {
    const IMPORTS: u8 = 2;
    const CODE: u8 = 10;
    const DATA: u8 = 11;
    let mut module = Wasm(&bytes[8..]);
    while !module.0.is_empty() {
        let kind = module.byte();
        let mut section = Wasm(module.bytes());
        match kind {
            IMPORTS => {
                let count = section.number();
                contents.undefined.extend((0..count).filter_map(|_| section.import()));
            }
            CODE => contents.code += section.0.len(),
            DATA => contents.constants += section.0.len(),
            _ => {}
        }
    }
}
