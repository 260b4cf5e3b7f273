//! The chip's file, and what stands in it.

use check::book::{Objects, found};
use check::raise;
use check::rng::Rng;
use library::{Library, flash};
use std::fs;
use std::ops::Range;
use std::path::{Path, PathBuf};
use store::{Answer, Head, Store, message};

/// As the firmware divides the chip.
pub const BLOCKS: u8 = 4;
pub const BLOCK: usize = 4096;
pub const STORE: usize = BLOCKS as usize * BLOCK;
/// The sector behind the store, and what stands at its start while a format is under way.
pub const FLAG: usize = STORE;
pub const UNDER_WAY: &[u8] = b"format..";

const CHIP: usize = 4 << 20;

pub struct Chip(PathBuf);

impl Chip {
    /// A chip whose file is of this name, blank but for these bytes at these places.
    pub fn new(file: PathBuf, parts: &[(usize, &[u8])]) -> Chip {
        let mut bytes = vec![0xFF; CHIP];
        for (at, part) in parts {
            bytes[*at..*at + part.len()].copy_from_slice(part);
        }
        fs::write(&file, bytes).unwrap_or_else(|error| panic!("{}: {error}", file.display()));
        Chip(file)
    }

    pub fn file(&self) -> &Path {
        &self.0
    }

    pub fn bytes(&self) -> Vec<u8> {
        let bytes = fs::read(&self.0).expect("the chip's file is there");
        assert_eq!(bytes.len(), CHIP);
        bytes
    }

    /// Whether power was lost in a format.
    pub fn format_was_cut(&self) -> bool {
        self.bytes()[FLAG..].starts_with(UNDER_WAY)
    }

    /// The objects that the library finds on this machine; None where a mount is refused.
    pub fn objects(&self) -> Option<Objects> {
        let mut image = self.bytes()[..STORE].to_vec();
        let block = usize::from(mounted(&mut image)?.1);
        Some(found(&image[block * BLOCK..][..BLOCK]).0)
    }

    /// Host 0 puts and aborts, on this machine, up to a transfer, and power is lost inside its erase: what was settled
    /// stays so. False, and nothing is changed, where a mount is refused.
    pub fn lose_power_in_erase(&self, rng: &mut Rng) -> bool {
        let mut bytes = self.bytes();
        let image = &mut bytes[..STORE];
        let Some((mut record, _)) = mounted(image) else { return false };
        let messages = [message::delete(0), message::abort()];
        let erase = messages.iter().cycle().find_map(|message| up_to_erase(image, &mut record, message));
        let block = &mut image[erase.expect("the journal grows until a transfer")];
        let mask = raise::mask(rng, block);
        block.iter_mut().zip(mask).for_each(|(byte, raised)| *byte |= raised);
        fs::write(&self.0, bytes).expect("the chip's file can be written");
        true
    }
}

/// Host 0's request and its steps, up to an erase if there is one: what is to be erased.
fn up_to_erase(image: &mut [u8], record: &mut library::Record, message: &[u8]) -> Option<Range<usize>> {
    let library = Library::linked();
    assert_eq!(library.request(image, BLOCKS, record, 0, message, &mut []), Answer::MORE);
    loop {
        let (told, place) = library.next_of(STORE, BLOCKS, record);
        if told == Answer::ERASE {
            return Some(place.at..place.at + place.len);
        }
        flash(image, told, place);
        if library.made_on(image, BLOCKS, record) == Answer::DONE {
            return None;
        }
    }
}

/// Mounts: the record, and the current block.
fn mounted(image: &mut [u8]) -> Option<(library::Record, u8)> {
    let library = Library::linked();
    let (answer, mut record) = library.mount(image, BLOCKS);
    if answer.refused() {
        return None;
    }
    assert_eq!(library.run(image, BLOCKS, &mut record, 2 * STORE).0, Answer::DONE);
    match library.head(&record) {
        Head::Idle(idle) => Some((record, idle.block)),
        other => panic!("{other:?} after a mount"),
    }
}
