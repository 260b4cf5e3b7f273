//! An image and its board record, under some store.

use std::ops::Range;
use store::{Answer, Fault, Head, Store, Stretch};

/// An image has so many blocks if nothing else is said.
pub const BLOCKS: u8 = 2;

pub struct Board<'s, S: Store> {
    pub store: &'s S,
    pub image: Vec<u8>,
    /// How many blocks each call is told.
    pub blocks: u8,
    pub record: S::Record,
}

impl<'s, S: Store> Board<'s, S> {
    /// This image of so many blocks, with an unmounted record.
    pub fn new(store: &'s S, image: Vec<u8>, blocks: u8) -> Board<'s, S> {
        Board { record: store.unmounted(), image, blocks, store }
    }

    pub fn head(&self) -> Head {
        self.store.head(&self.record)
    }

    pub fn mount(&mut self) -> Answer {
        let (answer, record) = self.store.mount(&self.image, self.blocks);
        self.record = record;
        answer
    }

    /// Where the image broke, if a mount is refused with 3.
    pub fn fault(&self) -> Option<Fault> {
        self.store.fault(&self.image, self.blocks).1
    }

    pub fn format(&mut self) -> Answer {
        let (answer, record) = self.store.format(&self.image, self.blocks);
        self.record = record;
        answer
    }

    pub fn request(&mut self, host: u8, message: &[u8], reply: &mut [u8]) -> Answer {
        self.store.request(&self.image, self.blocks, &mut self.record, host, message, reply)
    }

    pub fn read(&self, host: u8, message: &[u8]) -> (Answer, Stretch) {
        self.store.read(&self.image, self.blocks, &self.record, host, message)
    }

    pub fn step(&mut self) -> Answer {
        self.store.step(&mut self.image, self.blocks, &mut self.record)
    }

    /// The block that the job's next step erases, if it does. It shows on an image of zeros: no other step sets bits.
    pub fn erases_next(&self) -> Option<Range<usize>> {
        let (mut zeros, mut record) = (vec![0; self.image.len()], self.record.clone());
        self.store.step(&mut zeros, self.blocks, &mut record);
        let first = zeros.iter().position(|byte| *byte != 0)?;
        let size = zeros[first..].iter().take_while(|byte| **byte != 0).count();
        Some(first..first + size)
    }

    /// Power is lost inside the erase that comes next: each byte of the block becomes old OR mask, the mask being repeated.
    /// Whether there is such an erase.
    pub fn cut_erase(&mut self, mask: &[u8]) -> bool {
        let Some(block) = self.erases_next() else { return false };
        for (byte, bits) in self.image[block].iter_mut().zip(mask.iter().cycle()) {
            *byte |= bits;
        }
        self.record = self.store.unmounted();
        true
    }

    /// Steps until the answer is no longer "more"; the last answer, and the flash steps made.
    pub fn run(&mut self) -> (Answer, usize) {
        self.store.run(&mut self.image, self.blocks, &mut self.record, usize::MAX)
    }
}
