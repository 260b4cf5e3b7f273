//! The library with the flash in the caller's hands: a step is told, done here, and made.

use crate::{Library, Record};
use store::{Answer, Drive, Fault, Head, Idle, Store, Stretch, Told};

impl Drive for Library {
    fn told(&self, image_len: usize, blocks: u8, record: &Record) -> (Answer, Told) {
        self.next_of(image_len, blocks, record)
    }

    fn made(&self, image: &[u8], blocks: u8, record: &mut Record) -> Answer {
        self.made_on(image, blocks, record)
    }
}

pub struct Driven<L>(pub L);

/// The flash step that `next` told; a program step clears bits and sets none.
pub fn flash(image: &mut [u8], answer: Answer, Told { at, len, byte }: Told) {
    match answer {
        Answer::PROGRAM => image[at] &= byte,
        Answer::ERASE => image[at..at + len].fill(0xFF),
        _ => {}
    }
}

impl<L: Drive> Store for Driven<L> {
    type Record = L::Record;

    fn mount(&self, image: &[u8], blocks: u8) -> (Answer, L::Record) {
        self.0.mount(image, blocks)
    }

    fn fault(&self, image: &[u8], blocks: u8) -> (Answer, Option<Fault>) {
        self.0.fault(image, blocks)
    }

    fn format(&self, image: &[u8], blocks: u8) -> (Answer, L::Record) {
        self.0.format(image, blocks)
    }

    fn request(
        &self,
        image: &[u8],
        blocks: u8,
        record: &mut L::Record,
        host: u8,
        message: &[u8],
        reply: &mut [u8],
    ) -> Answer {
        self.0.request(image, blocks, record, host, message, reply)
    }

    fn step(&self, image: &mut [u8], blocks: u8, record: &mut L::Record) -> Answer {
        let (answer, told) = self.0.told(image.len(), blocks, record);
        flash(image, answer, told);
        self.0.made(image, blocks, record)
    }

    fn read(&self, image: &[u8], blocks: u8, record: &L::Record, host: u8, message: &[u8]) -> (Answer, Stretch) {
        self.0.read(image, blocks, record, host, message)
    }

    fn unmounted(&self) -> L::Record {
        self.0.unmounted()
    }

    fn idle(&self, idle: Idle) -> L::Record {
        self.0.idle(idle)
    }

    fn head(&self, record: &L::Record) -> Head {
        self.0.head(record)
    }
}
