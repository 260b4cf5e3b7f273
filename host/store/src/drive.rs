//! A store whose caller makes the flash steps.

use crate::{Answer, Store};

/// What is told of a flash step beside the answer: where it is, and the byte that it programs.
#[derive(Clone, Copy, PartialEq, Eq, Debug, Default)]
pub struct Told {
    pub at: usize,
    pub len: usize,
    pub byte: u8,
}

/// A store that tells its next flash step, by the record alone, and moves on once it was made.
pub trait Drive: Store {
    fn told(&self, image_len: usize, blocks: u8, record: &Self::Record) -> (Answer, Told);
    fn made(&self, image: &[u8], blocks: u8, record: &mut Self::Record) -> Answer;
}
