//! A NOR array that refuses to set bits other than by an erase.

use model::job::Step;

pub struct Nor {
    bytes: Vec<u8>,
    /// How often each block was erased.
    pub erases: [usize; 16],
}

impl Nor {
    pub fn new(bytes: &[u8]) -> Nor {
        Nor { bytes: bytes.to_vec(), erases: [0; 16] }
    }

    pub fn bytes(&self) -> &[u8] {
        &self.bytes
    }

    pub fn load(&mut self, bytes: &[u8]) {
        self.bytes.clear();
        self.bytes.extend_from_slice(bytes);
    }

    /// What a cut inside the erase of the block at `at` leaves: these bits are 1, the others as they were.
    pub fn raise(&mut self, at: usize, mask: &[u8]) {
        for (byte, raised) in self.bytes[at..at + mask.len()].iter_mut().zip(mask) {
            *byte |= raised;
        }
    }

    pub fn make(&mut self, step: Step) {
        match step {
            Step::Erase { at, len } => {
                self.bytes[at..at + len].fill(0xFF);
                self.erases[at / len] += 1;
            }
            Step::Program { at, byte } => {
                let old = self.bytes[at];
                assert!(byte & !old == 0, "programming {byte:#04x} over {old:#04x} at {at} would set bits");
                self.bytes[at] = byte;
            }
        }
    }
}

#[cfg(test)]
mod tests {
    use super::*;

    #[test]
    fn clears_bits_and_erases() {
        let mut nor = Nor::new(&[0xFF, 0xFE, 0x00, 0x00]);
        nor.make(Step::Program { at: 1, byte: 0xFC });
        nor.make(Step::Erase { at: 2, len: 2 });
        assert_eq!(nor.bytes(), [0xFF, 0xFC, 0xFF, 0xFF]);
        assert_eq!(nor.erases[..3], [0, 1, 0]);
    }

    #[test]
    fn raises_bits_of_one_block() {
        let mut nor = Nor::new(&[0x10, 0x00, 0x01, 0x4A]);
        nor.raise(2, &[0x06, 0xFF]);
        nor.raise(0, &[0x00, 0x01]);
        assert_eq!(nor.bytes(), [0x10, 0x01, 0x07, 0xFF]);
    }

    /// 004's marks, valid 0xEE and then invalid 0xDD: that change sets two bits.
    #[test]
    #[should_panic(expected = "would set bits")]
    fn refuses_to_set_bits() {
        Nor::new(&[0xEE, 0xFF]).make(Step::Program { at: 0, byte: 0xDD });
    }
}
