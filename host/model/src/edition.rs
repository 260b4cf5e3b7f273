//! The editions of the format (K9): in the second each frame has a CRC-32 before its finish byte.

#[derive(Clone, Copy, PartialEq, Eq, Debug)]
pub enum Edition {
    First,
    Second,
}

impl Edition {
    pub const ALL: [Edition; 2] = [Edition::First, Edition::Second];

    /// As a record says it.
    pub fn number(self) -> u8 {
        self.either(1, 2)
    }

    /// What a record says, as a read takes it (K8): any number but 2 is the first.
    pub fn numbered(number: u8) -> Edition {
        if number == 2 { Edition::Second } else { Edition::First }
    }

    /// Bytes 0 to 3 of a block's header: length and kind.
    pub fn label(self) -> [u8; 4] {
        self.either([0x10, 0x00, 0x01, 0x4A], [0x10, 0x00, 0x02, 0x4A])
    }

    /// Bytes of a frame's CRC.
    pub fn seal(self) -> usize {
        self.either(0, 4)
    }

    /// Length of a commit or abort frame.
    pub fn mark(self) -> usize {
        self.either(6, 10)
    }

    /// Length of a reset frame (K11).
    pub fn reset(self) -> usize {
        self.either(5, 9)
    }

    /// Length of a delete frame, and of a put frame apart from its value.
    pub fn change(self) -> usize {
        self.either(8, 12)
    }

    /// Length of a settled frame apart from its value.
    pub fn settled(self) -> usize {
        self.either(7, 11)
    }

    /// What a put must leave free: room for a delete and its commit.
    pub fn reserve(self) -> usize {
        self.either(14, 22)
    }

    fn either<T>(self, first: T, second: T) -> T {
        match self {
            Edition::First => first,
            Edition::Second => second,
        }
    }
}

/// CRC-32 of IEEE 802.3, bit by bit: the lowest bit of each byte comes first.
pub fn crc(bytes: &[u8]) -> u32 {
    let bits = bytes.iter().flat_map(|byte| (0..8).map(move |bit| u32::from(byte >> bit & 1)));
    !bits.fold(u32::MAX, |rest, bit| if (rest ^ bit) & 1 == 1 { rest >> 1 ^ 0xEDB8_8320 } else { rest >> 1 })
}

#[cfg(test)]
mod tests {
    use super::*;

    #[test]
    fn the_published_check_value() {
        assert_eq!(crc(b"123456789"), 0xCBF4_3926);
        assert_eq!(crc(b""), 0);
    }
}
