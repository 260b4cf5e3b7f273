//! CRC-32 of IEEE 802.3, a byte at a time.

static TABLE: [u32; 256] = table();

const fn table() -> [u32; 256] {
    let mut table = [0; 256];
    let mut byte = 0;
    while byte < 256 {
        table[byte] = entry(byte as u32);
        byte += 1;
    }
    table
}

const fn entry(byte: u32) -> u32 {
    let mut entry = byte;
    let mut bit = 0;
    while bit < 8 {
        entry = if entry & 1 == 0 { entry >> 1 } else { entry >> 1 ^ 0xEDB8_8320 };
        bit += 1;
    }
    entry
}

/// The four bytes as a frame has them.
pub fn crc(bytes: &[u8]) -> [u8; 4] {
    let mut sum = u32::MAX;
    for byte in bytes {
        sum = TABLE[usize::from(sum as u8 ^ byte)] ^ sum >> 8;
    }
    (!sum).to_le_bytes()
}

#[cfg(test)]
mod tests {
    use super::*;

    #[test]
    fn the_published_check_value() {
        assert_eq!(crc(b"123456789"), 0xCBF4_3926_u32.to_le_bytes());
        assert_eq!(crc(b""), [0; 4]);
    }
}
