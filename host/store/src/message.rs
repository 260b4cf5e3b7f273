//! The messages hosts send.

pub const PUT: u16 = 0x0101;
pub const DELETE: u16 = 0x0102;
pub const COMMIT: u16 = 0x0103;
pub const ABORT: u16 = 0x0104;
pub const READ: u16 = 0x0105;
pub const LOG: u16 = 0x0106;
pub const CONVERT: u16 = 0x0108;

/// Bytes of log page 1.
pub const PAGE: usize = 14;

pub fn put(id: u8, value: &[u8]) -> Vec<u8> {
    message(PUT, &[&[id, 0], value].concat())
}

pub fn delete(id: u8) -> Vec<u8> {
    message(DELETE, &[id, 0])
}

pub fn commit() -> Vec<u8> {
    message(COMMIT, &[])
}

pub fn abort() -> Vec<u8> {
    message(ABORT, &[])
}

pub fn read(id: u8) -> Vec<u8> {
    message(READ, &[id, 0])
}

pub fn log() -> Vec<u8> {
    message(LOG, &[1])
}

pub fn convert() -> Vec<u8> {
    message(CONVERT, &[])
}

/// A message of any kind and body, with the length that its bytes have.
pub fn message(kind: u16, body: &[u8]) -> Vec<u8> {
    let length = (4 + body.len()) as u16;
    [&length.to_le_bytes()[..], &kind.to_le_bytes(), body].concat()
}

#[cfg(test)]
mod tests {
    use super::*;
    use crate::hex;

    #[test]
    fn as_in_the_bench_rows() {
        assert_eq!(hex::show(&put(5, b"AB")), "0800010105004142");
        assert_eq!(hex::show(&commit()), "04000301");
        assert_eq!(hex::show(&read(5)), "060005010500");
        assert_eq!(hex::show(&log()), "0500060101");
        assert_eq!(hex::show(&convert()), "04000801");
    }
}
