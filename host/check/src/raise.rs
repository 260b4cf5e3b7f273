//! Power lost inside an erase (K4): each bit of the block is then as it was or 1, freely.

use crate::rng::Rng;
use model::block::{HEADER, STATE, TIME};

/// Bits for such a cut to raise, of a block that is being erased.
pub fn mask(rng: &mut Rng, block: &[u8]) -> Vec<u8> {
    let mut mask = vec![0; block.len()];
    match rng.below(10) {
        0 => {}
        1 => mask.fill(0xFF),
        2 => flip(rng, block, &mut mask),
        3 => {
            mask.fill(0xFF);
            flip(rng, block, &mut mask);
        }
        4 => raise(rng, &mut mask[..HEADER]),
        5 => raise(rng, &mut mask[TIME..=STATE]),
        6 => raise(rng, &mut mask[HEADER..]),
        7 => {
            let from = rng.below(block.len());
            mask[from..].fill(0xFF);
        }
        8 => {
            let until = rng.below(block.len());
            mask[..until].fill(0xFF);
        }
        _ => raise(rng, &mut mask),
    }
    mask
}

/// Turns one bit of the mask, of those that can make a difference.
fn flip(rng: &mut Rng, block: &[u8], mask: &mut [u8]) {
    let bits: Vec<(usize, u8)> = zeros(block).collect();
    if !bits.is_empty() {
        let (at, bit) = bits[rng.below(bits.len())];
        mask[at] ^= bit;
    }
}

/// All of the bits, or one in two, eight or sixty-four.
fn raise(rng: &mut Rng, mask: &mut [u8]) {
    let odds = rng.pick(&[1, 2, 8, 64]);
    for byte in mask {
        *byte = (0..8).filter(|_| rng.once_in(odds)).map(|bit| 1 << bit).sum();
    }
}

/// The bits of a block that are 0, each as a place and the bit in its byte.
pub fn zeros(block: &[u8]) -> impl Iterator<Item = (usize, u8)> {
    let bits = |(at, byte): (usize, &u8)| {
        let byte = *byte;
        (0..8).map(move |bit| (at, 1 << bit)).filter(move |(_, bit)| byte & bit == 0)
    };
    block.iter().enumerate().flat_map(bits)
}
