//! Blank and almost blank: tails of every length modulo 8, the other block, a whole image, each with any one bit cleared.

use check::twin::{Call, Twin};
use model::block::HEADER;
use model::edition::Edition;
use model::frame::{self, Id};
use std::ops::Range;
use store::{Answer, message};

const LENGTH: usize = 512;
const S: usize = LENGTH / 2;

/// Clears each bit of these bytes in turn. None of them may pass for blank: a mount finds work or refuses, and a record of the
/// image as it was is stale.
fn each_bit(twin: &mut Twin, image: &[u8], places: Range<usize>) {
    let idle = twin.idle().expect("idle");
    for (at, bit) in places.flat_map(|at| (0..8).map(move |bit| (at, bit))) {
        let mut changed = image.to_vec();
        changed[at] &= !(1 << bit);
        twin.load(&changed);
        assert_ne!(twin.call(&Call::Mount).answer, Answer::DONE, "byte {at}, bit {bit}");
        twin.forge(idle);
        assert_eq!(twin.ask(0, &message::log()), Answer::STALE, "byte {at}, bit {bit}");
    }
}

/// A block with one settled object of `size` bytes, beside a blank one.
fn settled(size: usize) -> (Vec<u8>, usize) {
    let mut image = Twin::formatted(LENGTH).image()[..HEADER].to_vec();
    image.extend(frame::settled(Edition::First, Id(1), &vec![0; size]));
    let end = image.len();
    image.resize(LENGTH, 0xFF);
    (image, end)
}

#[test]
fn tails_of_every_length_modulo_eight() {
    for size in 0..8 {
        let (image, end) = settled(size);
        let mut twin = Twin::new(&image);
        assert_eq!(twin.whole(&Call::Mount), (Answer::DONE, 0));
        each_bit(&mut twin, &image, end..S);
    }
}

#[test]
fn the_other_block() {
    let (image, _) = settled(3);
    let mut twin = Twin::new(&image);
    assert_eq!(twin.whole(&Call::Mount), (Answer::DONE, 0));
    each_bit(&mut twin, &image, S..LENGTH);
}

#[test]
fn a_whole_image() {
    let mut twin = Twin::blank(LENGTH);
    assert_eq!(twin.call(&Call::Mount).answer, Answer::NO_STORE);
    for at in 0..LENGTH {
        for bit in 0..8 {
            let mut changed = vec![0xFF; LENGTH];
            changed[at] &= !(1 << bit);
            twin.load(&changed);
            assert!(twin.call(&Call::Mount).answer.refused());
        }
    }
    assert_eq!(twin.tally.of("mount", Answer::NO_STORE), 3, "blank, and each block in progress");
}
