//! K5: which block is named, and which field of its header; the other answers of a mount.

use super::fault::{COMMIT, HEADER, PUT, SETTLED, blank, block, with};
use check::fault::agreed;
use check::twin::{Call, Twin};
use store::{Answer, Fault, Field};

/// What is said of an image whose blocks are these.
fn of_blocks(blocks: [&[u8]; 2]) -> (Answer, Option<Fault>) {
    agreed(&blocks.concat(), 2)
}

fn foreign(block: usize, field: Field, place: usize) -> (Answer, Option<Fault>) {
    (Answer::FOREIGN, Some(Fault { block, field, place }))
}

/// Fields in address order, each named at its own start, the rest always at 9.
#[test]
fn each_field_of_the_header() {
    let whole = block(&[&HEADER, &PUT, &COMMIT]);
    for (at, right) in HEADER.into_iter().enumerate() {
        let (field, place) = match at {
            0..2 => (Field::Length, 0),
            2..4 => (Field::Kind, 2),
            4..8 => (Field::Time, 4),
            8 => (Field::State, 8),
            _ => (Field::Rest, 9),
        };
        for byte in 0..=255 {
            let damaged = with(&whole, at, byte);
            let expected = match (at, byte) {
                _ if byte == right => (Answer::DONE, None),
                (8, 0xFE) => (Answer::NO_STORE, None),
                (4, 0xFF) => foreign(0, Field::Time, 4),
                (4..8, _) => (Answer::DONE, None),
                // a header of edition 2, in which a put has 12 bytes or more
                (2, 2) => foreign(0, Field::Kind, 18),
                _ => foreign(0, field, place),
            };
            assert_eq!(of_blocks([&damaged, &blank()]), expected, "byte {at} is {byte:#04x}");
        }
    }
}

/// Of several bad fields the first is named: a time never programmed goes before the state byte, both before the rest.
#[test]
fn several_fields_of_the_header() {
    let whole = block(&[&HEADER, &PUT, &with(&COMMIT, 4, 9)]);
    let bad = [(0, 17, Field::Length), (2, 3, Field::Kind), (4, 0xFF, Field::Time), (8, 0xF0, Field::State)];
    let bad = [&bad[..], &[(9, 0, Field::Rest)]].concat();
    for first in 0..bad.len() {
        let (place, _, field) = bad[first];
        let damaged = bad[first..].iter().fold(whole.clone(), |block, (at, byte, _)| with(&block, *at, *byte));
        assert_eq!(of_blocks([&damaged, &blank()]), foreign(0, field, place));
    }
    assert_eq!(of_blocks([&whole, &blank()]), foreign(0, Field::Host, 30));
    for state in [0x00, 0xF8, 0xFD, 0xFF] {
        let without_time = with(&with(&whole, 4, 0xFF), 8, state);
        assert_eq!(of_blocks([&without_time, &blank()]), foreign(0, Field::Time, 4));
        assert_eq!(of_blocks([&with(&whole, 8, state), &blank()]), foreign(0, Field::State, 8));
    }
    // nothing but one byte programmed somewhere: the length was never programmed
    assert_eq!(of_blocks([&blank(), &with(&blank(), 100, 0)]), foreign(1, Field::Length, 0));
}

/// Block 0 is named before block 1; a block that is blank or in progress has no fault.
#[test]
fn which_block_is_named() {
    let (host, rest) = (block(&[&HEADER, &with(&COMMIT, 4, 9)]), block(&[&with(&HEADER, 15, 0)]));
    assert_eq!(of_blocks([&host, &rest]), foreign(0, Field::Host, 20));
    assert_eq!(of_blocks([&rest, &host]), foreign(0, Field::Rest, 9));
    for other in [blank(), with(&host, 8, 0xFE)] {
        assert_eq!(of_blocks([&host, &other]), foreign(0, Field::Host, 20));
        assert_eq!(of_blocks([&other, &rest]), foreign(1, Field::Rest, 9));
        assert_eq!(of_blocks([&other, &other]), (Answer::NO_STORE, None));
    }
    // K4: beside a valid block a foreign one is erased
    let valid = block(&[&HEADER, &SETTLED]);
    for blocks in [[&valid[..], &host], [&host, &valid]] {
        assert_eq!(of_blocks(blocks), (Answer::DONE, None));
        let mut twin = Twin::new(&blocks.concat());
        assert_eq!(twin.whole(&Call::Mount), (Answer::DONE, 1));
        assert_eq!(twin.fault(), (Answer::DONE, None));
    }
}

#[test]
fn equal_times() {
    let [one, other] = [block(&[&HEADER, &SETTLED]), block(&[&HEADER, &PUT[..4]])];
    for blocks in [[&one[..], &other], [&other, &one], [&one, &one]] {
        assert_eq!(of_blocks(blocks), foreign(0, Field::Time, 4));
    }
    assert_eq!(of_blocks([&one, &with(&other, 4, 0xFD)]), (Answer::DONE, None));
}

/// The other refusals of a mount, in their order, and accepted ones: no block, field or place.
#[test]
fn other_answers() {
    for length in [0, 1, 256, 511, 513, 65_792] {
        assert_eq!(agreed(&vec![0; length], 2), (Answer::IMAGE_LENGTH, None));
    }
    for length in [512, 768, 65_536] {
        assert_eq!(agreed(&vec![0xFF; length], 2), (Answer::NO_STORE, None));
        assert_eq!(agreed(&vec![0; length], 2), foreign(0, Field::Length, 0));
    }
    let last = |frames: &[u8]| block(&[b"\x10\0\x01\x4A\0\0\0\0", &HEADER[8..], frames]);
    // a reset behind the put ends at 31; behind it and a frame that is torn after its length, at 256 or one more
    assert_eq!(of_blocks([&last(&PUT), &blank()]), (Answer::DONE, None));
    assert_eq!(of_blocks([&last(&PUT[..1]), &blank()]), (Answer::DONE, None));
    assert_eq!(of_blocks([&last(&[&PUT[..], &[225]].concat()), &blank()]), (Answer::DONE, None));
    assert_eq!(of_blocks([&last(&[&PUT[..], &[226]].concat()), &blank()]), (Answer::WORN, None));
    assert_eq!(of_blocks([&blank(), &last(&SETTLED)]), (Answer::DONE, None));
    assert_eq!(of_blocks([&last(&with(&PUT, 4, 4)), &blank()]), foreign(0, Field::Host, 20));
}
