//! What a frame at a recorded place must be, and that no byte beside it is looked at.

use crate::{Desk, S, STALE};
use model::Model;
use model::edition::Edition::{self, First, Second};
use model::frame::{self, Host, Id};
use store::{Idle, Store};

/// An image of two blocks that is noise but for these bytes at a place of block 0, under a record with that place for
/// object 5. No finish byte is in the noise.
fn noise(edition: Edition, size: usize, place: usize, bytes: &[u8]) -> Desk {
    let mut image: Vec<u8> = (0..2 * size).map(|at| (at * 37 + at / 256 * 11) as u8 | 1).collect();
    let room = (image.len() - place).min(bytes.len());
    image[place..place + room].copy_from_slice(&bytes[..room]);
    let mut places = [0; 256];
    places[5] = place as u16;
    let idle = Idle {
        length: image.len(),
        block: 0,
        end: 0,
        blocks: 2,
        edition: edition.number(),
        pending: [9; 4],
        places,
    };
    Desk { image, blocks: 2, record: Model.idle(idle) }
}

fn read(edition: Edition, bytes: &[u8]) -> Result<(usize, usize), u8> {
    noise(edition, 512, 100, bytes).read(5)
}

#[test]
fn puts_and_settled_frames_of_every_length() {
    for edition in [First, Second] {
        for size in 0..=240 {
            let value = vec![0xFF; size];
            for host in 0..=3 {
                assert_eq!(read(edition, &frame::put(edition, Host(host), Id(5), &value)), Ok((107, size)));
            }
            assert_eq!(read(edition, &frame::settled(edition, Id(5), &value)), Ok((106, size)));
        }
    }
}

/// Values of 241 bytes, by length and CRC as they would be.
#[test]
fn values_that_are_too_long() {
    for edition in [First, Second] {
        let value = [0; 241];
        assert_eq!(read(edition, &frame::put(edition, Host(0), Id(5), &value)), STALE);
        assert_eq!(read(edition, &frame::settled(edition, Id(5), &value)), STALE);
        // of edition 2, read by edition 1: 237 bytes and a CRC are too long too
        assert_eq!(read(First, &frame::settled(Second, Id(5), &value[..237])), STALE);
        assert_eq!(read(First, &frame::settled(Second, Id(5), &value[..236])), Ok((106, 240)));
    }
}

#[test]
fn frames_that_hold_no_value_of_it() {
    for edition in [First, Second] {
        let others = [
            frame::delete(edition, Host(0), Id(5)),
            frame::commit(edition, Host(5)),
            frame::commit(edition, Host(0)),
            frame::abort(edition, Host(0)),
            frame::reset(edition),
            frame::closed(20),
            frame::put(edition, Host(0), Id(6), b"value"),
            frame::settled(edition, Id(4), b"value"),
            frame::put(edition, Host(4), Id(5), b"value"),
            vec![0xFF; 300],
            vec![0x00; 300],
        ];
        for frame in others {
            assert_eq!(read(edition, &frame), STALE, "{frame:?}");
        }
    }
}

/// Each byte of a frame, changed to every other: in edition 1 only the value's bytes may be any and the host up to 3, in
/// edition 2 the CRC is then wrong.
#[test]
fn frames_with_one_byte_changed() {
    for edition in [First, Second] {
        let frames = [frame::put(edition, Host(2), Id(5), b"value"), frame::settled(edition, Id(5), b"value")];
        for (frame, (front, host)) in frames.into_iter().zip([(7, Some(4)), (6, None)]) {
            for at in 0..frame.len() {
                for byte in (0..=255).filter(|byte| *byte != frame[at]) {
                    let mut altered = frame.clone();
                    altered[at] = byte;
                    let free = (front..front + 5).contains(&at) || (host == Some(at) && byte <= 3);
                    let expected = if free && edition == First { Ok((100 + front, 5)) } else { STALE };
                    assert_eq!(read(edition, &altered), expected, "byte {at} is {byte}");
                }
            }
        }
    }
}

/// Its place among other frames is not asked: the noise around it is no journal, and a settled frame behind a commit is one.
#[test]
fn settled_frames_anywhere() {
    for edition in [First, Second] {
        let settled = |id| frame::settled(edition, Id(id), b"value");
        let before = [settled(200), frame::commit(edition, Host(0))].concat();
        let mut desk = noise(edition, 512, 100, &settled(5));
        desk.image[100 - before.len()..100].copy_from_slice(&before);
        assert_eq!(desk.read(5), Ok((106, 5)));
    }
}

/// All other bytes of the image, each changed, leave the read as it is.
#[test]
fn no_other_byte_is_looked_at() {
    for edition in [First, Second] {
        let put = frame::put(edition, Host(1), Id(5), b"value");
        let desk = noise(edition, S, 100, &put);
        for at in (0..2 * S).filter(|at| !(100..100 + put.len()).contains(at)) {
            for mask in [0x01, 0x80, 0xFF] {
                let mut altered = desk.clone();
                altered.image[at] ^= mask;
                assert_eq!(altered.read(5), Ok((107, 5)));
            }
        }
    }
}

/// Places 1 to 15 lie in the header, which is read as a frame would be.
#[test]
fn places_in_the_header() {
    for edition in [First, Second] {
        let frames = [frame::put(edition, Host(1), Id(5), b"value"), frame::settled(edition, Id(5), b"")];
        for (frame, (front, size)) in frames.iter().zip([(7, 5), (6, 0)]) {
            for place in 1..16 {
                assert_eq!(noise(edition, S, place, frame).read(5), Ok((place + front, size)));
            }
        }
        assert_eq!(noise(edition, S, 0, &frames[0]).read(5), Err(8), "place 0 is none");
        let header = [&edition.label()[..], &[0xFE, 0xFF, 0xFF, 0xFF, 0xFC], &[0xFF; 7]].concat();
        for place in 1..16 {
            let mut desk = noise(edition, S, place, &[]);
            desk.image[..16].copy_from_slice(&header);
            assert_eq!(desk.read(5), STALE);
        }
    }
}

/// A frame may end with the block and must not run past it, though the next block has its last bytes.
#[test]
fn frames_at_the_end_of_a_block() {
    for edition in [First, Second] {
        let frames = [frame::put(edition, Host(1), Id(5), b"value"), frame::settled(edition, Id(5), b"")];
        for (frame, (front, size)) in frames.iter().zip([(7, 5), (6, 0)]) {
            let last = S - frame.len();
            assert_eq!(noise(edition, S, last, frame).read(5), Ok((last + front, size)));
            for place in last + 1..2 * S {
                assert_eq!(noise(edition, S, place, frame).read(5), STALE, "at {place}");
            }
        }
    }
}

/// In the last block there is nothing behind the end.
#[test]
fn frames_at_the_end_of_the_image() {
    for edition in [First, Second] {
        let frame = frame::settled(edition, Id(5), b"value");
        for place in S - frame.len() - 1..S {
            let mut desk = noise(edition, S, S + place, &frame);
            desk = desk.forged(|idle| {
                idle.block = 1;
                idle.places[5] = place as u16;
            });
            let expected = if place + frame.len() <= S { Ok((S + place + 6, 5)) } else { STALE };
            assert_eq!(desk.read(5), expected);
        }
        for place in [S, S + 1, 2 * S, 65_534, 65_535] {
            let desk = noise(edition, S, 100, &frame).forged(|idle| {
                idle.block = 1;
                idle.places[5] = place as u16;
            });
            assert_eq!(desk.read(5), STALE);
        }
    }
}
