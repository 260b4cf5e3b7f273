//! What the reader makes of the new kinds: whole, torn, or wrong and where.

use crate::{S, image, journal};
use model::block::{self, Block, HEADER};
use model::edition::Edition::{self, First, Second};
use model::fault;
use model::frame::{self, Body, Host, Id};
use store::Field;

/// What stands behind a frame.
#[derive(PartialEq, Eq, Debug)]
enum Read {
    Whole(Body),
    Torn,
    Wrong(Field, usize),
}
use Read::{Torn, Whole, Wrong};

const LENGTH: Read = Wrong(Field::Length, 0);
const KIND: Read = Wrong(Field::Kind, 2);

/// How `tail` is read behind `before`, places counted from its start; the rest of the block is blank.
fn read(edition: Edition, before: &[u8], tail: &[u8]) -> Read {
    let (image, start) = (image(edition, 1, &[before, tail]), HEADER + before.len());
    if block::read(&image[..S]) == Block::Foreign {
        let (field, place) = fault::of_block(&image[..S]);
        return Wrong(field, place - start);
    }
    let journal = journal(&image);
    match journal.frames.iter().find(|frame| frame.place.start == start) {
        Some(frame) => Whole(frame.body.clone()),
        None => {
            assert!(journal.torn && journal.end == start);
            Torn
        }
    }
}

/// Whether frames of this length can be closed.
fn closable(edition: Edition, length: usize) -> bool {
    match edition {
        First => matches!(length, 5 | 6 | 8..=248),
        Second => matches!(length, 9 | 10 | 12..=252),
    }
}

/// A frame with this length, kind 0, or 0xFF in its high byte, a body and a last byte.
fn zeroed(length: usize, high: u8, body: u8, last: u8) -> Vec<u8> {
    let mut frame = vec![body; length];
    frame[..4].copy_from_slice(&[length as u8, 0, 0, high]);
    frame[length - 1] = last;
    frame
}

#[test]
fn closed_frames_of_every_length() {
    for edition in [First, Second] {
        let commit = frame::commit(edition, Host(0));
        let room = S - HEADER - commit.len();
        for length in 5..=room {
            for body in [0x00, 0x5A, 0xFE, 0xFF] {
                let (whole, torn) =
                    if closable(edition, length) { (Whole(Body::Closed), Torn) } else { (LENGTH, LENGTH) };
                assert_eq!(read(edition, &commit, &zeroed(length, 0, body, 0xFE)), whole, "{length}");
                assert_eq!(read(edition, &commit, &zeroed(length, 0, body, 0xFF)), torn, "{length}");
                let torn = if closable(edition, length) { Torn } else { LENGTH };
                assert_eq!(read(edition, &commit, &zeroed(length, 0xFF, body, 0xFF)), torn, "{length}");
            }
        }
        // one byte too long for the block
        let long = zeroed(room + 1, 0, 0xFF, 0xFF)[..room].to_vec();
        assert_eq!(read(edition, &commit, &long), LENGTH);
    }
}

/// A settled frame's own length is no closed frame's: its kind is wrong where a settled frame may stand, else its length.
#[test]
fn the_length_of_an_empty_settled_frame() {
    for edition in [First, Second] {
        let length = edition.settled();
        let settled = |id| frame::settled(edition, Id(id), b"");
        for last in [0xFE, 0xFF] {
            for high in [0x00, 0xFF] {
                let tail = zeroed(length, high, 0xFF, last);
                for before in [vec![], settled(0), settled(254)] {
                    assert_eq!(read(edition, &before, &tail), KIND);
                }
                let others =
                    [settled(255), frame::abort(edition, Host(0)), frame::reset(edition), frame::closed(12)];
                for before in others {
                    assert_eq!(read(edition, &before, &tail), LENGTH);
                }
            }
        }
        assert_eq!(read(edition, &[], &zeroed(length - 1, 0, 0, 0xFE)), Whole(Body::Closed));
    }
}

#[test]
fn resets() {
    assert_eq!(frame::reset(First), [5, 0, 7, 0, 0xFE]);
    assert_eq!(frame::reset(Second).len(), 9);
    for edition in [First, Second] {
        let reset = frame::reset(edition);
        assert_eq!(read(edition, &[], &reset), Whole(Body::Reset));
        for cut in 1..reset.len() {
            assert_eq!(read(edition, &[], &reset[..cut]), Torn);
        }
        let mut wrong = reset.clone();
        *wrong.last_mut().expect("a finish byte") = 0xFC;
        assert_eq!(read(edition, &[], &wrong), Wrong(Field::Finish, reset.len() - 1));
        // as long as a commit, or a commit as short as it
        let (mut long, mut short) = (frame::commit(edition, Host(0)), reset.clone());
        (long[2], short[2]) = (7, 3);
        assert_eq!(read(edition, &[], &long), KIND);
        assert_eq!(read(edition, &[], &short), KIND);
    }
    let mut wrong = frame::reset(Second);
    wrong[5] ^= 1;
    assert_eq!(read(Second, &[], &wrong), Wrong(Field::Crc, 4));
    assert_eq!(read(Second, &[], &wrong[..6]), Wrong(Field::Crc, 4));
}

/// A frame that is being closed, each of its bytes wrong; and something behind it.
#[test]
fn closed_in_part_and_wrong() {
    for edition in [First, Second] {
        let length = 20;
        let closing = zeroed(length, 0, 0x33, 0xFF);
        let altered = |at: usize, byte: u8| {
            let mut frame = closing.clone();
            frame[at] = byte;
            read(edition, &[], &frame)
        };
        assert_eq!(altered(1, 0xFF), LENGTH);
        assert_eq!(altered(1, 0x01), LENGTH);
        assert_eq!(altered(2, 0xFF), KIND);
        assert_eq!(altered(3, 0x01), KIND);
        assert_eq!(altered(3, 0xFE), KIND);
        assert_eq!(altered(3, 0xFF), Torn);
        assert_eq!(altered(length - 1, 0xFC), Wrong(Field::Finish, length - 1));
        assert_eq!(altered(0, 21), Torn);
        assert_eq!(altered(0, 19), Wrong(Field::Finish, 18));
        let behind = |frame: &[u8]| read(edition, &[], &[frame, &[0xFF, 0x00]].concat());
        assert_eq!(behind(&closing), Wrong(Field::Finish, length - 1));
        assert_eq!(behind(&zeroed(length, 0xFF, 0x33, 0xFF)), KIND);
        assert_eq!(behind(&zeroed(length, 0xFF, 0x33, 0xFE)), KIND);
    }
}

/// No settled frame may follow a closed frame or a reset, and a blank tail may.
#[test]
fn they_end_the_settled_part() {
    for edition in [First, Second] {
        for before in [frame::closed(30), frame::reset(edition)] {
            let settled = frame::settled(edition, Id(3), b"v");
            assert_eq!(read(edition, &before, &settled), KIND);
            assert_eq!(read(edition, &before, &frame::settled(edition, Id(3), b"")), LENGTH);
            assert!(!journal(&image(edition, 1, &[&before])).torn);
            assert_eq!(read(edition, &before, &frame::reset(edition)), Whole(Body::Reset));
        }
    }
}

/// Where no frame fits, what is not blank is wrong at its length.
#[test]
fn too_little_room_for_any() {
    for edition in [First, Second] {
        for room in 1..edition.reset() {
            let filled = S - HEADER - room;
            let before = [frame::closed(filled / 2), frame::closed(filled.div_ceil(2))].concat();
            for byte in [0, 1, 5, 6, 9, 0xFE] {
                assert_eq!(read(edition, &before, &[byte]), LENGTH);
            }
        }
    }
}
