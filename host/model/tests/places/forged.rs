//! Records that nothing handed out: what a read asks of them, and what all other requests do.

use crate::{Desk, NONE, S, STALE, desk};
use model::Model;
use model::edition::Edition::{First, Second};
use model::frame::{self, Host, Id};
use store::{Answer, Idle, Store, message};

/// Object 1 settled at 16, object 2 put at 26 and committed at 37; pending, a delete of object 1 at 43 and a put of object 9
/// at 51, to 63.
fn pending() -> Desk {
    let kept = [frame::settled(First, Id(1), b"one"), frame::put(First, Host(0), Id(2), b"two")];
    let mut desk = desk(First, &[&kept.concat(), &frame::commit(First, Host(0))]);
    desk.does(1, &message::delete(1));
    desk.does(3, &message::put(9, b"nine"));
    assert_eq!((desk.idle().end, desk.idle().pending), (63, [0, 8, 0, 12]));
    assert_eq!(desk.places(), [(1, 16), (2, 26)]);
    desk
}

/// Every request that is no read, malformed ones among them, is refused with 11 and changes nothing. The call that only reads
/// looks at none of that.
fn all_others_stale(desk: &Desk) {
    let mut messages = vec![message::put(1, b"x"), message::delete(1), message::commit(), message::abort()];
    messages.extend([
        message::log(),
        message::convert(),
        message::put(1, &[0; 241]),
        message::message(0x0109, &[]),
    ]);
    messages.extend([vec![], vec![6, 0, 5], vec![5, 0, 3, 1], message::message(0x0500, &[1, 1, 0])]);
    for host in 0..=3 {
        for message in &messages {
            assert_eq!(desk.clone().ask(host, message), Answer::STALE, "{message:?}");
            assert_eq!(desk.answer_to_a_read(host, message), Answer::MALFORMED, "{message:?}");
        }
    }
    assert_eq!(desk.log(), Answer::STALE);
}

impl Desk {
    /// What the call that only reads answers to any message.
    fn answer_to_a_read(&self, host: u8, message: &[u8]) -> Answer {
        Model.read(&self.image, self.blocks, &self.record, host, message).0
    }
}

/// Every place for each of three objects. Only a put or settled frame of that object is one: the delete of object 1 is not,
/// and the pending put of object 9 is. A log request finds all but the right places wrong.
#[test]
fn every_place() {
    let desk = pending();
    let right = [(1, 16, (22, 3)), (2, 26, (33, 3)), (9, 51, (58, 4))];
    for (id, frame, stretch) in right {
        for place in 0..=u16::MAX {
            let forged = desk.forged(|idle| idle.places[usize::from(id)] = place);
            let expected = match place {
                0 => NONE,
                _ if place == frame => Ok(stretch),
                _ => STALE,
            };
            assert_eq!(forged.read(id), expected, "{id} at {place}");
            let log = if forged.idle() == desk.idle() { Answer::DONE } else { Answer::STALE };
            assert_eq!(forged.log(), log, "{id} at {place}");
        }
    }
}

/// One wrong place, of any id, and all others refuse; a read of another id does not look at it.
#[test]
fn one_wrong_place_of_any_id() {
    let desk = pending();
    for id in 0..=255 {
        for wrong in [0, 1, 15, 16, 26, 37, 43, 51, 63, 255, 256, 65_535] {
            let forged = desk.forged(|idle| idle.places[usize::from(id)] = wrong);
            if forged.idle() != desk.idle() {
                all_others_stale(&forged);
            }
            for other in [1, 2, 77].into_iter().filter(|other| *other != id) {
                assert_eq!(forged.read(other), desk.read(other));
            }
        }
    }
}

/// The places of two objects in each other's stead.
#[test]
fn exchanged_places() {
    let forged = pending().forged(|idle| idle.places.swap(1, 2));
    assert_eq!((forged.read(1), forged.read(2)), (STALE, STALE));
    all_others_stale(&forged);
}

/// What a record says beside length, number of blocks, block and places is nothing to a read.
#[test]
fn wrong_end_and_counts() {
    let desk = pending();
    let forgeries: [fn(&mut Idle); 6] = [
        |idle| idle.end = 62,
        |idle| idle.end = 0,
        |idle| idle.end = u16::MAX,
        |idle| idle.pending = [0; 4],
        |idle| idle.pending[2] = u16::MAX,
        |idle| idle.edition = 7,
    ];
    for forge in forgeries {
        let forged = desk.forged(forge);
        assert_eq!((forged.read(1), forged.read(2), forged.read(3)), (Ok((22, 3)), Ok((33, 3)), NONE));
        all_others_stale(&forged);
    }
}

/// A block that isn't there is 11 for an id with a place, and 8 for one without.
#[test]
fn a_block_that_is_not_there() {
    for block in 2..=255 {
        let forged = pending().forged(|idle| idle.block = block);
        assert_eq!((forged.read(1), forged.read(2), forged.read(3)), (STALE, STALE, NONE));
        all_others_stale(&forged);
    }
    let other = pending().forged(|idle| idle.block = 1);
    assert_eq!((other.read(1), other.read(3)), (STALE, NONE), "block 1 is blank");
    all_others_stale(&other);
}

/// The frame at the place in the recorded block is read, whatever that block is and whatever stands in the others.
#[test]
fn a_block_that_is_not_current() {
    let mut desk = pending();
    let put = frame::put(First, Host(3), Id(1), b"other");
    desk.image[S + 16..][..put.len()].copy_from_slice(&put);
    assert_eq!(desk.read(1), Ok((22, 3)));
    all_others_stale(&desk);
    let other = desk.forged(|idle| idle.block = 1);
    assert_eq!((other.read(1), other.read(2)), (Ok((S + 23, 5)), STALE));
    all_others_stale(&other);
}

/// Another length or number of blocks is 11 for every id, with a place or without.
#[test]
fn another_length_or_number_of_blocks() {
    let mut desk = pending();
    desk.image.resize(4 * S, 0xFF);
    let of = |length: usize, blocks: u8| {
        desk.forged(|idle| {
            idle.length = length;
            idle.blocks = blocks;
        })
    };
    let told = |blocks: u8, forged: Desk| Desk { blocks, ..forged };
    assert_eq!((told(4, of(4 * S, 4)).read(1), told(4, of(4 * S, 4)).read(3)), (Ok((22, 3)), NONE));
    assert_eq!(told(2, of(4 * S, 2)).read(1), Ok((22, 3)));
    let wrong = [(2, 2 * S, 2), (2, 4 * S, 4), (4, 4 * S, 2), (4, 3 * S, 4), (4, 4 * S - 1, 4), (4, 1, 4)];
    for (blocks, length, recorded) in wrong.into_iter().chain([(4, 4 * S, 0), (4, 4 * S, 255), (4, 65_536, 4)]) {
        let forged = told(blocks, of(length, recorded));
        assert_eq!((forged.read(1), forged.read(3)), (STALE, STALE), "{length} bytes, {recorded} blocks");
        all_others_stale(&forged);
    }
}

/// The record says by which edition a frame is read; any number but 2 is edition 1. By that a frame of edition 2 is one too,
/// and the CRC belongs to its value.
#[test]
fn another_edition_than_the_headers() {
    let second = desk(Second, &[&frame::settled(Second, Id(1), b"one")]);
    assert_eq!(second.read(1), Ok((22, 3)));
    let first = desk(First, &[&frame::settled(First, Id(1), b"one")]);
    assert_eq!(first.forged(|idle| idle.edition = 2).read(1), STALE, "no CRC there");
    for edition in (0..=255).filter(|edition| *edition != 2) {
        let forged = second.forged(|idle| idle.edition = edition);
        assert_eq!(forged.read(1), Ok((22, 7)));
        all_others_stale(&forged);
        assert_eq!(first.forged(|idle| idle.edition = edition).read(1), Ok((22, 3)));
    }
}

/// The header may say the other edition, or nothing: reads go on by the record's.
#[test]
fn another_header_than_the_records() {
    for edition in [First, Second] {
        let desk = desk(edition, &[&frame::settled(edition, Id(1), b"one")]);
        for byte in 0..16 {
            for value in [0x00, 0x01, 0x02, 0xFC, 0xFE, 0xFF] {
                let mut altered = desk.clone();
                altered.image[byte] = value;
                assert_eq!(altered.read(1), Ok((22, 3)));
            }
        }
        let mut other = desk.clone();
        other.image[2] ^= 3;
        assert_eq!(other.read(1), Ok((22, 3)));
        all_others_stale(&other);
    }
}
