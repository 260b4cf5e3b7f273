//! K11: closed frames and resets in journals that a store left and in others: what they mean, which of them are torn, and where
//! they are wrong.

use super::convert::{done, filled, header, idle, serve};
use super::second;
use check::fault::agreed;
use check::rng::Rng;
use check::twin::{Call, Twin};
use model::edition::Edition::{self, First, Second};
use model::frame::{self, Host, Id};
use store::{Answer, Fault, Field, Idle, message};

/// Blocks with room for any frame between others.
const S: usize = 512;

fn image(edition: Edition, frames: &[&[u8]]) -> Vec<u8> {
    [filled(&[&header(edition.number(), 1), &frames.concat()], S), vec![0xFF; S]].concat()
}

/// Whether frames of this length may be closed, by the paper: those of kinds 1 to 4 and 7.
fn closable(edition: Edition, length: usize) -> bool {
    match edition {
        First => matches!(length, 5 | 6 | 8..=248),
        Second => matches!(length, 9 | 10 | 12..=252),
    }
}

/// A frame of this length with kind 0, of which the high byte is this, any body, and this finish byte.
fn zeroed(length: usize, high: u8, body: u8, finish: u8) -> Vec<u8> {
    let mut frame = vec![body; length];
    frame[..4].copy_from_slice(&[length as u8, 0, 0, high]);
    frame[length - 1] = finish;
    frame
}

/// What a mount says of these frames: nothing if it is accepted, or the field and its place, counted from the header's end.
fn broke(edition: Edition, frames: &[&[u8]]) -> Option<(Field, usize)> {
    match agreed(&image(edition, frames), 2) {
        (Answer::DONE, None) => None,
        (Answer::FOREIGN, Some(Fault { block: 0, field, place })) => Some((field, place - 16)),
        other => panic!("{other:?}"),
    }
}

/// A put, a closed frame of each length and of any body, and the put's commit: as if the closed frame were not there.
#[test]
fn in_the_middle_of_a_journal() {
    let mut rng = Rng::new(11);
    for edition in Edition::ALL {
        let (put, commit) = (frame::put(edition, Host(2), Id(5), b"AB"), frame::commit(edition, Host(2)));
        for length in (0..=255).filter(|length| closable(edition, *length)) {
            for body in [0x00, 0xFE, 0xFF, rng.byte()] {
                let closed = zeroed(length, 0, body, 0xFE);
                let mut board = Twin::new(&image(edition, &[&put, &closed, &commit]));
                assert_eq!(board.whole(&Call::Mount), done(0), "{closed:?}");
                assert_eq!((board.ids(), board.value(5)), (vec![5], Some(b"AB".to_vec())));
                let end = 16 + put.len() + length + commit.len();
                assert_eq!((usize::from(idle(&board).end), idle(&board).pending), (end, [0; 4]));
                assert_eq!(board.log()[10..12], [(16 + edition.settled() + 2) as u8, 0]);
            }
        }
    }
}

/// In edition 2 the CRC of a closed frame is ignored as its body is, and so is one that is right.
#[test]
fn with_any_crc() {
    let mut right = zeroed(12, 0, 0x33, 0xFE);
    let crc = model::edition::crc(&right[..7]).to_le_bytes();
    right[7..11].copy_from_slice(&crc);
    for closed in [&right[..], &second::CLOSED, &zeroed(12, 0, 0, 0xFE)] {
        assert_eq!(broke(Second, &[closed]), None);
        assert_eq!(broke(Second, &[closed, &second::PUT, closed, &second::COMMIT, closed]), None);
    }
    // a frame of another kind has its CRC still
    let mut put = second::PUT;
    put[9] ^= 1;
    assert_eq!(broke(Second, &[&second::CLOSED, &put]), Some((Field::Crc, 12 + 9)));
}

/// Length 7, in edition 2 11, is a settled frame's alone: with kind 0 it is wrong at its kind where a settled frame may stand, else
/// at its length; whole, and as if it were being closed.
#[test]
fn the_length_that_is_a_settled_frames_alone() {
    for edition in Edition::ALL {
        let settled = |id: u8| frame::settled(edition, Id(id), b"");
        let (kind, length) = (Some((Field::Kind, 2)), Some((Field::Length, 0)));
        let behind = |before: &[u8], frame: &[u8]| {
            broke(edition, &[before, frame]).map(|(field, place)| (field, place - before.len()))
        };
        for (high, finish) in [(0, 0xFE), (0, 0xFF), (0xFF, 0xFF), (0xFF, 0xFE)] {
            let frame = zeroed(edition.settled(), high, 0xFF, finish);
            for before in [vec![], settled(0), settled(254)] {
                assert_eq!(behind(&before, &frame), kind);
            }
            for before in [settled(255), frame::commit(edition, Host(0)), frame::reset(edition), frame::closed(20)]
            {
                assert_eq!(behind(&before, &frame), length);
            }
        }
    }
}

/// Each length with kind bytes 00 00 and 00 FF, any body and no finish byte: torn, whatever the body is, if it may be closed and
/// fits; then its kind's high byte and its finish byte are programmed, and the body stays.
#[test]
fn being_closed() {
    for edition in Edition::ALL {
        let commit = frame::commit(edition, Host(0));
        for (length, body) in (4..=255).flat_map(|length| [0x00, 0x5A, 0xFE, 0xFF].map(|body| (length, body))) {
            for (high, closes) in [(0x00, 1), (0xFF, 2)] {
                let mut torn = zeroed(length.max(5), high, body, 0xFF);
                torn[0] = length as u8;
                let mut board = Twin::new(&image(edition, &[&commit, &torn]));
                let expected = if closable(edition, length) { done(closes) } else { (Answer::FOREIGN, 0) };
                assert_eq!(board.whole(&Call::Mount), expected, "{torn:?}");
                if expected.0 == Answer::DONE {
                    let closed = zeroed(length, 0, body, 0xFE);
                    assert_eq!(board.image(), image(edition, &[&commit, &closed]));
                    assert_eq!(usize::from(idle(&board).end), 16 + commit.len() + length);
                }
            }
        }
    }
}

/// At the block's end: with just enough room, and with one byte less, where its length is wrong.
#[test]
fn being_closed_at_the_end() {
    for edition in Edition::ALL {
        for length in (0..=255).filter(|length| closable(edition, *length)) {
            for (spare, high) in [(0, 0x00), (0, 0xFF), (1, 0x00), (1, 0xFF)] {
                let before = filler(edition, S - 16 - length + spare);
                let torn = zeroed(length, high, 0x11, 0xFF)[..length - spare].to_vec();
                let expected = (spare > 0).then_some((Field::Length, before.len()));
                assert_eq!(broke(edition, &[&before, &torn]), expected, "{length} bytes");
            }
        }
    }
}

/// Closed frames of so many bytes in all.
fn filler(edition: Edition, bytes: usize) -> Vec<u8> {
    let (first, second) = (bytes / 2, bytes.div_ceil(2));
    assert!(closable(edition, first) && closable(edition, second));
    [frame::closed(first), frame::closed(second)].concat()
}

/// A frame that was being closed, wrong in each of its fields, or with something behind it.
#[test]
fn being_closed_and_wrong() {
    for edition in Edition::ALL {
        for (high, at, byte, expected) in [
            (0x00, 0, 253, Some((Field::Length, 0))),
            (0x00, 1, 0xFF, Some((Field::Length, 0))),
            (0x00, 1, 0x01, Some((Field::Length, 0))),
            (0x00, 2, 0x80, Some((Field::Kind, 2))),
            (0x00, 2, 0x06, Some((Field::Kind, 2))),
            (0x00, 3, 0x01, Some((Field::Kind, 2))),
            (0x00, 3, 0xFE, Some((Field::Kind, 2))),
            (0x00, 19, 0xFC, Some((Field::Finish, 19))),
            (0x00, 19, 0x00, Some((Field::Finish, 19))),
            (0x00, 25, 0x7F, Some((Field::Finish, 19))),
            (0xFF, 19, 0xFE, Some((Field::Kind, 2))),
            (0xFF, 25, 0x7F, Some((Field::Kind, 2))),
            (0x00, 10, 0x77, None),
            (0xFF, 10, 0x77, None),
        ] {
            let mut torn = zeroed(20, high, 0x33, 0xFF);
            torn.resize(30, 0xFF);
            torn[at] = byte;
            assert_eq!(broke(edition, &[&torn]), expected, "byte {at} is {byte:#04x}");
        }
    }
}

/// They end the settled part, as other frames do.
#[test]
fn settled_frames_behind_them() {
    for edition in Edition::ALL {
        let settled = |id: u8, value: &[u8]| frame::settled(edition, Id(id), value);
        for before in [frame::closed(30), frame::reset(edition)] {
            let n = before.len();
            assert_eq!(broke(edition, &[&before, &settled(3, b"v")]), Some((Field::Kind, n + 2)));
            assert_eq!(broke(edition, &[&before, &settled(3, b"")]), Some((Field::Length, n)));
            let first = settled(3, b"v");
            assert_eq!(broke(edition, &[&first, &before]), None);
            assert_eq!(
                broke(edition, &[&first, &before, &settled(4, b"v")]),
                Some((Field::Kind, first.len() + n + 2))
            );
        }
    }
}

/// A reset drops what all hosts have pending, of a journal that no store left too; what is put after it is pending again.
#[test]
fn a_reset_is_for_all_hosts() {
    for edition in Edition::ALL {
        let change = |host: u8, id: u8| frame::put(edition, Host(host), Id(id), b"x");
        let marks = (0..4).flat_map(|host| frame::commit(edition, Host(host))).collect::<Vec<u8>>();
        let before: Vec<u8> = [3, 0, 2, 1].iter().flat_map(|host| change(*host, 10 + host)).collect();
        let reset = frame::reset(edition);
        let after = change(2, 22);
        for (frames, ids) in [
            (vec![&before[..], &marks], vec![10, 11, 12, 13]),
            (vec![&before, &reset, &marks], vec![]),
            (vec![&reset, &before, &reset, &reset, &after, &marks], vec![22]),
            (vec![&before, &reset, &after, &reset, &marks], vec![]),
        ] {
            let mut board = Twin::new(&image(edition, &frames));
            assert_eq!(board.whole(&Call::Mount), done(0));
            assert_eq!(board.ids(), ids);
        }
        let frames = image(edition, &[&before, &reset, &after]);
        let end = (16 + before.len() + reset.len() + after.len()) as u16;
        let right = Idle {
            length: 2 * S,
            block: 0,
            end,
            blocks: 2,
            edition: edition.number(),
            pending: [0, 0, after.len() as u16, 0],
            places: [0; 256],
        };
        let mut board = Twin::new(&frames);
        board.forge(Idle { pending: [after.len() as u16; 4], ..right });
        assert_eq!(board.ask(0, &message::log()), Answer::STALE);
        board.forge(right);
        serve(&mut board, 2, &message::commit());
        assert_eq!(board.ids(), [22]);
    }
}

/// The bytes of a reset: every change of one of them, and its length where another is due.
#[test]
fn resets_that_are_wrong() {
    for (edition, reset) in [(First, &[5, 0, 7, 0, 0xFE][..]), (Second, &second::RESET)] {
        assert_eq!(frame::reset(edition), reset);
        let last = reset.len() - 1;
        for (at, byte) in (0..=last).flat_map(|at| (0..=255).map(move |byte| (at, byte))) {
            let mut frame = reset.to_vec();
            frame[at] = byte;
            let wrong = broke(edition, &[&frame, &[0]]).map(|(field, place)| (field, place.min(last)));
            let expected = match at {
                // whole, and the byte behind it is wrong
                _ if byte == reset[at] => (Field::Length, last),
                2 if byte == 0 => (Field::Length, last),
                0 if closable(edition, byte.into()) => (Field::Kind, 2),
                0 if usize::from(byte) == edition.settled() => (Field::Kind, 2),
                0 | 1 => (Field::Length, 0),
                2 | 3 => (Field::Kind, 2),
                _ if at < last => (Field::Crc, 4),
                _ => (Field::Finish, last),
            };
            assert_eq!(wrong, Some(expected), "byte {at} is {byte}");
        }
    }
}
