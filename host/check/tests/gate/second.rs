//! K9: a store of edition 2: its frames, its room, its transfers. The CRCs spelt out here are zlib's.

use super::convert::{done, filled, formatted, header, idle, second, serve, settle};
use check::twin::{Call, Twin};
use model::edition::Edition::Second;
use model::frame::{self, Id};
use store::{Answer, Fault, Field, Idle, message, places};

const LENGTH: usize = 512;
const S: usize = LENGTH / 2;

pub const PUT: [u8; 14] = [14, 0, 1, 0, 2, 5, 0, 0x41, 0x42, 0x22, 0x39, 0x12, 0xB4, 0xFE];
pub const DELETE: [u8; 12] = [12, 0, 2, 0, 1, 5, 0, 0x18, 0x78, 0xB9, 0x5C, 0xFE];
pub const COMMIT: [u8; 10] = [10, 0, 3, 0, 2, 0xC9, 0x30, 0xDA, 0x60, 0xFE];
pub const ABORT: [u8; 10] = [10, 0, 4, 0, 2, 0x4C, 0x26, 0x95, 0x65, 0xFE];
pub const SETTLED: [u8; 13] = [13, 0, 5, 0, 5, 0, 0x41, 0x42, 0xC1, 0xF5, 0x84, 0xE8, 0xFE];
pub const EMPTY: [u8; 11] = [11, 0, 5, 0, 6, 0, 0xD4, 0x06, 0x81, 0xBA, 0xFE];
pub const RESET: [u8; 9] = [9, 0, 7, 0, 0x51, 0x06, 0x0D, 0x13, 0xFE];
/// A delete that was torn in its CRC, and closed.
pub const CLOSED: [u8; 12] = [12, 0, 0, 0, 1, 5, 0, 0x18, 0x78, 0xFF, 0xFF, 0xFE];

/// An image of these frames in edition 2, at time 1, beside a blank block.
pub fn image_of(frames: &[&[u8]]) -> Vec<u8> {
    [filled(&[&header(2, 1), &frames.concat()], S), filled(&[], S)].concat()
}

fn with(frame: &[u8], at: usize, byte: u8) -> Vec<u8> {
    let mut frame = frame.to_vec();
    frame[at] = byte;
    frame
}

/// Where a mount says that frames behind the header broke, counted from the header's end; nothing if it is accepted.
fn broke(frames: &[&[u8]]) -> Option<(Field, usize)> {
    match Twin::new(&image_of(frames)).fault() {
        (Answer::FOREIGN, Some(Fault { block: 0, field, place })) => Some((field, place - 16)),
        (Answer::DONE, None) => None,
        other => panic!("{other:?}"),
    }
}

/// The rows b and c of document 01 in edition 2: the same changes, longer frames.
#[test]
fn frames_byte_for_byte() {
    let mut board = second(LENGTH);
    assert_eq!(board.serve(2, &message::put(5, b"AB")), done(14));
    assert_eq!(idle(&board).pending, [0, 0, 14, 0]);
    assert_eq!(board.serve(2, &message::commit()), done(10));
    assert_eq!(board.serve(1, &message::delete(5)), done(12));
    assert_eq!(board.serve(2, &message::put(5, b"AB")), done(14));
    assert_eq!(board.serve(2, &message::abort()), done(10));
    let frames = [&header(2, 2)[..], &PUT, &COMMIT, &DELETE, &PUT, &ABORT];
    assert_eq!(board.image(), [filled(&[], S), filled(&frames, S)].concat());
    assert_eq!((idle(&board).end, idle(&board).pending), (76, [0, 12, 0, 0]));
    assert_eq!(board.value(5), Some(b"AB".to_vec()));
}

/// A mount drops what is pending by a reset, or where that does not fit by a transfer into edition 2; a put's transfer takes
/// what is pending over as it stands.
#[test]
fn transfers_keep_the_edition() {
    let mut board = Twin::new(&image_of(&[&SETTLED, &EMPTY, &DELETE]));
    assert_eq!(board.whole(&Call::Mount), done(9));
    assert_eq!(board.image(), image_of(&[&SETTLED, &EMPTY, &DELETE, &RESET]));

    // 16 + 13 + 11 + 12 + 196 is 248, with a reset 257
    let mut board = Twin::new(&image_of(&[&SETTLED, &EMPTY, &DELETE, &frame::closed(196)]));
    assert_eq!(board.whole(&Call::Mount), done(16 + 13 + 11 - 5));
    assert_eq!(board.image(), [filled(&[], S), filled(&[&header(2, 2), &SETTLED, &EMPTY], S)].concat());

    let mut board = second(LENGTH);
    serve(&mut board, 1, &message::delete(5));
    while usize::from(idle(&board).end) + 14 <= S {
        serve(&mut board, 2, &message::put(5, b"AB"));
        serve(&mut board, 2, &message::commit());
    }
    let steps = 16 + 13 + 12 - 5;
    assert_eq!(board.serve(2, &message::put(5, b"AB")), done(steps + 14));
    assert_eq!(board.image(), [filled(&[&header(2, 3), &SETTLED, &DELETE, &PUT], S), filled(&[], S)].concat());
    assert_eq!((idle(&board).edition, idle(&board).pending), (2, [0, 12, 14, 0]));
}

#[test]
fn a_format_writes_edition_1() {
    let mut board = Twin::new(&image_of(&[&SETTLED]));
    assert_eq!(board.whole(&Call::Mount), done(0));
    assert_eq!((idle(&board).edition, board.ids()), (2, vec![5]));
    assert_eq!(board.whole(&Call::Format), done(12));
    assert_eq!(board.image(), [filled(&[&header(1, 1)], S), filled(&[], S)].concat());
    assert_eq!((idle(&board).edition, board.ids()), (1, vec![]));
}

/// Every other number than the block's edition is 11, whatever is asked, but a read of what has no place.
#[test]
fn records_of_other_editions() {
    let messages = [message::put(1, b"x"), message::delete(1), message::log(), message::convert(), vec![]];
    for mut board in [formatted(LENGTH), second(LENGTH)] {
        let (right, image) = (idle(&board), board.image().to_vec());
        for edition in (0..=255).filter(|edition| *edition != right.edition) {
            let wrong = Idle { edition, ..right };
            board.forge(wrong);
            for message in &messages {
                assert_eq!(board.ask(0, message), Answer::STALE, "edition {edition}");
            }
            assert_eq!(board.call(&Call::Read { host: 0, message: message::read(1) }).answer, Answer::NO_OBJECT);
            assert_eq!((board.idle(), board.image()), (Some(wrong), &image[..]));
        }
        board.forge(right);
        assert_eq!(board.ask(0, &messages[0]), Answer::MORE);
    }
}

/// A put of so many bytes is taken, of one more it gets this.
fn longest_put(board: &mut Twin, host: u8, size: usize, refusal: Answer) {
    let (right, image) = (idle(board), board.image().to_vec());
    assert_eq!(board.ask(host, &message::put(9, &vec![9; size + 1])), refusal);
    assert_eq!(board.ask(host, &message::put(9, &vec![9; size])), Answer::MORE);
    board.load(&image);
    board.forge(right);
}

/// 12 for a delete, 10 for each host that has something pending, 22 beyond a put; half a block is 128 bytes with CRCs.
#[test]
fn room_by_longer_frames() {
    let mut board = second(LENGTH);
    longest_put(&mut board, 0, 116, Answer::HOST_FULL);
    settle(&mut board, &[100]);
    // 16 + 111 + 97 + 10 + 22 is 256
    longest_put(&mut board, 0, 85, Answer::NO_ROOM);
    serve(&mut board, 1, &message::delete(7));
    // 127 + 12 + 75 + 20 + 22 is 256
    longest_put(&mut board, 0, 63, Answer::NO_ROOM);
    longest_put(&mut board, 1, 73, Answer::NO_ROOM);
    assert_eq!(board.log()[10..12], [127, 0]);
}

/// Deletes up to C + 12 + 10 * open = S; of the host's own pending bytes ten deletes are 120 of 128.
#[test]
fn deletes_by_longer_frames() {
    // 16 + 88 + 11 * 12 + 20 is 256
    for (size, most) in [(77, 11), (78, 10)] {
        let mut board = second(LENGTH);
        settle(&mut board, &[size]);
        let taken =
            (0..).take_while(|number| board.serve(number % 2, &message::delete(1)).0 == Answer::DONE).count();
        assert_eq!(taken, most);
        assert_eq!(board.ask(0, &message::delete(1)), Answer::NO_ROOM);
    }
    let mut board = second(LENGTH);
    (0..10).for_each(|_| serve(&mut board, 3, &message::delete(1)));
    assert_eq!(board.ask(3, &message::delete(1)), Answer::HOST_FULL);
}

/// Refusal 11: C + 10 * open may be S and no more.
#[test]
fn room_in_refusal_11() {
    for (size, expected) in [(207, Answer::MORE), (208, Answer::STALE)] {
        let settled = frame::settled(Second, Id(1), &vec![7; size]);
        let mut board = Twin::new(&image_of(&[&settled, &DELETE]));
        let end = (16 + settled.len() + DELETE.len()) as u16;
        let (pending, places) = ([0, 12, 0, 0], places([(1, 16)]));
        board.forge(Idle { length: LENGTH, block: 0, end, blocks: 2, edition: 2, pending, places });
        assert_eq!(board.ask(1, &message::commit()), expected);
    }
}

/// The longest frame has 252 bytes.
#[test]
fn the_longest_value() {
    let mut board = second(1_024);
    assert_eq!(board.ask(1, &message::put(8, &[0xFF; 241])), Answer::MALFORMED);
    assert_eq!(board.serve(1, &message::put(8, &[0xFF; 240])), done(252));
    assert_eq!(board.image()[512 + 16..][..4], [252, 0, 1, 0]);
    serve(&mut board, 1, &message::commit());
    assert_eq!(board.value(8), Some(vec![0xFF; 240]));
}

/// A job's frame cut after each byte: a mount closes it, and a reset drops what was pending.
#[test]
fn appends_cut_after_each_byte() {
    let messages =
        [message::put(8, &[0xFF; 20]), message::put(8, &[0xFE; 7]), message::delete(5), message::commit()];
    for message in messages.iter().chain([&message::abort()]) {
        let mut start = Twin::new(&image_of(&[&SETTLED]));
        assert_eq!(start.whole(&Call::Mount), done(0));
        serve(&mut start, 2, &message::put(6, &[]));
        let (right, image) = (idle(&start), start.image().to_vec());
        assert_eq!(start.ask(2, message), Answer::MORE);
        for made in 0..start.steps_left() {
            start.load(&image);
            start.forge(right);
            start.ask(2, message);
            start.call(&Call::Run(made));
            let closes = [0, 4, 3, 3].get(made).copied().unwrap_or(2);
            assert_eq!(start.whole(&Call::Mount), done(closes + 9), "{message:?} after {made} bytes");
            assert_eq!((start.ids(), idle(&start).edition), (vec![5], 2));
        }
    }
}

/// Once a byte of the CRC stands, all before it is fixed: another such byte is wrong there, 0xFF as the last is one byte less.
#[test]
fn frames_cut_inside_their_crc() {
    for frame in [&PUT[..], &DELETE, &COMMIT, &ABORT, &RESET] {
        let (n, front) = (frame.len(), frame.len() - 5);
        for cut in 0..=n {
            assert_eq!(broke(&[&SETTLED, &frame[..cut]]), None);
        }
        for (cut, at) in (front + 1..n).flat_map(|cut| (front..cut).map(move |at| (cut, at))) {
            let flipped = (0..8).map(|bit| frame[at] ^ 1 << bit);
            for byte in flipped.chain([0x00, 0xFF]).filter(|byte| *byte != frame[at]) {
                let less = byte == 0xFF && at + 1 == cut;
                let expected = (!less).then_some((Field::Crc, 13 + front));
                assert_eq!(broke(&[&SETTLED, &with(&frame[..cut], at, byte)]), expected, "{cut}, {at}, {byte}");
            }
        }
        for byte in (0..=254).filter(|byte| *byte != 0xFE) {
            assert_eq!(broke(&[&with(frame, n - 1, byte)]), Some((Field::Finish, n - 1)));
        }
        assert_eq!(broke(&[frame, &[0xFF, 0]]), Some((Field::Length, n)));
        assert_eq!(broke(&[&with(frame, n - 1, 0xFF), &[0xFF, 0]]), Some((Field::Finish, n - 1)));
    }
}

/// A frame, one byte of it changed, and the first field that is then bad.
const BAD: [(&[u8], usize, u8, Field, usize); 29] = [
    (&PUT, 0, 8, Field::Length, 0),
    (&PUT, 0, 9, Field::Kind, 2),
    (&PUT, 0, 253, Field::Length, 0),
    (&PUT, 1, 1, Field::Length, 0),
    (&PUT, 0, 10, Field::Kind, 2),
    (&PUT, 0, 11, Field::Kind, 2),
    (&PUT, 2, 2, Field::Kind, 2),
    (&PUT, 2, 5, Field::Id, 4),
    (&PUT, 4, 4, Field::Host, 4),
    (&PUT, 4, 3, Field::Crc, 9),
    (&PUT, 5, 6, Field::Crc, 9),
    (&PUT, 6, 1, Field::Id, 5),
    (&PUT, 7, 0x40, Field::Crc, 9),
    (&PUT, 0, 13, Field::Crc, 8),
    (&DELETE, 4, 2, Field::Crc, 7),
    (&DELETE, 0, 8, Field::Length, 0),
    (&COMMIT, 2, 4, Field::Crc, 5),
    (&COMMIT, 0, 6, Field::Length, 0),
    (&ABORT, 2, 3, Field::Crc, 5),
    (&SETTLED, 4, 4, Field::Crc, 8),
    (&SETTLED, 5, 1, Field::Id, 4),
    (&SETTLED, 12, 0xFF, Field::Finish, 12),
    (&EMPTY, 2, 1, Field::Kind, 2),
    (&RESET, 0, 10, Field::Kind, 2),
    (&RESET, 2, 3, Field::Kind, 2),
    (&RESET, 7, 0x12, Field::Crc, 4),
    (&RESET, 8, 0xFC, Field::Finish, 8),
    (&CLOSED, 0, 11, Field::Kind, 2),
    (&CLOSED, 11, 0xFC, Field::Finish, 11),
];

/// A settled frame that is cut is wrong.
#[test]
fn each_field_of_each_frame() {
    for (frame, at, byte, field, place) in BAD {
        let bytes = with(frame, at, byte);
        assert_eq!(broke(&[&bytes, &[0]]), Some((field, place)), "{bytes:?}");
    }
    for cut in 6..12 {
        assert_eq!(broke(&[&SETTLED[..cut]]), Some((Field::Crc, 8)), "{cut} bytes");
    }
    assert_eq!(broke(&[&SETTLED[..12]]), Some((Field::Finish, 12)));
    assert_eq!(broke(&[&SETTLED, &SETTLED]), Some((Field::Id, 17)));
}

/// Frames of one edition in a block of the other.
#[test]
fn frames_of_the_other_edition() {
    let first: [&[u8]; 3] =
        [&[10, 0, 1, 0, 2, 5, 0, 0x41, 0x42, 0xFE], &[6, 0, 3, 0, 2, 0xFE], &[9, 0, 5, 0, 5, 0, 0x41, 0x42, 0xFE]];
    for (frame, expected) in first.into_iter().zip([Field::Kind, Field::Length, Field::Kind]) {
        let place = if expected == Field::Kind { 2 } else { 0 };
        assert_eq!(broke(&[frame]), Some((expected, place)));
    }
    // a put of edition 2 is one of edition 1 with a longer value
    for (frame, expected) in [(&PUT[..], None), (&DELETE, Some(Field::Kind)), (&COMMIT, Some(Field::Kind))] {
        let image = [filled(&[&header(1, 1), frame], S), filled(&[], S)].concat();
        assert_eq!(Twin::new(&image).fault().1.map(|fault| fault.field), expected);
    }
}
