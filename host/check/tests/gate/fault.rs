//! K5: where a block broke. What is expected stands in document 01's tables; the frames are spelt out by them.

use super::second;
use check::fault::agreed;
use check::rng::Rng;
use model::edition::Edition::First;
use model::frame::{self, Host, Id};
use std::collections::BTreeSet;
use store::{Answer, Fault, Field};

const S: usize = 256;
/// Length, kind, time 1, valid data, the rest.
pub const HEADER: [u8; 16] = *b"\x10\0\x01\x4A\xFE\xFF\xFF\xFF\xFC\xFF\xFF\xFF\xFF\xFF\xFF\xFF";

/// The same in edition 2.
const SECOND: [u8; 16] = *b"\x10\0\x02\x4A\xFE\xFF\xFF\xFF\xFC\xFF\xFF\xFF\xFF\xFF\xFF\xFF";

pub const PUT: [u8; 10] = [10, 0, 1, 0, 2, 5, 0, 0x41, 0x42, 0xFE];
const DELETE: [u8; 8] = [8, 0, 2, 0, 1, 5, 0, 0xFE];
pub const COMMIT: [u8; 6] = [6, 0, 3, 0, 2, 0xFE];
const ABORT: [u8; 6] = [6, 0, 4, 0, 2, 0xFE];
pub const SETTLED: [u8; 9] = [9, 0, 5, 0, 5, 0, 0x41, 0x42, 0xFE];
/// An empty value: the one length that no other kind has.
pub const EMPTY: [u8; 7] = [7, 0, 5, 0, 6, 0, 0xFE];
const RESET: [u8; 5] = [5, 0, 7, 0, 0xFE];
/// A put that was torn after its id, and closed.
const CLOSED: [u8; 10] = [10, 0, 0, 0, 2, 5, 0, 0xFF, 0xFF, 0xFE];

/// A block that begins with these bytes.
pub fn block(parts: &[&[u8]]) -> Vec<u8> {
    let mut block = parts.concat();
    assert!(block.len() <= S);
    block.resize(S, 0xFF);
    block
}

pub fn blank() -> Vec<u8> {
    block(&[])
}

/// What is said of a block of these frames beside a blank one. Block 1 is said to be broken just as block 0 is.
fn of_frames(frames: &[&[u8]]) -> Option<(Field, usize)> {
    let block = block(&[&HEADER[..], &frames.concat()]);
    let (answer, first) = agreed(&[&block[..], &blank()].concat(), 2);
    let (same, second) = agreed(&[&blank()[..], &block].concat(), 2);
    assert_eq!((same, second), (answer, first.map(|fault| Fault { block: 1, ..fault })));
    let Fault { block, field, place } = first?;
    assert_eq!((answer, block), (Answer::FOREIGN, 0));
    Some((field, place))
}

/// The fault of a frame behind these, counted from where it starts.
fn behind(frames: &[&[u8]], bytes: &[u8]) -> Option<(Field, usize)> {
    let start = HEADER.len() + frames.concat().len();
    let (field, place) = of_frames(&[&frames.concat(), bytes])?;
    Some((field, place.checked_sub(start).expect("the frames before are right")))
}

/// The frame with one byte changed.
pub fn with(frame: &[u8], at: usize, byte: u8) -> Vec<u8> {
    let mut frame = frame.to_vec();
    frame[at] = byte;
    frame
}

fn of_bytes(field: Field) -> usize {
    match field {
        Field::Length | Field::Kind | Field::Id => 2,
        Field::Host | Field::Finish | Field::State => 1,
        Field::Time | Field::Crc => 4,
        Field::Rest => 7,
    }
}

/// Journals in which every kind of frame stands, short enough to change each byte.
fn journals() -> Vec<Vec<u8>> {
    let longer = [14, 0, 5, 0, 255, 0, 9, 0, 5, 0, 7, 0, 0xFF, 0xFE];
    vec![
        block(&[&HEADER]),
        block(&[&HEADER, &PUT, &COMMIT]),
        block(&[&HEADER, &SETTLED, &EMPTY, &DELETE, &ABORT]),
        block(&[&HEADER, &SETTLED, &longer, &COMMIT]),
        block(&[&HEADER, &EMPTY, &longer]),
        block(&[&HEADER, &DELETE, &PUT[..7]]),
        block(&[&HEADER, &SETTLED, &COMMIT[..5]]),
        block(&[&SECOND, &second::SETTLED, &second::EMPTY, &second::DELETE, &second::COMMIT]),
        block(&[&SECOND, &second::ABORT, &second::PUT[..11]]),
        block(&[&HEADER, &EMPTY, &CLOSED, &DELETE, &RESET, &CLOSED[..9]]),
        block(&[&SECOND, &second::PUT, &second::CLOSED, &second::RESET, &second::CLOSED[..6]]),
    ]
}

/// Every byte gets every value. A fault is never named before the damage: up to it the bytes begin legal frames.
#[test]
fn every_byte_of_short_journals() {
    let mut seen = BTreeSet::new();
    for journal in journals() {
        let written = journal.iter().rposition(|byte| *byte != 0xFF).map_or(0, |last| last + 1).max(16);
        for (at, byte) in (0..written + 12).flat_map(|at| (0..=255).map(move |byte| (at, byte))) {
            let damaged = with(&journal, at, byte);
            let (_, fault) = agreed(&[&damaged[..], &blank()].concat(), 2);
            if let Some(Fault { block, field, place }) = fault {
                assert_eq!(block, 0);
                assert!(at >= written || place + of_bytes(field) > at, "byte {at} is {byte}, {field} at {place}");
                seen.insert(field);
            }
        }
    }
    assert_eq!(seen, Field::ALL.into());
}

/// A fault says where the bytes went wrong: whatever else stands after that field, it stays the same.
#[test]
fn nothing_after_the_bad_field_matters() {
    let mut rng = Rng::new(5);
    for journal in journals() {
        for at in 0..60 {
            let mut damaged = with(&journal, at, rng.byte());
            let (_, Some(fault)) = agreed(&[&damaged[..], &blank()].concat(), 2) else { continue };
            let after = fault.place + of_bytes(fault.field);
            for _ in 0..10.min(S - after) {
                let later = after + rng.below(S - after);
                // byte 8 decides whether a block is in progress, whatever else stands there
                damaged[later] = if later == 8 { 0xFC } else { rng.below(255) as u8 };
                assert_eq!(agreed(&[&damaged[..], &blank()].concat(), 2), (Answer::FOREIGN, Some(fault)));
            }
        }
    }
}

/// A frame, one byte of it changed, and the first field that is then bad, with its place in the frame.
const BAD: [(&[u8], usize, u8, Field, usize); 50] = [
    (&PUT, 0, 0, Field::Length, 0),
    (&PUT, 0, 4, Field::Length, 0),
    (&PUT, 0, 249, Field::Length, 0),
    (&PUT, 1, 1, Field::Length, 0),
    (&PUT, 0, 5, Field::Kind, 2),
    (&PUT, 0, 6, Field::Kind, 2),
    (&PUT, 2, 2, Field::Kind, 2),
    (&PUT, 2, 3, Field::Kind, 2),
    (&PUT, 2, 6, Field::Kind, 2),
    (&PUT, 3, 1, Field::Kind, 2),
    (&PUT, 4, 4, Field::Host, 4),
    (&PUT, 4, 0xFF, Field::Host, 4),
    (&PUT, 6, 1, Field::Id, 5),
    (&PUT, 6, 0xFF, Field::Id, 5),
    (&PUT, 9, 0xFC, Field::Finish, 9),
    (&PUT, 0, 9, Field::Finish, 8),
    (&DELETE, 0, 9, Field::Kind, 2),
    (&DELETE, 2, 5, Field::Id, 4),
    (&DELETE, 4, 0x80, Field::Host, 4),
    (&DELETE, 6, 2, Field::Id, 5),
    (&DELETE, 7, 0, Field::Finish, 7),
    (&COMMIT, 0, 8, Field::Kind, 2),
    (&COMMIT, 2, 1, Field::Kind, 2),
    (&COMMIT, 2, 5, Field::Kind, 2),
    (&COMMIT, 4, 4, Field::Host, 4),
    (&COMMIT, 5, 0xEE, Field::Finish, 5),
    (&ABORT, 3, 0x80, Field::Kind, 2),
    (&ABORT, 4, 7, Field::Host, 4),
    (&ABORT, 5, 0x7E, Field::Finish, 5),
    (&SETTLED, 2, 4, Field::Kind, 2),
    (&SETTLED, 2, 7, Field::Kind, 2),
    (&SETTLED, 5, 1, Field::Id, 4),
    (&SETTLED, 8, 0xFF, Field::Finish, 8),
    (&EMPTY, 2, 1, Field::Kind, 2),
    (&EMPTY, 5, 1, Field::Id, 4),
    (&EMPTY, 6, 0xFA, Field::Finish, 6),
    (&RESET, 0, 6, Field::Kind, 2),
    (&RESET, 1, 1, Field::Length, 0),
    (&RESET, 2, 3, Field::Kind, 2),
    (&RESET, 2, 6, Field::Kind, 2),
    (&RESET, 3, 1, Field::Kind, 2),
    (&RESET, 4, 0xFC, Field::Finish, 4),
    (&CLOSED, 0, 4, Field::Length, 0),
    (&CLOSED, 0, 7, Field::Kind, 2),
    (&CLOSED, 0, 9, Field::Finish, 8),
    (&CLOSED, 1, 1, Field::Length, 0),
    (&CLOSED, 1, 0xFF, Field::Length, 0),
    (&CLOSED, 3, 1, Field::Kind, 2),
    (&CLOSED, 3, 0xFF, Field::Kind, 2),
    (&CLOSED, 9, 0xFF, Field::Finish, 9),
];

#[test]
fn each_field_of_each_frame() {
    for (frame, at, byte, field, place) in BAD {
        let bytes = with(frame, at, byte);
        assert_eq!(behind(&[], &[&bytes[..], &[0]].concat()), Some((field, place)), "{bytes:?}");
    }
}

/// The same put at several places: a place counts from the block's start, not from the frame's.
#[test]
fn places_count_from_the_block() {
    let bytes = with(&PUT, 4, 4);
    assert_eq!(of_frames(&[&bytes]), Some((Field::Host, 20)));
    assert_eq!(of_frames(&[&COMMIT, &bytes]), Some((Field::Host, 26)));
    assert_eq!(of_frames(&[&SETTLED, &EMPTY, &PUT, &bytes]), Some((Field::Host, 46)));
    // the sentence: the kind at byte 28
    assert_eq!(of_frames(&[&PUT, &with(&COMMIT, 2, 6)]), Some((Field::Kind, 28)));
}

/// Ids of settled frames rise, and they stand before all others. What may not stand there is no legal start.
#[test]
fn settled_frames_that_may_not_stand_there() {
    let settled = |id: u8| with(&SETTLED, 4, id);
    let empty = |id: u8| with(&EMPTY, 4, id);
    for (before, id, expected) in [(5, 6, None), (5, 5, Some((Field::Id, 4))), (5, 4, Some((Field::Id, 4)))] {
        assert_eq!(behind(&[&settled(before)], &settled(id)), expected);
        assert_eq!(behind(&[&empty(before)], &empty(id)), expected);
    }
    for id in [0, 5, 254, 255] {
        assert_eq!(behind(&[&settled(255)], &settled(id)), Some((Field::Kind, 2)));
        assert_eq!(behind(&[&settled(255)], &empty(id)), Some((Field::Length, 0)));
        for other in [&PUT[..], &DELETE, &COMMIT, &ABORT] {
            assert_eq!(behind(&[&settled(1), other], &settled(id)), Some((Field::Kind, 2)));
            assert_eq!(behind(&[other], &empty(id)), Some((Field::Length, 0)));
        }
    }
    // up to the id's end no settled frame may begin so, whatever its finish byte is
    assert_eq!(behind(&[&settled(5)], &with(&settled(5), 8, 0)), Some((Field::Id, 4)));
    assert_eq!(behind(&[&settled(255)], &with(&settled(5), 5, 9)), Some((Field::Kind, 2)));
}

/// A cut frame of kinds 1 to 4 or 7 is torn. Of a cut settled frame the missing bytes are 0xFF, and the first field that they
/// spoil is bad; its length alone may begin a put.
#[test]
fn frames_cut_after_each_byte() {
    for frame in [&PUT[..], &DELETE, &COMMIT, &ABORT, &RESET] {
        for cut in 0..=frame.len() {
            assert_eq!(behind(&[&SETTLED], &frame[..cut]), None, "{:?}", &frame[..cut]);
        }
    }
    let (length, kind, id) = (Some((Field::Length, 0)), Some((Field::Kind, 2)), Some((Field::Id, 4)));
    let finish = |place| Some((Field::Finish, place));
    let expected = [None, None, None, kind, id, id, finish(8), finish(8), finish(8), None];
    for (cut, expected) in expected.into_iter().enumerate() {
        assert_eq!(behind(&[], &SETTLED[..cut]), expected, "{:?}", &SETTLED[..cut]);
    }
    let expected = [None, length, kind, kind, id, id, finish(6), None];
    for (cut, expected) in expected.into_iter().enumerate() {
        assert_eq!(behind(&[], &EMPTY[..cut]), expected, "{:?}", &EMPTY[..cut]);
    }
    // behind settled id 255 and behind others no settled frame may stand
    let last = with(&SETTLED, 4, 255);
    for before in [&last[..], &COMMIT] {
        let expected = [None, None, None, kind, kind, kind, kind, kind, kind, kind];
        for (cut, expected) in expected.into_iter().enumerate() {
            assert_eq!(behind(&[before], &SETTLED[..cut]), expected, "{:?}", &SETTLED[..cut]);
        }
        for cut in 1..=EMPTY.len() {
            assert_eq!(behind(&[before], &EMPTY[..cut]), length, "{:?}", &EMPTY[..cut]);
        }
    }
}

/// Torn is tried on the whole tail first: one byte programmed far behind, and the frame is wrong where 0xFF is.
#[test]
fn a_torn_frame_with_something_behind() {
    let expected = [
        (Field::Length, 0),
        (Field::Length, 0),
        (Field::Kind, 2),
        (Field::Kind, 2),
        (Field::Host, 4),
        (Field::Id, 5),
        (Field::Id, 5),
        (Field::Finish, 9),
        (Field::Finish, 9),
        (Field::Finish, 9),
    ];
    for (cut, expected) in expected.into_iter().enumerate() {
        let mut tail = PUT[..cut].to_vec();
        tail.resize(200, 0xFF);
        assert_eq!(behind(&[], &tail), None);
        tail.push(0x7F);
        assert_eq!(behind(&[], &tail), Some(expected), "{cut} bytes, then one far behind");
    }
}

/// A frame that would not fit has a bad length. Fewer than five bytes hold no frame at all, five a reset alone.
#[test]
fn frames_at_the_end_of_the_block() {
    let filler = frame::put(First, Host(0), Id(1), &[0; S - 16 - 8 - 10]);
    assert_eq!(behind(&[&filler], &PUT), None);
    assert_eq!(behind(&[&filler], &with(&PUT, 9, 0)), Some((Field::Finish, 9)));
    assert_eq!(behind(&[&filler], &with(&PUT, 0, 11)), Some((Field::Length, 0)));
    assert_eq!(behind(&[&filler], &[11]), Some((Field::Length, 0)));
    assert_eq!(behind(&[&filler], &[10]), None);
    for rest in 1..6 {
        let filler = frame::put(First, Host(0), Id(1), &vec![0; S - 16 - 8 - rest]);
        assert_eq!(behind(&[&filler], &COMMIT[..rest]), Some((Field::Length, 0)));
        assert_eq!(behind(&[&filler], &RESET[..rest]), (rest < 5).then_some((Field::Length, 0)));
        assert_eq!(behind(&[&filler], &vec![0xFF; rest]), None);
    }
}
