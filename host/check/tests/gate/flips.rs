//! K9: every bit of short journals of edition 2, turned. What is expected is said by the paper alone: frames are noticed by
//! their CRC; time, state, tails, blank blocks and closed frames (K11) have none.

use super::convert::header;
use super::second::{ABORT, CLOSED, COMMIT, DELETE, EMPTY, PUT, RESET, SETTLED, image_of};
use check::book::{Lists, Objects, found};
use check::twin::{Call, Twin};
use std::ops::Range;
use store::{Answer, Field};

const S: usize = 256;

/// The frames of a journal, and where each stands.
struct Journal {
    image: Vec<u8>,
    frames: Vec<Range<usize>>,
}

impl Journal {
    fn of(frames: &[&[u8]]) -> Journal {
        let mut end = 16;
        let places = frames.iter().map(|frame| {
            end += frame.len();
            end - frame.len()..end
        });
        Journal { frames: places.collect(), image: image_of(frames) }
    }

    fn end(&self) -> usize {
        self.frames.last().map_or(16, |frame| frame.end)
    }

    /// What is settled if frames end here, and whether anything is pending.
    fn found(&self, end: usize) -> (Objects, bool) {
        let mut block = self.image[..S].to_vec();
        block[end..].fill(0xFF);
        let (objects, lists) = found(&block);
        (objects, lists != Lists::default())
    }

    /// The same of all frames but this one.
    fn without(&self, frame: &Range<usize>) -> (Objects, bool) {
        let others = self.frames.iter().filter(|other| *other != frame);
        let others: Vec<&[u8]> = others.map(|other| &self.image[other.clone()]).collect();
        let others = Journal::of(&others);
        others.found(others.end())
    }

    fn pending(&self) -> bool {
        self.found(self.end()).1
    }
}

fn journals() -> [Journal; 9] {
    [
        Journal::of(&[]),
        Journal::of(&[&PUT]),
        Journal::of(&[&PUT, &COMMIT]),
        Journal::of(&[&SETTLED, &EMPTY]),
        Journal::of(&[&SETTLED, &EMPTY, &DELETE, &ABORT, &PUT, &COMMIT]),
        Journal::of(&[&DELETE, &PUT, &COMMIT, &PUT, &ABORT, &DELETE]),
        Journal::of(&[&PUT, &CLOSED, &RESET, &PUT, &COMMIT]),
        Journal::of(&[&SETTLED, &CLOSED]),
        Journal::of(&[&DELETE, &RESET]),
    ]
}

/// What a mount makes of an image with a bit turned.
#[derive(Debug, PartialEq)]
enum Seen {
    /// Refused with 3, at this field of block 0, which starts here in the block.
    Broken(Field, usize),
    NoStore,
    /// Accepted. Then these objects are settled at this time, and so many steps were made.
    Found(Objects, u32, usize),
}

fn seen(board: &mut Twin, image: &[u8]) -> Seen {
    board.load(image);
    match board.whole(&Call::Mount) {
        (Answer::FOREIGN, _) => {
            let fault = board.fault().1.expect("a fault");
            assert_eq!(fault.block, 0);
            Seen::Broken(fault.field, fault.place)
        }
        (Answer::NO_STORE, _) => Seen::NoStore,
        (answer, steps) => {
            assert_eq!(answer, Answer::DONE);
            let idle = board.idle().expect("idle");
            let (objects, lists) = found(board.block(usize::from(idle.block)));
            assert_eq!((lists, idle.edition), (Lists::default(), 2));
            let time = board.log()[4..8].try_into().expect("four bytes");
            Seen::Found(objects, u32::from_le_bytes(time), steps)
        }
    }
}

/// What a mount leaves of a journal up to here, with a torn frame of so many bytes behind it, of which so many are changed to
/// close it, and after so many erases: it drops what is pending by a reset of nine bytes, or where that does not fit by a
/// transfer, of 16 bytes and a settled frame for each object, less five.
fn mended((objects, pending): (Objects, bool), end: usize, closes: usize, erases: usize) -> Seen {
    let reset = if pending { 9 } else { 0 };
    if end + reset > S {
        let steps = objects.values().map(|value| 11 + value.len()).sum::<usize>() + 16 - 5;
        return Seen::Found(objects, 2, steps + erases);
    }
    Seen::Found(objects, 1, closes + reset + erases)
}

/// With a frame torn that begins here.
fn torn(journal: &Journal, start: usize, length: usize, closes: usize) -> Seen {
    mended(journal.found(start), start + length, closes, 0)
}

/// Without a bit turned, and as it is with one in block 1, which is then erased.
fn whole(journal: &Journal, erases: usize) -> Seen {
    mended(journal.found(journal.end()), journal.end(), 0, erases)
}

/// Of the header: time has no CRC, so another time is another time; 0xFE is in progress; anything else is 3.
fn of_header(journal: &Journal, at: usize, turned: u8) -> Seen {
    match at {
        0..2 => Seen::Broken(Field::Length, 0),
        2..4 => Seen::Broken(Field::Kind, 2),
        8 if turned == 0xFE => Seen::NoStore,
        8 => Seen::Broken(Field::State, 8),
        9.. => Seen::Broken(Field::Rest, 9),
        _ => {
            let mut bytes = header(2, 1);
            bytes[at] = turned;
            let time = !u32::from_le_bytes(bytes[4..8].try_into().expect("four bytes"));
            match (time, whole(journal, 0)) {
                (0, _) => Seen::Broken(Field::Time, 4),
                (_, Seen::Found(objects, before, steps)) => Seen::Found(objects, before + time - 1, steps),
                (_, other) => other,
            }
        }
    }
}

/// Of the blank tail: a first byte that is the length of a put which would fit is torn, and closed as that is, in four bytes.
fn of_tail(journal: &Journal, at: usize, turned: u8) -> Seen {
    let (end, length) = (journal.end(), usize::from(turned));
    if at == end && length <= 252 && end + length <= S {
        torn(journal, end, length, 4)
    } else {
        Seen::Broken(Field::Length, end)
    }
}

/// Of a frame: accepted only as what a cut or a mount may have left. The last one's finish byte is gone, as if its last step had
/// not been made (of a settled frame that is wrong); a put's length reaches behind the journal's end, as if that put were being
/// written, or a closed frame's, as if it were being closed; the kind's one bit is gone, as if the frame had been closed.
fn of_frame(journal: &Journal, frame: &Range<usize>, at: usize, turned: u8, seen: &Seen) {
    let (block, end) = (&journal.image[..S], journal.end());
    let kind = block[frame.start + 2];
    let value = frame.start + if kind == 5 { 6 } else { 7 };
    let crc = frame.end - 5;
    let longer = frame.start + usize::from(turned);
    let fits = longer <= S && turned <= 252;
    let closes = if kind == 0 { 1 } else { 2 };
    let expected = match at - frame.start {
        _ if at + 1 == end && turned == 0xFF && kind != 5 => torn(journal, frame.start, frame.len(), closes),
        _ if at + 1 == frame.end => Seen::Broken(Field::Finish, at),
        4.. if kind == 0 => whole(journal, 0),
        2 if turned == 0 => mended(journal.without(frame), end, 0, 0),
        0 if kind == 1 && fits && longer - 5 >= end => torn(journal, frame.start, longer - frame.start, closes),
        0 if kind == 0 && fits && longer > end => torn(journal, frame.start, longer - frame.start, closes),
        0..4 => return broken(frame, longer, at, seen),
        _ if at >= crc || (at >= value && matches!(kind, 1 | 5)) => Seen::Broken(Field::Crc, crc),
        4 if kind < 5 && turned > 3 => Seen::Broken(Field::Host, at),
        5 if kind == 5 => Seen::Broken(Field::Id, at - 1),
        6 if kind < 3 => Seen::Broken(Field::Id, at - 1),
        4 if kind == 5 && frame.start > 16 && turned < 6 => Seen::Broken(Field::Id, at),
        _ => Seen::Broken(Field::Crc, crc),
    };
    assert_eq!(*seen, expected, "byte {at} is {turned:#04x}");
}

/// In its length or kind: at that field, or at one of those that another length or kind makes of the bytes behind it.
fn broken(frame: &Range<usize>, longer: usize, at: usize, seen: &Seen) {
    let Seen::Broken(field, place) = seen else { panic!("{seen:?}") };
    let places = match at - frame.start {
        0 | 1 => [frame.start, frame.start + 2, longer.saturating_sub(5), longer.saturating_sub(1)],
        _ => [frame.start + 2, frame.start + 4, frame.start + 5, frame.end - 5],
    };
    assert!(places.contains(place), "{field} at {place}, byte {at}");
}

/// Nothing turned goes unnoticed, but in changes that a mount drops in any case, in what a closed frame was before, and where a
/// kind of one bit, a put's, a delete's or an abort's, loses it: that frame is a closed one, and means nothing.
#[test]
fn every_bit_of_short_journals() {
    for journal in journals() {
        let mut board = Twin::new(&journal.image);
        let before = seen(&mut board, &journal.image);
        assert_eq!(before, whole(&journal, 0));
        for (at, bit) in (0..2 * S).flat_map(|at| (0..8).map(move |bit| (at, bit))) {
            let mut image = journal.image.clone();
            image[at] ^= 1 << bit;
            let (turned, seen) = (image[at], seen(&mut board, &image));
            let frame = journal.frames.iter().find(|frame| frame.contains(&at));
            let closed = frame.is_some_and(|frame| image[frame.start + 2] == 0);
            assert!(seen != before || journal.pending() || closed, "bit {bit} of byte {at}");
            match frame {
                _ if at >= S => assert_eq!(seen, whole(&journal, 1)),
                _ if at < 16 => assert_eq!(seen, of_header(&journal, at, turned), "bit {bit} of byte {at}"),
                None => assert_eq!(seen, of_tail(&journal, at, turned), "bit {bit} of byte {at}"),
                Some(frame) => of_frame(&journal, frame, at, turned, &seen),
            }
        }
    }
}
