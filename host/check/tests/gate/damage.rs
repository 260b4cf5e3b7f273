//! Damage tried systematically.

use check::places::told;
use check::twin::{Call, Twin};
use model::block::HEADER;
use model::edition::Edition::First;
use model::frame::{self, Host, Id, VALUE_LIMIT};
use store::{Answer, Idle, Stretch, message, places};

const LENGTH: usize = 512;
/// An image with room for the longest frames, and its block.
const LONG: usize = 1_024;
const S: usize = LONG / 2;
/// Room for any frame.
const AMPLE: usize = 300;

/// A block with settled frames, a change that a reset dropped, a closed frame, changes of two hosts of which some are committed
/// and some aborted, and pending ones.
fn rich() -> Twin {
    let settled = [frame::settled(First, Id(3), &[0xFF, 0xFE]), frame::settled(First, Id(4), &[])];
    let mut image = [&FORMATTED[..], &settled.concat()].concat();
    image.resize(LENGTH, 0xFF);
    let mut twin = Twin::new(&image);
    assert_eq!(twin.whole(&Call::Mount), (Answer::DONE, 0));
    assert_eq!(twin.serve(1, &message::put(9, b"lost at the mount")).0, Answer::DONE);
    assert_eq!(twin.whole(&Call::Mount), (Answer::DONE, 5));
    assert_eq!(twin.ask(1, &message::put(9, b"torn")), Answer::MORE);
    assert_eq!(twin.call(&Call::Run(5)).steps, 5);
    assert_eq!(twin.whole(&Call::Mount), (Answer::DONE, 2));
    for (host, message) in [
        (2, message::put(4, b"\x06\x00\x03\x00\x02\xFE")),
        (3, message::delete(3)),
        (3, message::abort()),
        (2, message::commit()),
        (1, message::put(255, &[0xFF])),
        (0, message::delete(4)),
    ] {
        assert_eq!(twin.serve(host, &message).0, Answer::DONE);
    }
    twin
}

/// The model's and the library's answers to whatever may be asked are the same, whichever single byte is changed. A read notices
/// what is changed in its frame, the put of six bytes to object 4, and nothing else.
#[test]
fn every_single_byte_change() {
    let mut twin = rich();
    let (image, idle) = (twin.image().to_vec(), twin.idle().expect("idle"));
    let place = usize::from(idle.places[4]);
    for at in 0..LENGTH {
        for byte in 0..=255 {
            let mut changed = image.clone();
            changed[at] = byte;
            twin.load(&changed);
            twin.call(&Call::Mount);
            twin.forge(idle);
            let read = twin.call(&Call::Read { host: 0, message: message::read(4) });
            assert_eq!((read.answer, read.stretch), told(&changed, &idle, 4));
            let value = Stretch { at: place + 7, len: 6 };
            assert!((place..place + 14).contains(&at) || read.stretch == value, "byte {at} is {byte}");
            twin.ask(0, &message::log());
        }
    }
    // all changes of eight bytes but three of the host, and lengths up to another frame's last byte
    let unread = twin.tally.of("read", Answer::STALE);
    assert!((8 * 255 - 3 - 20..8 * 255 - 3).contains(&unread), "{unread} reads were refused");
    let refused = twin.tally.of("request", Answer::STALE);
    assert!(refused > 110_000, "only {refused} changes were noticed");
    assert!(twin.tally.of("request", Answer::DONE) > LENGTH as u64);
}

/// The header of a block just formatted: time 1.
const FORMATTED: [u8; HEADER] = *b"\x10\0\x01\x4A\xFE\xFF\xFF\xFF\xFC\xFF\xFF\xFF\xFF\xFF\xFF\xFF";

/// A block of S bytes that begins with these, beside a blank one.
fn image_of(start: &[u8]) -> Vec<u8> {
    let mut image = start.to_vec();
    assert!(image.len() <= S);
    image.resize(LONG, 0xFF);
    image
}

/// A formatted block with one settled object and aborted puts, which leave nothing pending, then `tail` placed so that `room`
/// bytes are left for it. So only the tail can give a mount something to do.
fn with_tail(tail: &[u8], room: usize) -> Twin {
    let mut block = FORMATTED.to_vec();
    block.extend(frame::settled(First, Id(1), b"kept"));
    // a put and its abort
    let (least, most) = (8 + 6, 8 + VALUE_LIMIT + 6);
    while block.len() < S - room {
        let left = S - room - block.len();
        let length = if left > most { (left - least).min(most) } else { left };
        block.extend(frame::put(First, Host(0), Id(2), &vec![0; length - least]));
        block.extend(frame::abort(First, Host(0)));
    }
    block.extend(tail);
    Twin::new(&image_of(&block))
}

fn samples() -> Vec<Vec<u8>> {
    let value = [0xFF; VALUE_LIMIT];
    let puts = (0..=VALUE_LIMIT).map(|size| frame::put(First, Host(3), Id(255), &value[..size]));
    let marks = [frame::commit(First, Host(2)), frame::abort(First, Host(0)), frame::reset(First)];
    puts.chain([frame::delete(First, Host(1), Id(0))]).chain(marks).collect()
}

/// Without a tail there is nothing to do.
#[test]
fn a_blank_tail_is_not_torn() {
    for room in [6, 7, 8, 100, 247, 248, AMPLE] {
        assert_eq!(with_tail(&[], room).whole(&Call::Mount), (Answer::DONE, 0));
    }
}

/// Whether the tail, of which so many bytes are programmed, is torn. A mount then closes it: its finish byte and its kind's low
/// byte, and the bytes of length and kind that are not there. The settled object stays.
fn found_torn(mut twin: Twin, programmed: usize) -> bool {
    let closes = match programmed {
        1 => 4,
        2 | 3 => 3,
        _ => 2,
    };
    match twin.whole(&Call::Mount) {
        (Answer::DONE, steps) => {
            assert_eq!((steps, twin.value(1)), (closes, Some(b"kept".to_vec())));
            true
        }
        (answer, _) => {
            assert_eq!(answer, Answer::FOREIGN);
            false
        }
    }
}

#[test]
fn frames_torn_after_every_byte() {
    for frame in samples() {
        for programmed in 1..frame.len() {
            let part = &frame[..programmed];
            assert!(found_torn(with_tail(part, frame.len()), programmed), "{part:?} with just enough room");
            assert!(found_torn(with_tail(part, AMPLE), programmed), "{part:?}");
            assert!(!found_torn(with_tail(part, frame.len() - 1), programmed), "{part:?} without room");
        }
    }
}

/// Of a settled frame only the length may be seen, and only a length that another kind has.
#[test]
fn settled_frames_torn_after_every_byte() {
    for size in 0..=VALUE_LIMIT {
        let frame = frame::settled(First, Id(9), &[0; VALUE_LIMIT][..size]);
        for programmed in 1..frame.len() {
            let torn = found_torn(with_tail(&frame[..programmed], AMPLE), programmed);
            assert_eq!(torn, programmed <= 2 && size > 0, "{programmed} bytes of {frame:?}");
        }
    }
}

/// Each field of a torn put with a value that no legal frame has. A kind of 0 is that of a frame which is being closed.
#[test]
fn torn_frames_with_a_wrong_field() {
    let frame = frame::put(First, Host(3), Id(255), &[7; 10]);
    let with = |at: usize, byte: u8| {
        let mut part = frame[..12].to_vec();
        part[at] = byte;
        with_tail(&part, AMPLE)
    };
    for (at, byte) in [(0, 5), (0, 7), (0, 249), (1, 1), (2, 2), (2, 3), (2, 6), (2, 7), (3, 1), (4, 4), (6, 1)] {
        assert!(!found_torn(with(at, byte), 12), "byte {at} is {byte}");
    }
    assert_eq!(with(2, 0).whole(&Call::Mount), (Answer::DONE, 1));
}

/// A frame's first byte tells it from erased flash: it is 5, 6 or 8 to 248, and never 0xFF.
#[test]
fn every_first_byte_of_a_tail() {
    let kept = frame::settled(First, Id(1), b"kept");
    for byte in 0..=255 {
        let mut twin = Twin::new(&image_of(&[&FORMATTED[..], &kept, &[byte]].concat()));
        let expected = match byte {
            5 | 6 | 8..=248 => (Answer::DONE, 4),
            0xFF => (Answer::DONE, 0),
            _ => (Answer::FOREIGN, 0),
        };
        assert_eq!(twin.whole(&Call::Mount), expected, "{byte}");
    }
}

/// Whole frames of the longest value, and of one byte more.
#[test]
fn frames_of_the_longest_value() {
    let value = [0xFE; VALUE_LIMIT + 1];
    for (size, expected) in [(VALUE_LIMIT, Answer::DONE), (VALUE_LIMIT + 1, Answer::FOREIGN)] {
        let put = frame::put(First, Host(0), Id(1), &value[..size]);
        assert_eq!(mount_of_frames(&[put, frame::commit(First, Host(0))]), expected);
        assert_eq!(mount_of_frames(&[frame::settled(First, Id(1), &value[..size])]), expected);
    }
}

/// Frames that run exactly to S leave an empty tail.
#[test]
fn frames_to_the_very_end() {
    let last = [frame::put(First, Host(0), Id(2), b"last"), frame::commit(First, Host(0))].concat();
    let mut twin = with_tail(&last, last.len());
    let (pending, places) = ([0; 4], places([(1, 16), (2, (S - last.len()) as u16)]));
    twin.forge(Idle { length: LONG, block: 0, end: S as u16, blocks: 2, edition: 1, pending, places });
    assert_eq!(twin.ask(1, &message::commit()), Answer::DONE);
    assert_eq!(twin.whole(&Call::Mount), (Answer::DONE, 0));
    assert_eq!(twin.ids(), [1, 2]);
}

fn mount_of_frames(frames: &[Vec<u8>]) -> Answer {
    let block = [&FORMATTED[..], &frames.concat()].concat();
    Twin::new(&image_of(&block)).call(&Call::Mount).answer
}

#[test]
fn settled_frames_stand_first_with_rising_ids() {
    let settled = |id: u8| frame::settled(First, Id(id), b"v");
    assert_eq!(mount_of_frames(&[settled(0), settled(1), settled(255)]), Answer::DONE);
    assert_eq!(mount_of_frames(&[settled(1), settled(0)]), Answer::FOREIGN);
    assert_eq!(mount_of_frames(&[settled(1), settled(1)]), Answer::FOREIGN);
    assert_eq!(mount_of_frames(&[settled(255), settled(255)]), Answer::FOREIGN);
    for other in
        [frame::commit(First, Host(0)), frame::abort(First, Host(1)), frame::delete(First, Host(2), Id(0))]
    {
        assert_eq!(mount_of_frames(&[settled(0), other.clone()]) == Answer::MORE, other[2] == 2);
        assert_eq!(mount_of_frames(&[settled(0), other, settled(1)]), Answer::FOREIGN);
    }
}

/// Of two valid blocks the newer is current, even if its tail is torn; the older is erased first. The torn frame of six bytes
/// stands at 212.
#[test]
fn two_valid_blocks() {
    let torn = with_tail(&[6], AMPLE);
    let mut newer = torn.image()[..S].to_vec();
    newer[4] = 0xFD;
    let mut twin = Twin::new(&[&newer, &Twin::formatted(LONG).image()[..S]].concat());
    assert_eq!(twin.call(&Call::Mount).answer, Answer::MORE);
    assert_eq!(twin.step(), Answer::MORE);
    assert_eq!(twin.image()[S..], [0xFF; S]);
    assert_eq!(twin.finish(), (Answer::DONE, 4));
    let Idle { block, end, .. } = twin.idle().expect("idle");
    assert_eq!((block, end), (0, 218));
    let outcome = twin.call(&Call::Read { host: 0, message: message::read(1) });
    assert_eq!(outcome.stretch, Stretch { at: 22, len: 4 });
}

/// A block that is foreign but for this byte 8: 0xFE makes it one in progress, 0xFF a blank one.
fn with_state(state: u8) -> Vec<u8> {
    let mut block = vec![0xFF; S];
    block[8] = state;
    block
}

/// K4: beside a valid block a foreign one is erased, as any that isn't blank; without one it is 3.
#[test]
fn a_block_of_every_state_beside_another() {
    let valid = with_tail(&frame::put(First, Host(0), Id(2), &[]), AMPLE).image()[..S].to_vec();
    for state in 0..=255 {
        let other = with_state(state);
        let foreign = state < 0xFE;
        for blocks in [[&valid, &other], [&other, &valid]] {
            let mut twin = Twin::new(&blocks.map(|block| block.clone()).concat());
            let erase = usize::from(state != 0xFF);
            // a reset: a put of another object is pending
            assert_eq!(twin.whole(&Call::Mount), (Answer::DONE, erase + 5), "{state:#04x}");
            assert_eq!(twin.ids(), [1]);
        }
        for (beside, none) in [(0xFF, Answer::NO_STORE), (0xFE, Answer::NO_STORE), (0xFC, Answer::FOREIGN)] {
            let expected = if foreign { Answer::FOREIGN } else { none };
            for states in [[state, beside], [beside, state]] {
                let image = states.map(with_state).concat();
                let mut twin = Twin::new(&image);
                assert_eq!(twin.call(&Call::Mount).answer, expected, "{states:?}");
                assert_eq!(twin.image(), image);
            }
        }
    }
}

/// Foreign by each header field, by a frame and by its tail, beside a clean block: one step, and it is blank.
#[test]
fn a_foreign_block_is_erased_beside_a_valid_one() {
    let clean = image_of(&[&FORMATTED[..], &frame::settled(First, Id(1), b"kept")].concat())[..S].to_vec();
    for (at, byte) in
        [(0, 0x11), (1, 1), (2, 3), (3, 0x4B), (8, 0xFD), (9, 0xFE), (15, 0), (16, 0), (17, 1), (S - 1, 0)]
    {
        let mut foreign = clean.clone();
        foreign[at] = byte;
        assert_eq!(Twin::new(&image_of(&foreign)).call(&Call::Mount).answer, Answer::FOREIGN, "byte {at}");
        for block in [0, 1] {
            let mut blocks = [clean.clone(), foreign.clone()];
            blocks.rotate_left(block);
            let mut twin = Twin::new(&blocks.concat());
            assert_eq!(twin.whole(&Call::Mount), (Answer::DONE, 1), "byte {at}");
            let (pending, places) = ([0; 4], places([(1, 16)]));
            let idle = Idle { length: LONG, block: block as u8, end: 27, blocks: 2, edition: 1, pending, places };
            assert_eq!(twin.idle(), Some(idle));
            assert_eq!(twin.image()[(1 - block) * S..][..S], [0xFF; S]);
            assert_eq!(twin.value(1), Some(b"kept".to_vec()));
        }
    }
}
