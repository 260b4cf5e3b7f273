//! K8: what a read looks at: the record's length and number of blocks, and the frame at its object's place.

use super::convert::{filled, header, idle, second, serve};
use check::places::told;
use check::rng::Rng;
use check::twin::{Call, Outcome, Twin};
use model::edition::Edition::{self, First, Second};
use model::frame::{self, Host, Id};
use store::{Answer, Idle, Stretch, message, places};

const LENGTH: usize = 512;
const S: usize = LENGTH / 2;

/// What a read is answered; a request with the same message is answered the same.
fn read(twin: &mut Twin, host: u8, message: &[u8]) -> (Answer, Stretch) {
    let Outcome { answer, stretch, .. } = twin.call(&Call::Read { host, message: message.to_vec() });
    assert_eq!(twin.ask(host, message), answer, "{message:?}");
    (answer, stretch)
}

fn refused(twin: &mut Twin, host: u8, message: &[u8]) -> Answer {
    let (answer, stretch) = read(twin, host, message);
    assert_eq!(stretch, Stretch::default(), "{message:?}");
    answer
}

/// Object 5 = "AB" is settled, in a put at 16.
fn settled() -> Twin {
    let mut twin = Twin::formatted(LENGTH);
    serve(&mut twin, 2, &message::put(5, b"AB"));
    serve(&mut twin, 2, &message::commit());
    assert_eq!(idle(&twin).places, places([(5, 16)]));
    twin
}

const FOUND: (Answer, Stretch) = (Answer::DONE, Stretch { at: 23, len: 2 });

/// 4, 10, 5, 2, 1, 11 and 8, each where those that come after it hold as well.
#[test]
fn refusals_in_their_order() {
    let mut twin = settled();
    let (right, bad) = (idle(&twin), [6, 0, 5, 1, 5, 1]);
    let stale = Idle { length: 768, ..right };
    twin.forge(stale);
    twin.blocks = 17;
    assert_eq!(refused(&mut twin, 4, &bad), Answer::IMAGE_LENGTH);
    twin.blocks = 2;
    assert_eq!(refused(&mut twin, 4, &bad), Answer::HOST_RANGE);
    assert_eq!(refused(&mut twin, 3, &bad), Answer::MALFORMED);
    assert_eq!(refused(&mut twin, 3, &message::read(5)), Answer::STALE);
    assert_eq!(refused(&mut twin, 3, &message::read(6)), Answer::STALE);
    twin.unmount();
    assert_eq!(refused(&mut twin, 4, &bad), Answer::HOST_RANGE);
    assert_eq!(refused(&mut twin, 3, &bad), Answer::NO_STORE);
    twin.forge(right);
    assert_eq!(refused(&mut twin, 3, &bad), Answer::MALFORMED);
    assert_eq!(refused(&mut twin, 3, &message::read(6)), Answer::NO_OBJECT);
    assert_eq!(read(&mut twin, 3, &message::read(5)), FOUND);
    assert_eq!(twin.ask(0, &message::delete(5)), Answer::MORE);
    assert_eq!(refused(&mut twin, 4, &bad), Answer::HOST_RANGE);
    assert_eq!(refused(&mut twin, 3, &bad), Answer::BUSY);
}

/// Bytes 2 and 3 say what kind a message is of, whatever its length says; if it is malformed, 1 goes before 11. As requests all
/// other messages get 11 first; in the call that only reads they are malformed.
#[test]
fn messages_of_its_kind() {
    let mut twin = settled();
    let right = idle(&twin);
    let wrong = [
        Idle { length: 768, ..right },
        Idle { blocks: 3, ..right },
        Idle { end: 31, ..right },
        Idle { block: 9, ..right },
        Idle { places: places([]), ..right },
    ];
    let own: [&[u8]; 8] = [
        &[4, 0, 5, 1],
        &[5, 0, 5, 1, 5],
        &[6, 0, 5, 1, 5],
        &[6, 0, 5, 1, 5, 1],
        &[7, 0, 5, 1, 5, 0, 0],
        &[7, 0, 5, 1, 5, 0],
        &[6, 1, 5, 1, 5, 0],
        &[0xFF, 0xFF, 5, 1],
    ];
    let others: [&[u8]; 7] =
        [&[], &[6], &[6, 0, 5], &[6, 0, 5, 2, 5, 0], &[6, 0, 1, 5, 5, 0], &[5, 1, 6, 0, 5, 0], &[4, 0, 3, 1, 0]];
    for idle in wrong {
        twin.forge(idle);
        assert!(own.iter().all(|message| refused(&mut twin, 0, message) == Answer::MALFORMED), "{idle:?}");
        for message in others.map(<[u8]>::to_vec) {
            assert_eq!(twin.ask(0, &message), Answer::STALE, "{idle:?}");
            assert_eq!(twin.call(&Call::Read { host: 0, message }).answer, Answer::MALFORMED, "{idle:?}");
        }
    }
    twin.forge(right);
    assert!(own.iter().chain(&others).all(|message| refused(&mut twin, 0, message) == Answer::MALFORMED));
    for message in [message::log(), message::commit(), message::put(5, b"x")] {
        let outcome = twin.call(&Call::Read { host: 0, message });
        assert_eq!((outcome.answer, outcome.stretch), (Answer::MALFORMED, Stretch::default()));
    }
}

/// Frames of every kind, of objects 5 and 6; a put's value has a whole put of object 6 in it.
fn frames(edition: Edition) -> Vec<Vec<u8>> {
    let inner = frame::put(edition, Host(3), Id(6), b"in");
    vec![
        frame::settled(edition, Id(5), b""),
        frame::settled(edition, Id(6), b"old"),
        frame::put(edition, Host(0), Id(5), &[&[0xFF; 3], &inner[..]].concat()),
        frame::delete(edition, Host(1), Id(6)),
        frame::commit(edition, Host(0)),
        frame::put(edition, Host(1), Id(6), b"dropped"),
        frame::abort(edition, Host(1)),
        frame::reset(edition),
        frame::closed(20),
        frame::put(edition, Host(2), Id(6), b"pending"),
    ]
}

/// Each place up to past the block's end, and those near the largest: 0 where a put or settled frame of the object starts,
/// settled now or not, 8 for none, 11 anywhere else.
#[test]
fn every_place() {
    for edition in [First, Second] {
        let (frames, head) = (frames(edition), header(edition.number(), 7));
        let starts: Vec<usize> = frames
            .iter()
            .scan(16, |at, frame| {
                *at += frame.len();
                Some(*at - frame.len())
            })
            .collect();
        let (change, kept) = (7, 6);
        let inner = starts[2] + change + 3;
        let held = [
            vec![(starts[0], kept, 0), (starts[2], change, 3 + frame::put(edition, Host(3), Id(6), b"in").len())],
            vec![(starts[1], kept, 3), (inner, change, 2), (starts[5], change, 7), (starts[9], change, 7)],
        ];
        let mut twin = Twin::new(&[filled(&[], S), filled(&[&head, &frames.concat()], S)].concat());
        assert_eq!(twin.whole(&Call::Mount).0, Answer::DONE);
        let right = idle(&twin);
        assert_eq!(right.places, places([(5, starts[2] as u16), (6, starts[1] as u16)]));
        for (id, place) in
            [5, 6, 7].into_iter().flat_map(|id| (0..=S + 300).chain(65_500..65_536).map(move |at| (id, at)))
        {
            twin.forge(Idle { places: places([(id, place as u16)]), ..right });
            let frame = held.get(usize::from(id) - 5).and_then(|held| held.iter().find(|(at, ..)| *at == place));
            let expected = match frame {
                Some((at, front, len)) => (Answer::DONE, Stretch { at: S + at + front, len: *len }),
                None if place == 0 => (Answer::NO_OBJECT, Stretch::default()),
                None => (Answer::STALE, Stretch::default()),
            };
            assert_eq!(read(&mut twin, 1, &message::read(id)), expected, "{id} at {place}");
        }
    }
}

/// All of the image but the frame may be anything, the header too, and all of the record but length, number of blocks, block,
/// edition and the place; then the frame alone decides, wherever it starts.
#[test]
fn nothing_else_is_looked_at() {
    let mut rng = Rng::new(11);
    for edition in [First, Second] {
        let frame = frame::put(edition, Host(1), Id(5), b"here");
        for place in [1, 2, 9, 15, 16, 17, 100, S - frame.len()] {
            for block in [0, 1] {
                let mut image = rng.bytes(LENGTH);
                let base = block * S;
                image[base + place..][..frame.len()].copy_from_slice(&frame);
                let (end, pending) = (rng.below(65_536) as u16, [rng.below(65_536) as u16; 4]);
                let mut all = [0; 256].map(|_: u16| rng.below(65_536) as u16);
                all[5] = place as u16;
                let (edition, block) = (edition.number(), block as u8);
                let idle = Idle { length: LENGTH, block, end, blocks: 2, edition, pending, places: all };
                let mut twin = Twin::new(&image);
                twin.forge(idle);
                let found = Stretch { at: base + place + 7, len: 4 };
                assert_eq!(read(&mut twin, 3, &message::read(5)), (Answer::DONE, found));
                assert_eq!(twin.ask(0, &message::log()), Answer::STALE);
                for at in 0..LENGTH {
                    let mut other = image.clone();
                    other[at] ^= 1 << rng.below(8);
                    twin.swap_image(&other);
                    let expected = if (base + place..base + place + frame.len()).contains(&at) {
                        told(&other, &idle, 5)
                    } else {
                        (Answer::DONE, found)
                    };
                    assert_eq!(read(&mut twin, 3, &message::read(5)), expected, "byte {at}");
                }
            }
        }
    }
}

/// A put of edition 2 with 2 bytes is one of edition 1 with 6. The record decides, 2 or any other number, never the header.
#[test]
fn by_the_records_edition() {
    let mut twin = second(LENGTH);
    serve(&mut twin, 2, &message::put(5, b"AB"));
    serve(&mut twin, 2, &message::put(6, &[6; 100]));
    serve(&mut twin, 2, &message::commit());
    let right = idle(&twin);
    let at = S + 16 + 7;
    for (edition, kind) in (0..=255).flat_map(|edition| [(edition, 1), (edition, 2)]) {
        let mut image = twin.image().to_vec();
        image[S + 2] = kind;
        twin.swap_image(&image);
        twin.forge(Idle { edition, ..right });
        let len = if edition == 2 { 2 } else { 6 };
        assert_eq!(
            read(&mut twin, 0, &message::read(5)),
            (Answer::DONE, Stretch { at, len }),
            "{edition}, {kind}"
        );
    }
    // an edition 1 frame has no CRC
    let mut twin = settled();
    for edition in 0..=255 {
        let right = idle(&settled());
        twin.forge(Idle { edition, ..right });
        let expected = if edition == 2 { (Answer::STALE, Stretch::default()) } else { FOUND };
        assert_eq!(read(&mut twin, 0, &message::read(5)), expected, "{edition}");
    }
}

/// Frames of edition 2 with the longest value are too long for edition 1.
#[test]
fn the_longest_value() {
    let frame = frame::settled(Second, Id(5), &[7; 240]);
    let image = [filled(&[&header(2, 1), &frame], LENGTH), filled(&[], LENGTH)].concat();
    let mut twin = Twin::new(&image);
    assert_eq!(twin.whole(&Call::Mount), (Answer::DONE, 0));
    let right = idle(&twin);
    let found = (Answer::DONE, Stretch { at: 22, len: 240 });
    for (edition, expected) in [(2, found), (1, (Answer::STALE, Stretch::default()))] {
        twin.forge(Idle { edition, ..right });
        assert_eq!(read(&mut twin, 0, &message::read(5)), expected);
    }
}

/// A frame that ends where the block does, and one byte further on, where the next block goes on as the frame would.
#[test]
fn frames_at_the_blocks_end() {
    let frame = frame::put(First, Host(1), Id(5), b"end");
    for (place, expected) in [
        (S - frame.len(), (Answer::DONE, Stretch { at: S - 4, len: 3 })),
        (S - frame.len() + 1, (Answer::STALE, Stretch::default())),
        (S - 1, (Answer::STALE, Stretch::default())),
        (S, (Answer::STALE, Stretch::default())),
        (S + 1, (Answer::STALE, Stretch::default())),
    ] {
        let mut image = vec![0xFF; 3 * S];
        image[place..place + frame.len()].copy_from_slice(&frame);
        let mut twin = Twin::of_blocks(3, &image);
        let places = places([(5, place as u16)]);
        let idle = Idle { length: 3 * S, block: 0, end: 16, blocks: 3, edition: 1, pending: [0; 4], places };
        twin.forge(idle);
        assert_eq!(read(&mut twin, 0, &message::read(5)), expected, "{place}");
        for block in [1, 2, 3, 255] {
            twin.forge(Idle { block, ..idle });
            assert_eq!(refused(&mut twin, 0, &message::read(5)), Answer::STALE, "{place}, block {block}");
            assert_eq!(refused(&mut twin, 0, &message::read(6)), Answer::NO_OBJECT);
        }
    }
}
