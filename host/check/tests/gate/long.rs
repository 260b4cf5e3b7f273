//! K2: values of up to 240 bytes, so frames of up to 248.

use check::book::Objects;
use check::cuts::{Allowed, Cuts, Start};
use check::twin::{Call, Outcome, Twin};
use model::edition::Edition;
use store::{Answer, Head, Idle, Stretch, message, places};

const LENGTH: usize = 1_024;
const LONGEST_VALUE: usize = 240;
const LONGEST_FRAME: usize = 248;
/// What host 0 has committed before the tests: object 1, whose put (12 bytes) and commit (6) end at 34.
const KEPT: &[u8] = b"kept";

fn done(steps: usize) -> (Answer, usize) {
    (Answer::DONE, steps)
}

/// One object is settled, in the frame at this place.
fn idle(block: u8, end: usize, object: (u8, u16)) -> Head {
    let (end, pending, places) = (end as u16, [0; 4], places([object]));
    Head::Idle(Idle { length: LENGTH, block, end, blocks: 2, edition: 1, pending, places })
}

fn request(host: u8, message: Vec<u8>) -> Call {
    Call::Request { host, message, reply: 0 }
}

fn kept() -> Twin {
    let mut twin = Twin::formatted(LENGTH);
    assert_eq!(twin.serve(0, &message::put(1, KEPT)), done(12));
    assert_eq!(twin.serve(0, &message::commit()), done(6));
    assert_eq!(twin.head(), idle(0, 34, (1, 16)));
    twin
}

/// Bytes that a reader might take for erased flash, for a finish byte, or for neither.
fn values() -> [Vec<u8>; 3] {
    [vec![0xFF; LONGEST_VALUE], vec![0xFE; LONGEST_VALUE], (0..240).collect()]
}

/// Some steps of the job in hand, a power cut, and the mount after it: answer and steps.
fn cut_after(twin: &mut Twin, steps: usize) -> (Answer, usize) {
    for _ in 0..steps {
        assert!(!twin.step().refused());
    }
    let image = twin.image().to_vec();
    twin.load(&image);
    twin.whole(&Call::Mount)
}

/// Each program has the limit as a constant of its own.
#[test]
fn one_limit() {
    assert_eq!([model::frame::VALUE_LIMIT, plain::VALUE_LIMIT, library::VALUE_LIMIT], [LONGEST_VALUE; 3]);
    let frames = Edition::ALL.map(|edition| edition.change() + LONGEST_VALUE);
    assert_eq!(frames, [LONGEST_FRAME, LONGEST_FRAME + 4]);
}

#[test]
fn values_of_every_length() {
    for size in 0..=LONGEST_VALUE {
        let mut twin = Twin::formatted(LENGTH);
        let value = vec![size as u8; size];
        assert_eq!(twin.serve(3, &message::put(255, &value)), done(8 + size));
        assert_eq!(twin.serve(3, &message::commit()), done(6));
        assert_eq!(twin.head(), idle(0, 16 + 8 + size + 6, (255, 16)));
        assert_eq!(twin.value(255), Some(value));
    }
    for size in [241, 242, 246, 247, 248, 249, 250, 255, 256, 257, 300, 65_529] {
        assert_eq!(kept().ask(0, &message::put(1, &vec![0; size])), Answer::MALFORMED, "{size} bytes");
    }
}

/// A put may have half a block: of 256 bytes 8 + 120, of 384 bytes 8 + 184, of 512 more than the longest has. An empty store
/// has room for each of them. 1 goes before 12, and 12 before 7: 16 + 248 + 6 + 14 = 284.
#[test]
fn room_in_small_blocks() {
    let answer = |length: usize, size: usize| Twin::formatted(length).ask(0, &message::put(1, &vec![0; size]));
    for (length, most) in [(512, 120), (768, 184), (1_024, 240)] {
        for size in 0..=most {
            assert_eq!(answer(length, size), Answer::MORE, "{size} bytes");
        }
        for size in most + 1..=240 {
            assert_eq!(answer(length, size), Answer::HOST_FULL, "{size} bytes");
        }
        assert_eq!(answer(length, 241), Answer::MALFORMED);
    }
}

/// Pending, a value of 240 bytes leaves its host 8 bytes of half a block, an empty value. It makes C = 264: with 8 + 214 + 12
/// + 14 for another host that is 512. Settled, it makes U = 263, and a value of 221 bytes fits.
#[test]
fn room_beside_a_long_value() {
    let hosts_own = (0, false, 0, Answer::HOST_FULL);
    for (host, commits, most, refusal) in
        [hosts_own, (1, false, 214, Answer::NO_ROOM), (1, true, 221, Answer::NO_ROOM)]
    {
        let mut twin = Twin::formatted(LENGTH);
        assert_eq!(twin.serve(0, &message::put(1, &[7; LONGEST_VALUE])), done(LONGEST_FRAME));
        if commits {
            assert_eq!(twin.serve(0, &message::commit()), done(6));
            assert_eq!(twin.log()[8..14], [1, 0, 7, 1, 0, 2]);
        }
        assert_eq!(twin.ask(host, &message::put(2, &vec![0; most + 1])), refusal);
        assert_eq!(twin.ask(host, &message::put(2, &vec![0; most])), Answer::MORE);
    }
}

/// How many bytes of a frame that was cut after so many are changed to close it.
fn closes(cut: usize) -> usize {
    [0, 4, 3, 3].get(cut).copied().unwrap_or(2)
}

/// The torn frame is closed in place: length's high byte, kind and finish byte, those that are not so already. The whole frame is
/// pending, and a reset drops it.
#[test]
fn a_put_cut_after_each_byte() {
    for value in values() {
        let frame = [&[0xF8, 0, 1, 0, 0, 1, 0][..], &value, &[0xFE]].concat();
        for cut in 0..=LONGEST_FRAME {
            let mut twin = kept();
            let mut image = twin.image().to_vec();
            assert_eq!(twin.ask(0, &message::put(1, &value)), Answer::MORE);
            let (steps, end) = match cut {
                0 => (0, 34),
                LONGEST_FRAME => (5, 34 + LONGEST_FRAME + 5),
                _ => (closes(cut), 34 + LONGEST_FRAME),
            };
            image[34..34 + cut].copy_from_slice(&frame[..cut]);
            if cut == LONGEST_FRAME {
                image[end - 5..end].copy_from_slice(&[5, 0, 7, 0, 0xFE]);
            } else if cut > 0 {
                image[35..38].fill(0);
                image[end - 1] = 0xFE;
            }
            assert_eq!(cut_after(&mut twin, cut), done(steps), "{cut} bytes");
            assert_eq!((twin.image(), twin.head()), (&image[..], idle(0, end, (1, 16))), "{cut} bytes");
            assert_eq!(twin.value(1), Some(KEPT.to_vec()));
        }
    }
}

/// The commit's sixth byte decides: the put stands at 34, its value at 41, its end at 282.
#[test]
fn a_commit_of_a_long_value_cut_after_each_byte() {
    for value in values() {
        for cut in 0..=6 {
            let mut twin = kept();
            assert_eq!(twin.serve(0, &message::put(1, &value)), done(LONGEST_FRAME));
            assert_eq!(twin.ask(0, &message::commit()), Answer::MORE);
            let recovered = cut_after(&mut twin, cut);
            let Outcome { answer, stretch, .. } = twin.call(&Call::Read { host: 2, message: message::read(1) });
            assert_eq!(answer, Answer::DONE);
            if cut < 6 {
                assert_eq!((recovered, stretch.of(twin.image())), (done(closes(cut) + 5), KEPT));
                assert_eq!(twin.head(), idle(0, 282 + if cut == 0 { 5 } else { 11 }, (1, 16)));
            } else {
                assert_eq!((recovered, stretch), (done(0), Stretch { at: 41, len: LONGEST_VALUE }));
                assert_eq!(stretch.of(twin.image()), value);
                assert_eq!(twin.head(), idle(0, 288, (1, 34)));
            }
        }
    }
}

/// Cuts in the put, in its commit, and in the restart that moves the value to block 1 (U = 16 + 247), and in every recovery
/// from them. A put of 206 bytes and a delete, pending, end at 288 + 214 + 8 = 510, where no reset fits.
#[test]
fn long_values_cut_anywhere() {
    for value in values() {
        let mut twin = kept();
        let before = Objects::from([(1, KEPT.to_vec())]);
        let after = Objects::from([(1, value.clone())]);
        let mut cuts = Cuts::everywhere(LENGTH);
        let mut job = |twin: &Twin, idle: Option<Idle>, call: &Call, before: &Objects, after: &Objects| {
            let image = twin.image().to_vec();
            cuts.of_job(&Start { image: &image, idle, call }, Allowed::Exactly(before), after);
        };
        let (put, commit) = (message::put(1, &value), message::commit());
        job(&twin, twin.idle(), &request(0, put.clone()), &before, &before);
        assert_eq!(twin.serve(0, &put), done(LONGEST_FRAME));
        job(&twin, twin.idle(), &request(0, commit.clone()), &before, &after);
        assert_eq!(twin.serve(0, &commit), done(6));
        assert_eq!(twin.value(1).as_ref(), Some(&value));
        assert_eq!(twin.serve(1, &message::put(1, &[1; 206])), done(214));
        assert_eq!(twin.serve(1, &message::delete(1)), done(8));
        job(&twin, None, &Call::Mount, &after, &after);
        assert_eq!(twin.whole(&Call::Mount), done(263 - 5));
        assert_eq!(twin.head(), idle(1, 263, (1, 16)));
        assert_eq!(twin.value(1).as_ref(), Some(&value));
        // Each step leaves an image of its own, unless it programs 0xFF: in the value, and in three bytes of the time.
        let changing = value.iter().filter(|byte| **byte != 0xFF).count();
        assert!(cuts.cuts as usize > (8 + changing) + 6 + (258 - 3 - LONGEST_VALUE + changing));
    }
}

/// Block 0 of a 2,048-byte image up to byte 1,020: an aborted put, two puts of host 0 and their commit, host 3's put.
fn before_a_transfer() -> Twin {
    let mut twin = Twin::formatted(2 * LENGTH);
    let put = |id: u8| message::put(id, &[id; LONGEST_VALUE]);
    assert_eq!(twin.serve(0, &put(1)), done(LONGEST_FRAME));
    assert_eq!(twin.serve(0, &message::abort()), done(6));
    assert_eq!(twin.serve(0, &put(9)), done(LONGEST_FRAME));
    assert_eq!(twin.serve(0, &put(4)), done(LONGEST_FRAME));
    assert_eq!(twin.serve(0, &message::commit()), done(6));
    assert_eq!(twin.serve(3, &put(7)), done(LONGEST_FRAME));
    let (pending, places) = ([0, 0, 0, 248], places([(4, 518), (9, 270)]));
    let idle = Idle { length: 2 * LENGTH, block: 0, end: 1_020, blocks: 2, edition: 1, pending, places };
    assert_eq!(twin.idle(), Some(idle));
    twin
}

/// Host 3's commit needs a transfer. U is 16 + 2 * 247 = 510, C is 510 + 248 = 758: 753 steps, then the commit's six.
#[test]
fn a_transfer_of_long_values() {
    let mut twin = before_a_transfer();
    assert_eq!(twin.serve(3, &message::commit()), done(753 + 6));
    let (pending, places) = ([0; 4], places([(4, 16), (7, 510), (9, 263)]));
    let idle = Idle { length: 2 * LENGTH, block: 1, end: 764, blocks: 2, edition: 1, pending, places };
    assert_eq!(twin.idle(), Some(idle));
    let value = |id: u8| vec![id; LONGEST_VALUE];
    let settled = |id: u8| [&[0xF7, 0, 5, 0, id, 0][..], &value(id), &[0xFE]].concat();
    let put = [&[0xF8, 0, 1, 0, 3, 7, 0][..], &value(7), &[0xFE]].concat();
    let frames = [settled(4), settled(9), put, vec![6, 0, 3, 0, 3, 0xFE]].concat();
    assert_eq!(twin.image()[LENGTH + 16..LENGTH + 764], frames);
    assert_eq!(twin.image()[LENGTH + 764..], [0xFF; LENGTH - 764]);
    assert_eq!(twin.image()[..LENGTH], [0xFF; LENGTH]);
    assert_eq!(twin.ids(), [4, 7, 9]);
    assert_eq!(twin.value(7), Some(value(7)));
}

#[test]
fn a_transfer_of_long_values_cut_anywhere() {
    let twin = before_a_transfer();
    let object = |id: u8| (id, vec![id; LONGEST_VALUE]);
    let (before, after) = ([object(4), object(9)].into(), [object(4), object(7), object(9)].into());
    let image = twin.image().to_vec();
    let start = Start { image: &image, idle: twin.idle(), call: &request(3, message::commit()) };
    let mut cuts = Cuts::everywhere(2 * LENGTH);
    cuts.of_job(&start, Allowed::Exactly(&before), &after);
    assert!(cuts.cuts > 753);
}
