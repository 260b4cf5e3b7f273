//! K8: the record's places after each kind of job, and that all requests but a read check them.

use super::convert::{done, filled, header, idle, second, serve};
use check::mend;
use check::twin::{Call, Twin, UNWRITTEN};
use model::edition::Edition::First;
use model::frame::{self, Host, Id};
use store::{Answer, Idle, message, places};

const LENGTH: usize = 512;
const S: usize = LENGTH / 2;

/// Each settled object of a board, and its frame's place.
fn placed(twin: &Twin) -> Vec<(u8, u16)> {
    (0..=255).zip(idle(twin).places).filter(|(_, place)| *place != 0).collect()
}

/// Places come with a commit, in the order of its host's list; a delete and an abort leave none.
#[test]
fn what_a_commit_settles() {
    let mut twin = Twin::formatted(LENGTH);
    serve(&mut twin, 0, &message::put(1, b"a")); // 16, 9 bytes
    serve(&mut twin, 1, &message::put(1, b"b")); // 25
    serve(&mut twin, 0, &message::put(2, b"c")); // 34
    serve(&mut twin, 0, &message::delete(2)); // 43, 8 bytes
    serve(&mut twin, 0, &message::put(3, b"d")); // 51
    serve(&mut twin, 0, &message::put(3, b"e")); // 60
    assert_eq!(placed(&twin), []);
    serve(&mut twin, 0, &message::commit()); // 69, 6 bytes
    assert_eq!(placed(&twin), [(1, 16), (3, 60)]);
    serve(&mut twin, 2, &message::put(3, b"f")); // 75
    serve(&mut twin, 2, &message::put(0, b"")); // 84, 8 bytes
    serve(&mut twin, 2, &message::abort()); // 92
    serve(&mut twin, 2, &message::delete(3)); // 98
    assert_eq!(placed(&twin), [(1, 16), (3, 60)]);
    serve(&mut twin, 2, &message::commit()); // 106
    assert_eq!(placed(&twin), [(1, 16)]);
    serve(&mut twin, 1, &message::commit()); // 112
    assert_eq!(placed(&twin), [(1, 25)]);
    assert_eq!(twin.serve(3, &message::commit()), done(0));
    assert_eq!(placed(&twin), [(1, 25)]);
}

/// Settled objects 1, 2 and 4; host 0 has put 2 and deleted 1, host 1 has put 1, 3 and 4; frames end at the block's very end.
fn before_a_transfer() -> Twin {
    let mut twin = Twin::formatted(LENGTH);
    for id in [1, 2, 4] {
        serve(&mut twin, 3, &message::put(id, &[id]));
    }
    serve(&mut twin, 3, &message::commit()); // up to 49
    serve(&mut twin, 0, &message::put(2, b"zero")); // 49, 12 bytes
    serve(&mut twin, 1, &message::put(1, b"one")); // 61, 11 bytes
    serve(&mut twin, 0, &message::delete(1)); // 72, 8 bytes
    serve(&mut twin, 1, &message::put(3, b"")); // 80, 8 bytes
    serve(&mut twin, 1, &message::put(4, b"")); // 88, 8 bytes
    for size in [60, 64] {
        serve(&mut twin, 2, &message::put(9, &vec![9; size]));
        serve(&mut twin, 2, &message::abort());
    }
    assert_eq!((idle(&twin).end, placed(&twin)), (248, vec![(1, 16), (2, 25), (4, 34)]));
    serve(&mut twin, 2, &message::put(9, b"")); // 248
    assert_eq!(usize::from(idle(&twin).end), S);
    twin
}

/// C is 16 + 3 * 8 + 12 + 11 + 8 + 8 + 8 + 8 = 95. In the new block the settled frames stand at 16, 24 and 32, host 0's changes
/// at 40 and 63, host 1's at 52, 71 and 79, host 2's at 87.
#[test]
fn a_commit_with_a_transfer() {
    for (host, settled) in [
        (0, vec![(2, 40), (4, 32)]),
        (1, vec![(1, 52), (2, 24), (3, 71), (4, 79)]),
        (2, vec![(1, 16), (2, 24), (4, 32), (9, 87)]),
    ] {
        let mut twin = before_a_transfer();
        assert_eq!(twin.serve(host, &message::commit()), done(95 - 5 + 6));
        assert_eq!((placed(&twin), idle(&twin).block), (settled, 1), "host {host}");
        let objects = twin.ids();
        assert_eq!(objects, placed(&twin).iter().map(|(id, _)| *id).collect::<Vec<u8>>());
    }
}

/// Nothing but what was settled has a place after the transfer of another job.
#[test]
fn other_jobs_with_a_transfer() {
    let moved = [(1, 16), (2, 24), (4, 32)];
    for message in [message::abort(), message::put(7, b"x"), message::delete(2)] {
        let mut twin = before_a_transfer();
        serve(&mut twin, 1, &message);
        assert_eq!((placed(&twin), idle(&twin).block), (moved.to_vec(), 1));
    }
    let mut twin = before_a_transfer();
    assert_eq!(twin.whole(&Call::Mount), done(16 + 3 * 8 - 5));
    assert_eq!((placed(&twin), idle(&twin).block), (moved.to_vec(), 1));
    for host in 0..4 {
        assert_eq!(twin.serve(host, &message::commit()), done(0));
    }
    assert_eq!(placed(&twin), moved);
}

/// A convert makes frames of 12 bytes where those of edition 1 had 8; with nothing to do it changes no place.
#[test]
fn a_convert() {
    let mut twin = before_a_transfer();
    assert_eq!(twin.whole(&Call::Mount), done(35));
    assert_eq!(twin.serve(2, &message::convert()), done(16 + 3 * 12 - 5));
    assert_eq!((placed(&twin), idle(&twin).block), (vec![(1, 16), (2, 28), (4, 40)], 0));
    assert_eq!(twin.serve(2, &message::convert()), done(0));
    serve(&mut twin, 0, &message::put(2, b"xy")); // 52, 14 bytes
    serve(&mut twin, 0, &message::commit());
    assert_eq!(placed(&twin), [(1, 16), (2, 52), (4, 40)]);
}

/// A mount finds the places that the last commit left, also where it closes a frame and drops changes; a format leaves none.
#[test]
fn mounts_and_a_format() {
    let mut twin = Twin::formatted(LENGTH);
    serve(&mut twin, 0, &message::put(1, b"a")); // 16
    serve(&mut twin, 0, &message::put(255, b"b")); // 25
    serve(&mut twin, 0, &message::commit()); // 34
    let settled = [(1, 16), (255, 25)];
    assert_eq!(twin.whole(&Call::Mount), done(0));
    assert_eq!(placed(&twin), settled);
    serve(&mut twin, 2, &message::delete(1));
    serve(&mut twin, 2, &message::put(255, b"c"));
    assert_eq!(twin.ask(2, &message::commit()), Answer::MORE);
    assert_eq!(twin.call(&Call::Run(5)).answer, Answer::MORE);
    assert_eq!(twin.whole(&Call::Mount), done(2 + 5));
    assert_eq!(placed(&twin), settled);
    assert_eq!(twin.whole(&Call::Format), done(12));
    assert_eq!(placed(&twin), []);
}

/// A commit's places are the board's only when its last byte stands. Cut before it, a mount finds the others: the old block is
/// full, and what is settled moves.
#[test]
fn a_commit_that_is_cut() {
    for cut in 0..=95 - 5 + 6 {
        let mut twin = before_a_transfer();
        assert_eq!(twin.ask(0, &message::commit()), Answer::MORE);
        twin.call(&Call::Run(cut));
        assert_eq!(twin.whole(&Call::Mount).0, Answer::DONE);
        let expected = if cut < 96 { vec![(1, 16), (2, 24), (4, 32)] } else { vec![(2, 40), (4, 32)] };
        assert_eq!(placed(&twin), expected, "{cut} steps");
    }
}

/// A transfer of 256 objects: the last place is 16 + 255 * 97.
#[test]
fn places_of_every_id() {
    let frames: Vec<u8> = (0..=255).flat_map(|id| frame::settled(First, Id(id), &[id; 90])).collect();
    let size = 32_768;
    let mut block = filled(&[&header(1, 3), &frames, &frame::delete(First, Host(1), Id(7))], size);
    mend::stuff(&mut block, 16 + frames.len() + 8, First);
    let mut twin = Twin::new(&[filled(&[], size), block].concat());
    assert_eq!(twin.whole(&Call::Mount), done(16 + 256 * 97 - 5));
    let expected: Vec<(u8, u16)> = (0..=255).map(|id| (id, 16 + 97 * u16::from(id))).collect();
    assert_eq!((placed(&twin), idle(&twin).block), (expected, 0));
    assert_eq!(twin.value(255), Some(vec![255; 90]));
}

/// Two objects are settled and one is put anew.
fn settled_in(mut twin: Twin) -> Twin {
    serve(&mut twin, 0, &message::put(5, b"AB"));
    serve(&mut twin, 0, &message::put(6, b"CD"));
    serve(&mut twin, 0, &message::commit());
    serve(&mut twin, 1, &message::put(5, b"EF"));
    twin
}

/// All requests but a read get 11, whoever asks, and change nothing.
fn refused(twin: &mut Twin, wrong: Idle) {
    let image = twin.image().to_vec();
    let changes = [message::put(1, b"x"), message::delete(5), message::commit()];
    let others = [message::log(), message::convert(), vec![]];
    twin.forge(wrong);
    for (host, message) in (0..).zip(changes.into_iter().chain(others)) {
        let outcome = twin.call(&Call::Request { host: host % 4, message, reply: message::PAGE });
        assert_eq!((outcome.answer, outcome.reply), (Answer::STALE, vec![UNWRITTEN; message::PAGE]), "{wrong:?}");
    }
    assert_eq!(twin.call(&Call::Read { host: 0, message: vec![] }).answer, Answer::MALFORMED);
    assert_eq!((twin.image(), twin.idle()), (&image[..], Some(wrong)));
}

/// One place of another number, of any id, in both editions; and none at all.
#[test]
fn records_of_other_places() {
    for mut twin in [Twin::formatted(LENGTH), second(LENGTH)].map(settled_in) {
        let right = idle(&twin);
        let near = [0, 15, 16, 17, 42, 256, 65_535, right.places[6]];
        for (id, place) in (0..256).flat_map(|id| near.map(|place| (id, place))) {
            let mut wrong = right;
            wrong.places[id] = place;
            if wrong != right {
                refused(&mut twin, wrong);
            }
        }
        refused(&mut twin, Idle { places: places([]), ..right });
        twin.forge(right);
        serve(&mut twin, 1, &message::abort());
        assert_eq!(twin.value(5), Some(b"AB".to_vec()));
    }
}
