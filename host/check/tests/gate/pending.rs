//! K7: a host's pending frames have half a block at most, and the record says how many bytes they have.

use super::blocks::NUMBERS;
use check::pending::of_block;
use check::twin::{Call, Twin};
use store::{Answer, Head, Idle, message};

const LENGTH: usize = 512;
const S: usize = LENGTH / 2;

fn done(steps: usize) -> (Answer, usize) {
    (Answer::DONE, steps)
}

fn put(id: u8, size: usize) -> Vec<u8> {
    message::put(id, &vec![id; size])
}

fn serve(twin: &mut Twin, host: u8, message: &[u8]) {
    assert_eq!(twin.serve(host, message).0, Answer::DONE);
}

/// What the record says, and that replay says the same.
fn pending(twin: &Twin) -> [u16; 4] {
    let idle = twin.idle().expect("idle");
    assert_eq!(idle.pending, of_block(twin.block(usize::from(idle.block))));
    idle.pending
}

/// The host's next put or delete of so many frame bytes at most is taken, of one more it is not.
fn room_for(twin: &mut Twin, host: u8, bytes: usize) {
    let before = (twin.head(), twin.image().to_vec());
    assert_eq!(twin.ask(host, &put(9, bytes - 7)), Answer::HOST_FULL, "host {host}");
    assert_eq!((twin.head(), twin.image()), (before.0, &before.1[..]));
    assert_eq!(twin.ask(host, &put(9, bytes - 8)), Answer::MORE, "host {host}");
    let Head::Idle(idle) = before.0 else { panic!("idle") };
    twin.load(&before.1);
    twin.forge(idle);
}

/// Frames of 72 and 56 bytes are 128, half of 256: the host's own, of whatever object, also one that is put again. Others'
/// don't count.
#[test]
fn half_a_block() {
    let mut twin = Twin::formatted(LENGTH);
    assert_eq!(twin.serve(2, &put(1, 64)), done(72));
    assert_eq!(twin.serve(1, &put(1, 20)), done(28));
    room_for(&mut twin, 2, 56);
    assert_eq!(twin.serve(2, &put(1, 48)), done(56));
    assert_eq!(pending(&twin), [0, 28, 128, 0]);
    for message in [put(1, 0), message::delete(1), message::delete(7)] {
        assert_eq!(twin.ask(2, &message), Answer::HOST_FULL);
    }
    assert_eq!(twin.serve(1, &message::delete(1)), done(8));
    assert_eq!(pending(&twin), [0, 36, 128, 0]);
}

/// Sixteen deletes are 128 bytes.
#[test]
fn deletes_count() {
    let mut twin = Twin::formatted(LENGTH);
    for number in 1..=16 {
        assert_eq!(twin.serve(3, &message::delete(5)), done(8));
        assert_eq!(pending(&twin), [0, 0, 0, 8 * number]);
    }
    assert_eq!(twin.ask(3, &message::delete(5)), Answer::HOST_FULL);
    assert_eq!(twin.serve(0, &message::delete(5)), done(8));
}

/// Half of a block, however many of them there are and whichever host asks.
#[test]
fn half_of_a_block_of_n() {
    for (blocks, size) in NUMBERS.flat_map(|blocks| [(blocks, 256), (blocks, 384)]) {
        let mut twin = Twin::formatted_of(blocks, size * usize::from(blocks));
        for host in 0..4 {
            room_for(&mut twin, host, size / 2);
        }
    }
    let mut twin = Twin::formatted(65_536);
    for number in 1..=66 {
        assert_eq!(twin.serve(1, &put(number as u8, 240)), done(248));
        assert_eq!(pending(&twin), [0, 248 * number, 0, 0]);
    }
    // 66 * 248 is 16,368 of 16,384
    room_for(&mut twin, 1, 16);
}

#[test]
fn a_commit_or_abort_clears_its_hosts_count() {
    for end in [message::commit(), message::abort()] {
        let mut twin = Twin::formatted(LENGTH);
        serve(&mut twin, 0, &put(1, 50));
        serve(&mut twin, 1, &put(2, 10));
        serve(&mut twin, 0, &message::delete(2));
        assert_eq!(pending(&twin), [66, 18, 0, 0]);
        serve(&mut twin, 0, &end);
        assert_eq!(pending(&twin), [0, 18, 0, 0]);
        assert_eq!(twin.serve(2, &end), done(0));
        room_for(&mut twin, 0, 128);
        serve(&mut twin, 1, &end);
        assert_eq!(pending(&twin), [0; 4]);
    }
}

/// A transfer for a put, a delete, a commit and an abort: others' counts stay, and the host's is what it is without one.
#[test]
fn a_transfer_keeps_the_counts() {
    for (message, count) in
        [(put(4, 64), 14 + 72), (message::delete(4), 14 + 8), (message::commit(), 0), (message::abort(), 0)]
    {
        let mut twin = Twin::formatted(LENGTH);
        serve(&mut twin, 3, &put(3, 1));
        serve(&mut twin, 0, &put(1, 6));
        while twin.idle().is_some_and(|idle| usize::from(idle.end) + 6 <= S) {
            let left = S - usize::from(twin.idle().expect("idle").end);
            // the last abort ends fewer than six bytes before the block does
            serve(&mut twin, 1, &put(2, (left - 14).min(40)));
            serve(&mut twin, 1, &message::abort());
        }
        assert_eq!(pending(&twin), [14, 0, 0, 9]);
        assert_eq!(twin.idle().map(|idle| idle.block), Some(0));
        serve(&mut twin, 0, &message);
        assert_eq!(twin.idle().map(|idle| idle.block), Some(1));
        assert_eq!(pending(&twin), [count, 0, 0, 9]);
    }
}

/// What was pending is dropped, with its count; a cut job's change has none.
#[test]
fn a_mount_or_format_clears_all_counts() {
    for (call, steps) in [(Call::Mount, [0, 5, 5]), (Call::Format, [12; 3])] {
        for (made, steps) in (0..3).zip(steps) {
            let mut twin = Twin::formatted(LENGTH);
            for host in 0..made {
                serve(&mut twin, host, &put(host, 30));
            }
            assert_eq!(twin.whole(&call), done(steps));
            assert_eq!(pending(&twin), [0; 4]);
            room_for(&mut twin, 0, 128);
        }
        let mut twin = Twin::formatted(LENGTH);
        assert_eq!(twin.ask(1, &put(1, 9)), Answer::MORE);
        assert_eq!(twin.call(&Call::Run(8)).answer, Answer::MORE);
        assert_eq!(twin.whole(&call).0, Answer::DONE);
        assert_eq!(pending(&twin), [0; 4]);
    }
}

/// Two values settled, a third pending, at this time: C is 230 of 256, frames end at 244, host 0 has 72 bytes.
fn nearly_full(time: u32) -> Twin {
    let mut twin = formatted_at(time);
    for message in [put(1, 64), message::commit(), put(2, 64), message::commit(), put(3, 64)] {
        serve(&mut twin, 0, &message);
    }
    assert_eq!(pending(&twin), [72, 0, 0, 0]);
    twin
}

/// 4, 10, 5, 2, 11 and 1 come before it, 7 and 6 after it: each of these requests is both.
#[test]
fn its_place_in_the_order() {
    let mut twin = nearly_full(u32::MAX);
    let too_much = put(4, 64);
    assert_eq!(twin.ask(0, &too_much), Answer::HOST_FULL);
    assert_eq!(twin.ask(1, &too_much), Answer::NO_ROOM);
    assert_eq!(twin.ask(0, &put(4, 241)), Answer::MALFORMED);
    assert_eq!(twin.ask(0, &[7, 0, 1, 1, 0, 1, 0]), Answer::MALFORMED);
    assert_eq!(twin.ask(4, &too_much), Answer::HOST_RANGE);
    let idle = twin.idle().expect("idle");
    twin.forge(Idle { end: idle.end - 1, ..idle });
    assert_eq!(twin.ask(0, &too_much), Answer::STALE);
    twin.forge(Idle { pending: [71, 0, 0, 0], ..idle });
    assert_eq!(twin.ask(0, &too_much), Answer::STALE);
    twin.unmount();
    assert_eq!(twin.ask(0, &too_much), Answer::NO_STORE);
    twin.forge(idle);
    twin.blocks = 1;
    assert_eq!(twin.ask(0, &too_much), Answer::IMAGE_LENGTH);
    twin.blocks = 2;
    assert_eq!(twin.ask(0, &message::commit()), Answer::MORE);
    assert_eq!(twin.ask(0, &too_much), Answer::BUSY);
}

fn formatted_at(time: u32) -> Twin {
    let mut twin = Twin::formatted(LENGTH);
    let mut image = twin.image().to_vec();
    image[4..8].copy_from_slice(&(!time).to_le_bytes());
    twin.swap_image(&image);
    twin
}

/// C is 88, and frames end at 244: there is room, but only after a transfer.
#[test]
fn before_the_last_time() {
    let mut twin = formatted_at(u32::MAX);
    for message in [put(1, 64), message::abort(), put(1, 64), message::abort(), put(1, 64)] {
        serve(&mut twin, 0, &message);
    }
    assert_eq!(twin.ask(0, &put(1, 49)), Answer::HOST_FULL);
    assert_eq!(twin.ask(0, &put(1, 48)), Answer::WORN);
}

/// Each count alone at other values, and counts that are right for another host: 11 to every request but a read, whoever asks.
#[test]
fn records_of_other_counts() {
    let mut twin = Twin::formatted(LENGTH);
    serve(&mut twin, 0, &put(1, 20));
    serve(&mut twin, 2, &put(1, 3));
    let (right, image) = (twin.idle().expect("idle"), twin.image().to_vec());
    assert_eq!(right.pending, [28, 0, 11, 0]);
    let near = (0..300).chain([0x1C00, 0x0B00, 0x8000, 0xFFE3, 0xFFFE, 0xFFFF]);
    let one = near.flat_map(|count| {
        (0..4).map(move |host| {
            let mut pending = right.pending;
            pending[host] = count;
            pending
        })
    });
    let moved = [[0, 28, 11, 0], [11, 0, 28, 0], [39, 0, 0, 0], [28, 11, 0, 0], [0; 4]];
    let messages = [put(1, 1), message::delete(1), message::commit(), message::abort(), message::log(), vec![]];
    for pending in one.chain(moved).filter(|pending| *pending != right.pending) {
        twin.forge(Idle { pending, ..right });
        for (message, host) in messages.iter().flat_map(|message| [(message, 0), (message, 1)]) {
            assert_eq!(twin.ask(host, message), Answer::STALE, "{pending:?}");
        }
        let read = twin.call(&Call::Read { host: 3, message: message::read(1) });
        assert_eq!((read.answer, read.stretch.len), (Answer::NO_OBJECT, 0));
        assert_eq!((twin.image(), twin.idle()), (&image[..], Some(Idle { pending, ..right })));
    }
    twin.forge(right);
    assert_eq!(twin.serve(2, &message::commit()), done(6));
    assert_eq!(pending(&twin), [28, 0, 0, 0]);
}

/// An image with more than half a block of one host's changes, which no store of now leaves, and the record that says so: the
/// host can commit or abort, and nothing else.
#[test]
fn more_than_half_a_block_from_before() {
    let frames: Vec<u8> =
        (1..=3).flat_map(|id| [&[72, 0, 1, 0, 1, id, 0][..], &[id; 64], &[0xFE]].concat()).collect();
    for (end, ids) in [(message::commit(), vec![1, 2, 3]), (message::abort(), vec![])] {
        let mut image = Twin::formatted(LENGTH).image().to_vec();
        image[16..16 + frames.len()].copy_from_slice(&frames);
        let mut twin = Twin::new(&image);
        let (pending, places) = ([0, 216, 0, 0], [0; 256]);
        twin.forge(Idle { length: LENGTH, block: 0, end: 232, blocks: 2, edition: 1, pending, places });
        for message in [put(1, 0), message::delete(1)] {
            assert_eq!(twin.ask(1, &message), Answer::HOST_FULL);
        }
        assert_eq!(twin.serve(1, &end), done(6));
        assert_eq!((self::pending(&twin), twin.ids()), ([0; 4], ids));
    }
}
