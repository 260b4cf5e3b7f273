//! The traps the desk has seen, and what the bench rows do not show.

use check::cuts::{Allowed, Cuts, Start};
use check::twin::{Call, Twin};
use model::block::{self, Block};
use model::block_of;
use store::{Answer, Idle, message, places};

const LENGTH: usize = 512;
const S: usize = LENGTH / 2;

fn done(steps: usize) -> (Answer, usize) {
    (Answer::DONE, steps)
}

fn cut_and_mount(twin: &mut Twin) -> (Answer, usize) {
    let image = twin.image().to_vec();
    twin.load(&image);
    twin.whole(&Call::Mount)
}

fn put(twin: &mut Twin, host: u8, id: u8, value: &[u8]) {
    assert_eq!(twin.serve(host, &message::put(id, value)).0, Answer::DONE);
}

fn commit(twin: &mut Twin, host: u8) {
    assert_eq!(twin.serve(host, &message::commit()).0, Answer::DONE);
}

/// Ids 7 and 9 are settled, hosts 3 and 0 have a put pending each, and a frame of 72 bytes needs a transfer.
fn before_a_transfer() -> Twin {
    let mut twin = Twin::formatted(LENGTH);
    put(&mut twin, 1, 7, b"seven");
    put(&mut twin, 1, 9, &[]);
    commit(&mut twin, 1);
    put(&mut twin, 3, 8, b"eight");
    for _ in 0..2 {
        put(&mut twin, 0, 1, &[1; 40]);
        assert_eq!(twin.serve(0, &message::abort()), done(6));
    }
    put(&mut twin, 0, 2, &[3; 20]);
    assert_eq!(twin.idle().map(|idle| idle.end), Some(192));
    twin
}

/// 004's marks 0xEE and 0xDD: ours, and every byte programmed, only clear bits (`Nor` panics otherwise).
#[test]
fn the_state_byte_only_clears_bits() {
    let mut twin = before_a_transfer();
    assert_eq!(twin.ask(0, &message::put(1, &[2; 64])), Answer::MORE);
    let mut states = vec![twin.image()[S + 8]];
    while twin.busy() {
        assert!(!twin.step().refused());
        states.push(twin.image()[S + 8]);
    }
    states.dedup();
    assert_eq!(states, [0xFF, 0xFE, 0xFC]);
}

#[test]
fn values_of_0xff_and_0xfe_are_values() {
    for value in [vec![0xFF; 64], vec![0xFE; 64], vec![0xFF], vec![0xFE], [[0xFF; 31], [0xFE; 31]].concat()] {
        let mut twin = Twin::formatted(LENGTH);
        put(&mut twin, 0, 1, &value);
        commit(&mut twin, 0);
        put(&mut twin, 0, 2, &value);
        let end = twin.idle().map(|idle| idle.end);
        assert_eq!(end, Some((16 + 8 + value.len() + 6 + 8 + value.len()) as u16));
        // a reset drops the second; then a convert copies the first
        assert_eq!(cut_and_mount(&mut twin), done(5));
        assert_eq!(twin.idle().map(|idle| idle.end), end.map(|end| end + 5));
        assert_eq!((twin.ids(), twin.value(1)), (vec![1], Some(value.clone())));
        assert_eq!(twin.serve(0, &message::convert()), done(16 + 11 + value.len() - 5));
        assert_eq!((twin.ids(), twin.value(1)), (vec![1], Some(value)));
    }
}

/// A put cut after each of its bytes is torn, also where the bytes programmed last are 0xFF. There are eight images before its
/// finish byte, and nine more while these are closed: two and the closed frame where the body was not begun, two for each of
/// the three bytes before the value. Behind the finish byte six: the put, and a reset after each byte; and eight with that reset
/// torn, closed in three more steps, and another behind it.
#[test]
fn a_put_of_0xff_cut_anywhere() {
    let mut twin = Twin::formatted(LENGTH);
    put(&mut twin, 0, 1, b"kept");
    commit(&mut twin, 0);
    let image = twin.image().to_vec();
    let call = Call::Request { host: 0, message: message::put(1, &[0xFF; 64]), reply: 0 };
    let start = Start { image: &image, idle: twin.idle(), call: &call };
    let objects = [(1, b"kept".to_vec())].into();
    let mut cuts = Cuts::everywhere(LENGTH);
    cuts.of_job(&start, Allowed::Exactly(&objects), &objects);
    assert_eq!(cuts.cuts, 8 + 9 + 1 + 6 + 8);
}

#[test]
fn one_block_is_valid_after_every_step_of_a_transfer() {
    let mut twin = before_a_transfer();
    assert_eq!(twin.ask(0, &message::put(1, &[2; 64])), Answer::MORE);
    while twin.busy() {
        let valid = |block| matches!(block::read(block_of(twin.image(), 2, block)), Block::Valid(_));
        assert!(valid(0) || valid(1));
        assert!(!twin.step().refused());
    }
}

#[test]
fn a_commit_after_a_restart_finds_nothing_pending() {
    let mut twin = Twin::formatted(LENGTH);
    put(&mut twin, 2, 1, b"left");
    assert_eq!(cut_and_mount(&mut twin), done(5));
    assert_eq!(twin.serve(2, &message::commit()), done(0));
    assert_eq!(twin.ids(), []);
    put(&mut twin, 2, 4, b"new");
    commit(&mut twin, 2);
    assert_eq!(twin.ids(), [4]);
}

/// The time is stored inverted: each transfer takes one from those bytes, and bits that fade to 1 look older. A put and its
/// abort, a put and a delete end at 16 + 108 + 6 + 115 + 8 = 253, where no reset fits.
#[test]
fn the_time_is_inverted() {
    let mut twin = Twin::formatted(LENGTH);
    for time in 2..=300u32 {
        put(&mut twin, 0, 1, &[7; 100]);
        assert_eq!(twin.serve(0, &message::abort()), done(6));
        put(&mut twin, 0, 1, &[7; 107]);
        assert_eq!(twin.serve(0, &message::delete(1)), done(8));
        assert_eq!(cut_and_mount(&mut twin), done(11));
        let base = S * usize::from(twin.idle().expect("idle").block);
        assert_eq!(twin.image()[base + 4..base + 8], (!time).to_le_bytes());
    }
    let mut image = twin.image().to_vec();
    let (older, current) = image.split_at_mut(S);
    older.copy_from_slice(current);
    older[5] = 0xFF;
    twin.load(&image);
    assert_eq!(twin.whole(&Call::Mount), done(1));
    let (pending, places) = ([0; 4], [0; 256]);
    let idle = Idle { length: LENGTH, block: 1, end: 16, blocks: 2, edition: 1, pending, places };
    assert_eq!(twin.idle(), Some(idle));
}

#[test]
fn an_abort_drops_its_hosts_changes_only() {
    let mut twin = Twin::formatted(LENGTH);
    put(&mut twin, 0, 1, b"zero");
    put(&mut twin, 1, 1, b"one");
    assert_eq!(twin.serve(0, &message::abort()), done(6));
    assert_eq!(twin.serve(0, &message::commit()), done(0));
    assert_eq!(twin.value(1), None);
    commit(&mut twin, 1);
    assert_eq!(twin.value(1), Some(b"one".to_vec()));
}

/// Commits decide, not puts: the value that stands lower in the block is the one read.
#[test]
fn the_later_commit_wins_over_the_later_put() {
    let mut twin = Twin::formatted(LENGTH);
    put(&mut twin, 0, 1, b"first put");
    put(&mut twin, 1, 1, b"second put");
    commit(&mut twin, 1);
    assert_eq!(twin.value(1), Some(b"second put".to_vec()));
    commit(&mut twin, 0);
    assert_eq!(twin.value(1), Some(b"first put".to_vec()));
}

#[test]
fn changes_of_one_host_apply_in_order() {
    let mut twin = Twin::formatted(LENGTH);
    put(&mut twin, 0, 1, b"a");
    put(&mut twin, 0, 1, b"b");
    put(&mut twin, 0, 2, b"c");
    assert_eq!(twin.serve(0, &message::delete(2)), done(8));
    assert_eq!(twin.serve(0, &message::delete(3)), done(8));
    commit(&mut twin, 0);
    assert_eq!(twin.ids(), [1]);
    assert_eq!(twin.value(1), Some(b"b".to_vec()));
}

/// An empty value is an object, and its stretch stands after the id.
#[test]
fn an_empty_value() {
    let mut twin = Twin::formatted(LENGTH);
    put(&mut twin, 0, 0, &[]);
    commit(&mut twin, 0);
    let outcome = twin.call(&Call::Read { host: 3, message: message::read(0) });
    assert_eq!((outcome.answer, outcome.stretch.at, outcome.stretch.len), (Answer::DONE, 23, 0));
    assert_eq!(twin.log()[8..12], [1, 0, 23, 0]);
}

/// C is 16, 12 + 7 of settled frames and 13 + 28 of pending ones: 71 transfer steps, then the frame of 72 bytes.
#[test]
fn pending_changes_go_over_a_transfer() {
    let mut twin = before_a_transfer();
    assert_eq!(twin.serve(0, &message::put(1, &[2; 64])), done(71 + 72));
    let (pending, places) = ([28 + 72, 0, 0, 13], places([(7, 16), (9, 28)]));
    let idle = Idle { length: LENGTH, block: 1, end: 148, blocks: 2, edition: 1, pending, places };
    assert_eq!(twin.idle(), Some(idle));

    let settled_7 = [&[0x0C, 0, 5, 0, 7, 0][..], b"seven", &[0xFE]].concat();
    let settled_9 = vec![0x07, 0, 5, 0, 9, 0, 0xFE];
    let put_8 = [&[0x0D, 0, 1, 0, 3, 8, 0][..], b"eight", &[0xFE]].concat();
    assert_eq!(twin.image()[S + 16..S + 48], [settled_7, settled_9, put_8].concat());

    commit(&mut twin, 3);
    commit(&mut twin, 0);
    assert_eq!(twin.ids(), [1, 2, 7, 8, 9]);
    assert_eq!(twin.value(8), Some(b"eight".to_vec()));
}

/// Room for a delete is C + 8 + 6·open; with two hosts' changes pending that is 16 + 2·71 + 72 + 8 + 12 = 250, then 258. The
/// first commit would end at 258 too, and comes with a transfer.
#[test]
fn a_refused_delete() {
    let mut twin = Twin::formatted(LENGTH);
    for id in 1..=3 {
        put(&mut twin, 0, id, &[id; 64]);
        if id < 3 {
            commit(&mut twin, 0);
        }
    }
    assert_eq!(twin.serve(1, &message::delete(3)), done(8));
    assert_eq!(twin.ask(1, &message::delete(3)), Answer::NO_ROOM);
    assert_eq!(twin.ask(2, &message::delete(3)), Answer::NO_ROOM);
    assert_eq!(twin.serve(1, &message::commit()), done(238 - 5 + 6));
    assert_eq!(twin.serve(0, &message::commit()), done(6));
    assert_eq!(twin.ids(), [1, 2, 3]);
}

/// Exactly: with C = 16 + 71 + 71 + 76 + 8 = 242 a delete makes 242 + 8 + 6 = 256, with 243 one more.
#[test]
fn a_delete_at_the_limit() {
    for (size, expected) in [(69, Answer::MORE), (70, Answer::NO_ROOM)] {
        let mut twin = Twin::formatted(LENGTH);
        for (id, size) in [(1, 64), (2, 64), (3, size)] {
            put(&mut twin, 0, id, &vec![id; size]);
            commit(&mut twin, 0);
        }
        assert_eq!(twin.serve(0, &message::delete(1)).0, Answer::DONE);
        assert_eq!(twin.ask(0, &message::delete(2)), expected);
    }
}

#[test]
fn cuts_in_a_transfers_first_steps() {
    for cut in 0..8 {
        let mut twin = before_a_transfer();
        assert_eq!(twin.ask(0, &message::put(1, &[2; 64])), Answer::MORE);
        for _ in 0..cut {
            assert_eq!(twin.step(), Answer::MORE);
        }
        // frames end at 192: a reset fits
        assert_eq!(cut_and_mount(&mut twin), done(usize::from(cut > 0) + 5));
        assert_eq!(twin.ids(), [7, 9]);
    }
}

/// Format writes seven different images that are no store, between the erases and its last step.
#[test]
fn a_format_cut_anywhere() {
    let mut twin = before_a_transfer();
    let objects = [(7, b"seven".to_vec()), (9, vec![])].into();
    for current in [0, 1] {
        assert_eq!(twin.idle().map(|idle| idle.block), Some(current));
        let image = twin.image().to_vec();
        let start = Start { image: &image, idle: None, call: &Call::Format };
        let mut cuts = Cuts::everywhere(LENGTH);
        cuts.of_job(&start, Allowed::OrGone(&objects), &Default::default());
        assert_eq!(cuts.twin.tally.of("mount", Answer::NO_STORE), 7);
        assert_eq!(twin.serve(current, &message::put(1, &[2; 64])).0, Answer::DONE);
    }
}
