//! Limits that random runs reach by chance or not at all: each has a case of its own.

use super::blocks::{NUMBERS, Part, image, twin};
use check::pending::of_block;
use check::twin::{Call, Twin};
use store::{Answer, Fault, Field, Idle, message, places};

const LENGTH: usize = 512;
const S: usize = LENGTH / 2;

fn done(steps: usize) -> (Answer, usize) {
    (Answer::DONE, steps)
}

fn put(host: u8, id: u8, value: &[u8]) -> Vec<u8> {
    [&[8 + value.len() as u8, 0, 1, 0, host, id, 0], value, &[0xFE]].concat()
}

fn delete(host: u8, id: u8) -> Vec<u8> {
    vec![8, 0, 2, 0, host, id, 0, 0xFE]
}

/// Length, kind, inverted time, valid data, the rest.
fn header(time: u32) -> Vec<u8> {
    [&[0x10, 0, 1, 0x4A][..], &(!time).to_le_bytes(), &[0xFC], &[0xFF; 7]].concat()
}

/// Two blocks of so many bytes, the first with these frames; nobody has asked yet whether the record is right.
fn recorded(size: usize, time: u32, frames: &[Vec<u8>]) -> Twin {
    let mut image = [header(time), frames.concat()].concat();
    let end = image.len();
    assert!(end <= size);
    image.resize(2 * size, 0xFF);
    let mut twin = Twin::new(&image);
    let (pending, places) = (of_block(&image[..size]), check::places::of_block(&image[..size]));
    twin.forge(Idle { length: 2 * size, block: 0, end: end as u16, blocks: 2, edition: 1, pending, places });
    twin
}

/// Settled objects take 8 bytes each, a put and its commit 15: 16 + 256 * 15 = 3,856 of 4,096 bytes, and U = 2,064. After a
/// transfer and a put of 248 bytes, aborted puts of 6 * 254 + 132 + 128 bytes leave a mount no room for a reset.
#[test]
fn objects_of_every_id() {
    const SIZE: usize = 4_096;
    let mut twin = Twin::formatted(2 * SIZE);
    for id in 0..=255 {
        assert_eq!(twin.serve(0, &message::put(id, &[id])), done(9));
        assert_eq!(twin.serve(0, &message::commit()), done(6));
        let (count, used) = (u16::from(id) + 1, 16 + 8 * (u16::from(id) + 1));
        let page = [&[14, 0, 1, 2, 1, 0, 0, 0][..], &count.to_le_bytes(), &used.to_le_bytes(), &[0, 16]].concat();
        assert_eq!(twin.log(), page);
    }
    assert_eq!(twin.serve(1, &message::put(7, &[9; 240])), done(2_064 - 5 + 248));
    let settled: Vec<u8> = (0..=255).flat_map(|id| [8, 0, 5, 0, id, 0, id, 0xFE]).collect();
    let blank = vec![0xFF; SIZE];
    let moved = [header(2), settled.clone(), put(1, 7, &[9; 240]), blank[2_312..].to_vec()].concat();
    assert_eq!(twin.image(), [blank.clone(), moved].concat());
    for size in [240, 240, 240, 240, 240, 240, 118, 114] {
        assert_eq!(twin.serve(2, &message::put(7, &vec![1; size])), done(8 + size));
        assert_eq!(twin.serve(2, &message::abort()), done(6));
    }
    assert_eq!(twin.idle().map(|idle| usize::from(idle.end)), Some(SIZE));
    assert_eq!(twin.whole(&Call::Mount), done(2_064 - 5));
    let moved = [header(3), settled, blank[2_064..].to_vec()].concat();
    assert_eq!(twin.image(), [moved, blank].concat());
    assert_eq!(twin.ids(), Vec::from_iter(0..=255));
    assert_eq!(twin.log()[8..], [0, 1, 0x10, 8, 0, 16]);
}

/// C is 16 + 72 + 72 + 66 + 8 + 8 + 8 = 250, all of it host 0's, as a store of before K7 may leave it: one mark fits, and is the
/// last frame.
fn one_mark_left(before: &[Vec<u8>]) -> Twin {
    let puts = [put(0, 1, &[1; 64]), put(0, 2, &[2; 64]), put(0, 3, &[3; 58]), put(0, 4, &[])];
    recorded(S, 1, &[before, &puts, &[delete(0, 1), delete(0, 2)]].concat())
}

#[test]
fn a_mark_where_c_and_six_are_s() {
    // a commit that finds nothing pending takes up room, and does not count in C
    let idle_mark = vec![6, 0, 3, 0, 3, 0xFE];
    // the puts of ids 3 and 4 stand at 160 and 226, in the block that a transfer makes too
    let (settled, none) = (places([(3, 160), (4, 226)]), places([]));
    for (message, kind, ids, places) in
        [(message::abort(), 4, vec![], none), (message::commit(), 3, vec![3, 4], settled)]
    {
        let mut twin = one_mark_left(&[]);
        assert_eq!(twin.ask(0, &message::delete(3)), Answer::HOST_FULL);
        assert_eq!(twin.ask(1, &message::delete(3)), Answer::NO_ROOM);
        assert_eq!(twin.serve(0, &message), done(6));
        let idle =
            |block| Idle { length: LENGTH, block, end: 256, blocks: 2, edition: 1, pending: [0; 4], places };
        assert_eq!(twin.idle(), Some(idle(0)));
        assert_eq!(twin.ids(), ids);

        let mut twin = one_mark_left(std::slice::from_ref(&idle_mark));
        assert_eq!(twin.serve(0, &message), done(250 - 5 + 6));
        assert_eq!(twin.idle(), Some(idle(1)));
        assert_eq!(twin.image()[LENGTH - 6..], [6, 0, kind, 0, 0, 0xFE]);
        assert_eq!(twin.ids(), ids);
    }
}

/// Puts of so many hosts, with C + 6·open as given.
fn pending(open: u8, room: usize) -> Twin {
    let others: Vec<Vec<u8>> = (1..open).map(|host| put(host, host, &[])).collect();
    let left = room - 16 - 6 * usize::from(open) - others.concat().len() - 8;
    recorded(S, 1, &[others, vec![put(0, 9, &vec![7; left])]].concat())
}

/// 11 is given from S + 1 on, to a log too; with S every host can still commit.
#[test]
fn changes_that_leave_no_room_for_their_marks() {
    for open in 1..=4 {
        let mut right = pending(open, S);
        assert_eq!(right.ask(0, &message::log()), Answer::DONE);
        for host in (0..open).rev() {
            assert_eq!(right.serve(host, &message::commit()), done(6), "{open} hosts");
        }
        assert_eq!(right.ids().len(), usize::from(open));

        let mut wrong = pending(open, S + 1);
        for message in [message::log(), message::commit(), message::abort(), vec![]] {
            assert_eq!(wrong.ask(0, &message), Answer::STALE, "{open} hosts");
            let read = wrong.call(&Call::Read { host: 3, message });
            assert_eq!((read.answer, read.stretch.len), (Answer::MALFORMED, 0));
        }
    }
}

/// Only page 1 is there.
#[test]
fn log_pages() {
    for page in 0..=255 {
        let mut twin = Twin::formatted(LENGTH);
        let expected = if page == 1 { Answer::DONE } else { Answer::MALFORMED };
        assert_eq!(twin.ask(0, &message::message(message::LOG, &[page])), expected, "page {page}");
    }
}

/// The time of the next block, told by the log, in flash and by which block counts. Frames end at 16 + 108 + 6 + 115 + 8 = 253.
#[test]
fn times_with_a_carry() {
    let times = [0xFF, 0xFFFF, 0x00FF_FFFF, 0x7FFF_FFFF, 0x0001_FFFF, 0x0102_FFFF, u32::MAX - 1];
    for time in times {
        let abort = vec![6, 0, 4, 0, 0, 0xFE];
        let frames = [put(0, 1, &[7; 100]), abort, put(0, 1, &[7; 107]), delete(0, 1)];
        let mut store = recorded(S, time, &frames);
        assert_eq!(store.log()[4..8], time.to_le_bytes());
        assert_eq!(store.whole(&Call::Mount), done(11));
        assert_eq!(store.log()[4..8], (time + 1).to_le_bytes());
        assert_eq!(store.image()[S..S + 16], header(time + 1));
        for (parts, current) in [([time, time + 1], 1), ([time + 1, time], 0)] {
            let mut store = twin(&parts.map(Part::Valid));
            assert_eq!(store.whole(&Call::Mount), done(1));
            assert_eq!(store.idle().map(|idle| idle.block), Some(current), "{time:#x}");
        }
    }
}

/// Changes of four hosts, in turns, stand after the settled objects in the order in which they came.
#[test]
fn four_hosts_pending_in_a_transfer() {
    const SIZE: usize = 512;
    let settled = vec![9, 0, 5, 0, 4, 0, b'o', b'k', 0xFE];
    let dropped = [put(2, 1, &[1; 240]), vec![6, 0, 4, 0, 2, 0xFE]].concat();
    let changes = [put(3, 1, b"a"), put(1, 2, b"b"), delete(0, 4), put(2, 3, b"c"), put(1, 4, b"d"), delete(3, 9)];
    // 16 + 9 + 254 + 9 + 9 + 8 + 9 + 9 + 8 = 331, and C = 77
    let mut twin = recorded(SIZE, 1, &[&[settled.clone(), dropped][..], &changes].concat());
    assert_eq!(twin.serve(0, &message::put(8, &[8; 200])), done(77 - 5 + 208));
    let mut moved = [header(2), settled, changes.concat(), put(0, 8, &[8; 200])].concat();
    moved.resize(SIZE, 0xFF);
    assert_eq!(twin.image()[SIZE..], moved);
    assert_eq!(twin.ids(), [4]);
    for (host, ids) in [(2, vec![3, 4]), (1, vec![2, 3, 4]), (3, vec![1, 2, 3, 4]), (0, vec![1, 2, 3, 8])] {
        assert_eq!(twin.serve(host, &message::commit()), done(6));
        assert_eq!(twin.ids(), ids, "host {host}");
    }
}

/// A block of the last time that a mount would have to transfer, and two others of equal times: 3 comes before 6.
#[test]
fn equal_times_below_a_block_that_cannot_be_moved() {
    for blocks in NUMBERS.skip(1).map(usize::from) {
        for newest in 0..blocks {
            let mut parts = vec![Part::Valid(2); blocks];
            parts[newest] = Part::Full(u32::MAX);
            let fault = Fault { block: usize::from(newest == 0), field: Field::Time, place: 4 };
            let mut refused = twin(&parts);
            assert_eq!(refused.call(&Call::Mount).answer, Answer::FOREIGN);
            assert_eq!(refused.fault(), (Answer::FOREIGN, Some(fault)));
            assert_eq!(refused.image(), image(&parts));
            // without the equal ones it is 6
            for (number, part) in parts.iter_mut().enumerate().filter(|(number, _)| *number != newest) {
                *part = Part::Valid(2 + number as u32);
            }
            assert_eq!(twin(&parts).call(&Call::Mount).answer, Answer::WORN);
        }
    }
}

/// Byte 8 makes a block one in progress, whatever else stands there: bytes 0 to 7 may be blank, as after a transfer's first
/// step, or as an erase that was cut leaves them.
#[test]
fn blocks_in_progress_that_begin_blank() {
    let frames = put(0, 1, b"x");
    for blocks in NUMBERS {
        let length = S * usize::from(blocks);
        for (block, later) in (0..usize::from(blocks)).flat_map(|block| (0..3).map(move |later| (block, later))) {
            let mut image = vec![0xFF; length];
            image[block * S + 8] = 0xFE;
            match later {
                0 => {}
                1 => image[block * S + 16..][..frames.len()].copy_from_slice(&frames),
                _ => image[block * S + S - 1] = 0,
            }
            let mut twin = Twin::of_blocks(blocks, &image);
            assert_eq!(twin.call(&Call::Mount).answer, Answer::NO_STORE, "{blocks} blocks, {block}");
            assert_eq!((twin.fault(), twin.image()), ((Answer::NO_STORE, None), &image[..]));
            // beside a foreign block that one is named
            let other = (block + 1) % usize::from(blocks);
            image[other * S + 1] = 0;
            twin.load(&image);
            let fault = Fault { block: other, field: Field::Length, place: 0 };
            assert_eq!(twin.fault(), (Answer::FOREIGN, Some(fault)));
            assert_eq!(twin.call(&Call::Mount).answer, Answer::FOREIGN);
        }
    }
}

/// Each block of each number of blocks, broken in each field: bytes of a header and a put of host 1, one of them changed.
#[test]
fn faults_in_every_block() {
    let faults = [
        (1, 1, Field::Length, 0),
        (3, 0, Field::Kind, 2),
        (8, 0xF8, Field::State, 8),
        (15, 0, Field::Rest, 9),
        (16, 4, Field::Length, 16),
        (18, 7, Field::Kind, 18),
        (20, 4, Field::Host, 20),
        (22, 1, Field::Id, 21),
        (25, 0, Field::Finish, 25),
    ];
    let whole = [header(7), put(1, 5, b"ab"), vec![0]].concat();
    for blocks in NUMBERS {
        for block in 0..usize::from(blocks) {
            let mut image = vec![0xFF; S * usize::from(blocks)];
            for (at, byte, field, place) in faults {
                image[block * S..][..whole.len()].copy_from_slice(&whole);
                image[block * S + at] = byte;
                let fault = Fault { block, field, place };
                let mut twin = Twin::of_blocks(blocks, &image);
                assert_eq!(twin.fault(), (Answer::FOREIGN, Some(fault)), "{blocks} blocks");
            }
            image[block * S..][..whole.len()].copy_from_slice(&whole);
            image[block * S + 4..][..4].fill(0xFF);
            let fault = Fault { block, field: Field::Time, place: 4 };
            assert_eq!(Twin::of_blocks(blocks, &image).fault(), (Answer::FOREIGN, Some(fault)));
        }
    }
}
