//! K4: a format erases last the valid block, of two the one with the larger time; block 1 if there is none or the times
//! are equal. What a cut between its steps leaves.

use check::book::Objects;
use check::cuts::{Allowed, Cuts, Start};
use check::twin::{Call, Twin};
use store::{Answer, Head, Idle, message};

const LENGTH: usize = 512;
const S: usize = LENGTH / 2;
/// The block that a format makes.
const FORMATTED: [u8; 9] = *b"\x10\0\x01\x4A\xFE\xFF\xFF\xFF\xFC";

/// A block that begins with these bytes.
fn block(start: &[u8]) -> Vec<u8> {
    let mut block = start.to_vec();
    block.resize(S, 0xFF);
    block
}

/// A block of this time, with some bytes after its header.
fn valid(time: u32, tail: &[u8]) -> Vec<u8> {
    let mut block = block(&FORMATTED);
    block[4..8].copy_from_slice(&(!time).to_le_bytes());
    block[16..16 + tail.len()].copy_from_slice(tail);
    block
}

/// Blocks of every kind, with the time of the valid ones.
fn blocks() -> [(Vec<u8>, Option<u32>); 11] {
    let state = |state: u8| block(&[0, 0, 0, 0, 0, 0, 0, 0, state]);
    let valid = |time: u32, tail: &[u8]| (valid(time, tail), Some(time));
    [
        (block(&[]), None),
        (state(0xFE), None),
        (state(0xFC), None),
        (state(0xFD), None),
        (state(0xFF), None),
        (vec![0; S], None),
        valid(1, &[]),
        valid(2, &[]),
        // torn, and with a delete pending
        valid(2, &[6, 0, 3]),
        valid(3, &[8, 0, 2, 0, 1, 5, 0, 0xFE]),
        valid(u32::MAX, &[6]),
    ]
}

/// The blocks' order, by the paper's sentence.
fn order(times: [Option<u32>; 2]) -> [usize; 2] {
    let last = match times {
        [None, None] => 1,
        [Some(_), None] => 0,
        [None, Some(_)] => 1,
        [Some(first), Some(second)] if first > second => 0,
        [Some(_), Some(_)] => 1,
    };
    [1 - last, last]
}

#[test]
fn the_order_of_the_erases() {
    let mut seen = [0; 2];
    for (first, first_time) in blocks() {
        for (second, second_time) in blocks() {
            let mut image = [first.clone(), second.clone()].concat();
            let mut twin = Twin::new(&image);
            assert_eq!(twin.call(&Call::Format).answer, Answer::MORE);
            let order = order([first_time, second_time]);
            for block in order {
                assert_eq!(twin.erases_next(), Some(block), "{first_time:?} {second_time:?}");
                assert_eq!(twin.step(), Answer::MORE);
                image[block * S..][..S].fill(0xFF);
                assert_eq!(twin.image(), image);
            }
            assert_eq!(twin.finish(), (Answer::DONE, 10));
            assert_eq!(twin.image(), [block(&FORMATTED), block(&[])].concat());
            let (pending, places) = ([0; 4], [0; 256]);
            let idle = Idle { length: LENGTH, block: 0, end: 16, blocks: 2, edition: 1, pending, places };
            assert_eq!(twin.head(), Head::Idle(idle));
            seen[order[1]] += 1;
        }
    }
    // Block 0 is last as one of five valid blocks beside six that are not, and where it is newer: 2, torn or not, over 1;
    // 3 over three; the last time over four.
    assert_eq!(seen, [30 + 2 + 3 + 4, 11 * 11 - 39]);
}

/// Object 5 settled in this block, and the older block not erased yet: a put of 72 bytes after aborted ones needs a transfer.
/// In the older block a put of the object stands at 16, or a settled frame.
pub fn transferred(current: usize) -> Vec<u8> {
    let mut twin = Twin::formatted(LENGTH);
    let serve = |twin: &mut Twin, message: &[u8]| assert_eq!(twin.serve(2, message).0, Answer::DONE);
    serve(&mut twin, &message::put(5, b"AB"));
    serve(&mut twin, &message::commit());
    loop {
        while twin.idle().is_some_and(|idle| usize::from(idle.end) + 72 <= S) {
            serve(&mut twin, &message::put(5, &[0; 40]));
            serve(&mut twin, &message::abort());
        }
        assert_eq!(twin.ask(2, &message::put(5, &[1; 64])), Answer::MORE);
        while twin.erases_next().is_none() {
            assert_eq!(twin.step(), Answer::MORE);
        }
        if twin.erases_next() == Some(1 - current) {
            return twin.image().to_vec();
        }
        assert_eq!(twin.finish().0, Answer::DONE);
        serve(&mut twin, &message::abort());
    }
}

/// What may stand beside the current block: the older one whole, half erased in some ways, and erased.
pub fn olders(older: &[u8]) -> Vec<Vec<u8>> {
    let raised = |at: usize, bits: u8| {
        let mut block = older.to_vec();
        block[at] |= bits;
        block
    };
    // the state byte to 0xFD, 0xFE and 0xFF; the time to 0; a kind; a byte of a value; the header alone left, then nothing
    let mut olders = vec![older.to_vec(), raised(8, 1), raised(8, 2), raised(8, 3), raised(4, 3), raised(2, 0x80)];
    olders.push(raised(23, 0x28));
    olders.push(block(&older[..16]));
    olders.push(block(&[]));
    olders
}

/// The image with another block beside the current one.
pub fn beside(image: &[u8], current: usize, other: &[u8]) -> Vec<u8> {
    let mut image = image.to_vec();
    image[(1 - current) * S..][..S].copy_from_slice(other);
    image
}

/// Before the first step and after it the old objects are there, after the twelfth the empty store, in between none.
#[test]
fn a_format_cut_after_each_step() {
    for current in [0, 1] {
        let image = transferred(current);
        for (number, older) in olders(&image[(1 - current) * S..][..S]).iter().enumerate() {
            let image = beside(&image, current, older);
            for cut in 0..=12 {
                let mut twin = Twin::new(&image);
                assert_eq!(twin.call(&Call::Format).answer, Answer::MORE);
                for _ in 0..cut {
                    assert!(!twin.step().refused());
                }
                let left = twin.image().to_vec();
                twin.load(&left);
                let erase = usize::from(cut == 0 && *older != block(&[]));
                let expected = match cut {
                    0 | 1 => (Answer::DONE, erase),
                    12 => (Answer::DONE, 0),
                    _ => (Answer::NO_STORE, 0),
                };
                assert_eq!(twin.whole(&Call::Mount), expected, "block {current}, {number}, {cut} steps");
                match cut {
                    0 | 1 => assert_eq!((twin.ids(), twin.value(5)), (vec![5], Some(b"AB".to_vec()))),
                    12 => assert_eq!(twin.ids(), []),
                    _ => assert_eq!(twin.head(), Head::Unmounted),
                }
            }
        }
    }
}

/// The same with every recovery cut in its turn, inside its erases too. No other image is without a store than the seven
/// that the format's own steps leave.
#[test]
fn a_format_cut_anywhere_beside_an_older_block() {
    let objects = Objects::from([(5, b"AB".to_vec())]);
    for current in [0, 1] {
        let image = transferred(current);
        for older in olders(&image[(1 - current) * S..][..S]) {
            let image = beside(&image, current, &older);
            let mut cuts = Cuts::everywhere(LENGTH);
            let start = Start { image: &image, idle: None, call: &Call::Format };
            cuts.of_job(&start, Allowed::OrGone(&objects), &Objects::new());
            assert_eq!(cuts.twin.tally.of("mount", Answer::NO_STORE), 7);
        }
    }
}
