//! K9: convert, its refusals, and what a cut in it leaves.

use check::book::Objects;
use check::cuts::{Allowed, Cuts, Start};
use check::raise;
use check::twin::{Call, Twin};
use store::{Answer, Fault, Field, Idle, message, places};

const LENGTH: usize = 512;
const S: usize = LENGTH / 2;

/// A formatted image, at this time.
pub fn formatted_at(time: u32, length: usize) -> Twin {
    let mut image = Twin::formatted(length).image().to_vec();
    image[4..8].copy_from_slice(&(!time).to_le_bytes());
    let mut board = Twin::new(&image);
    assert_eq!(board.whole(&Call::Mount), done(0));
    board
}

pub fn formatted(length: usize) -> Twin {
    formatted_at(1, length)
}

/// A formatted image in edition 2.
pub fn second(length: usize) -> Twin {
    let mut board = formatted(length);
    assert_eq!(board.serve(0, &message::convert()), done(11));
    board
}

pub fn done(steps: usize) -> (Answer, usize) {
    (Answer::DONE, steps)
}

pub fn serve(board: &mut Twin, host: u8, message: &[u8]) {
    assert_eq!(board.serve(host, message).0, Answer::DONE);
}

/// Puts and commits values of these sizes to ids from 1 on.
pub fn settle(board: &mut Twin, sizes: &[usize]) {
    for (id, size) in (1..).zip(sizes) {
        serve(board, 0, &message::put(id, &vec![id; *size]));
        serve(board, 0, &message::commit());
    }
}

pub fn idle(board: &Twin) -> Idle {
    board.idle().expect("idle")
}

pub fn header(edition: u8, time: u32) -> Vec<u8> {
    [&[0x10, 0, edition, 0x4A][..], &(!time).to_le_bytes(), &[0xFC], &[0xFF; 7]].concat()
}

pub fn filled(parts: &[&[u8]], size: usize) -> Vec<u8> {
    let mut block = parts.concat();
    assert!(block.len() <= size);
    block.resize(size, 0xFF);
    block
}

/// DESK.md's script, and the bytes that it makes; their CRC is zlib's.
#[test]
fn a_store_is_converted() {
    let mut board = formatted(LENGTH);
    assert_eq!(board.serve(2, &message::put(5, b"AB")), done(10));
    assert_eq!(board.ask(2, &message::convert()), Answer::PENDING);
    assert_eq!(board.serve(2, &message::commit()), done(6));
    assert_eq!(board.serve(2, &message::convert()), done(24));
    let (pending, places) = ([0; 4], places([(5, 16)]));
    let right = Idle { length: LENGTH, block: 1, end: 29, blocks: 2, edition: 2, pending, places };
    assert_eq!(board.idle(), Some(right));
    let settled = [13, 0, 5, 0, 5, 0, 0x41, 0x42, 0xC1, 0xF5, 0x84, 0xE8, 0xFE];
    let image = [filled(&[], S), filled(&[&header(2, 2), &settled], S)].concat();
    assert_eq!(board.image(), image);
    let read = board.call(&Call::Read { host: 0, message: message::read(5) });
    assert_eq!((read.answer, read.stretch.at, read.stretch.len), (Answer::DONE, 278, 2));
    assert_eq!(board.serve(2, &message::convert()), done(0));
    board.forge(Idle { edition: 1, ..right });
    assert_eq!(board.ask(2, &message::convert()), Answer::STALE);
    board.forge(right);
    assert_eq!(board.serve(2, &message::convert()), done(0));
    let mut image = image;
    image[282] = 0;
    board.load(&image);
    assert_eq!(board.call(&Call::Mount).answer, Answer::FOREIGN);
    assert_eq!(board.fault(), (Answer::FOREIGN, Some(Fault { block: 1, field: Field::Crc, place: 24 })));
}

/// 4, 10, 5, 2, 11, 1, 16, 7 and 6, each where all that come after it hold as well.
#[test]
fn refusals_in_their_order() {
    // U in edition 1 is 233, in edition 2 it would be 257
    let values = settled_of(&[29, 29, 29, 29, 29, 30]);
    let delete = [8, 0, 2, 0, 3, 9, 0, 0xFE];
    let image = [filled(&[&header(1, u32::MAX), &values, &delete], S), filled(&[], S)].concat();
    let mut board = Twin::new(&image);
    let end = (16 + values.len() + delete.len()) as u16;
    let (pending, places) = ([0, 0, 0, 8], places((1..=6).map(|id| (id, 16 + 36 * u16::from(id - 1)))));
    let right = Idle { length: LENGTH, block: 0, end, blocks: 2, edition: 1, pending, places };
    let bad = message::message(message::CONVERT, &[0]);
    board.blocks = 1;
    assert_eq!(board.ask(4, &bad), Answer::IMAGE_LENGTH);
    board.blocks = 2;
    assert_eq!(board.ask(4, &bad), Answer::HOST_RANGE);
    assert_eq!(board.ask(0, &bad), Answer::NO_STORE);
    board.forge(Idle { edition: 2, ..right });
    assert_eq!(board.ask(0, &bad), Answer::STALE);
    board.forge(right);
    assert_eq!(board.ask(0, &bad), Answer::MALFORMED);
    assert_eq!(board.ask(0, &message::convert()), Answer::PENDING);
    assert_eq!(board.serve(3, &message::abort()), done(6));
    assert_eq!(board.ask(0, &message::convert()), Answer::NO_ROOM);
    let values = settled_of(&[29; 6]);
    board.load(&[filled(&[&header(1, u32::MAX), &values], S), filled(&[], S)].concat());
    assert_eq!(board.whole(&Call::Mount), done(0));
    assert_eq!(board.ask(0, &message::convert()), Answer::WORN);
    assert_eq!(board.ask(0, &message::put(9, &[])), Answer::NO_ROOM);
    board.load(&[filled(&[&header(1, u32::MAX - 1), &values], S), filled(&[], S)].concat());
    assert_eq!(board.whole(&Call::Mount), done(0));
    assert_eq!(board.ask(0, &message::convert()), Answer::MORE);
    assert_eq!(board.ask(0, &message::convert()), Answer::BUSY);
    assert_eq!(board.finish(), done(251));
    assert_eq!((idle(&board).end, idle(&board).edition), (256, 2));
}

/// Settled frames of edition 1 with values of these sizes, for ids from 1 on.
fn settled_of(sizes: &[u8]) -> Vec<u8> {
    let frame =
        |(id, size): (u8, &u8)| [&[7 + size, 0, 5, 0, id, 0][..], &vec![id; usize::from(*size)], &[0xFE]].concat();
    (1..).zip(sizes).flat_map(frame).collect()
}

/// Whoever asks, whoever has something pending, in either edition; another host's commit doesn't help.
#[test]
fn pending_of_any_host() {
    for (edition, host, asking) in (1..=2).flat_map(|e| (0..4).flat_map(move |h| (0..4).map(move |a| (e, h, a)))) {
        let mut board = if edition == 1 { formatted(LENGTH) } else { second(LENGTH) };
        serve(&mut board, host, &message::delete(7));
        let before = (idle(&board), board.image().to_vec());
        assert_eq!(board.ask(asking, &message::convert()), Answer::PENDING);
        assert_eq!(board.serve((host + 1) % 4, &message::commit()), done(0));
        assert_eq!(board.ask(asking, &message::convert()), Answer::PENDING);
        assert_eq!((idle(&board), board.image()), (before.0, &before.1[..]));
        serve(&mut board, host, &message::abort());
        assert_eq!(board.serve(asking, &message::convert()), done(if edition == 1 { 11 } else { 0 }));
        assert_eq!(idle(&board).edition, 2);
    }
}

/// U in edition 2 of exactly S is taken. At the last time a store of edition 2 needs no transfer.
#[test]
fn room_and_time() {
    for (last, expected) in [(29, Answer::MORE), (30, Answer::NO_ROOM)] {
        let mut board = formatted(LENGTH);
        settle(&mut board, &[29, 29, 29, 29, 29, last]);
        assert_eq!(board.ask(0, &message::convert()), expected);
    }
    let image = [filled(&[&header(2, u32::MAX)], S), filled(&[], S)].concat();
    let mut board = Twin::new(&image);
    assert_eq!(board.whole(&Call::Mount), done(0));
    assert_eq!(board.serve(1, &message::convert()), done(0));
    assert_eq!(board.image(), image);
}

/// Changes that were not committed, old values and deleted objects don't go over.
#[test]
fn the_settled_objects_go_over() {
    let mut board = formatted(1_024);
    settle(&mut board, &[3, 240, 0, 8]);
    for message in [message::put(1, &[0xFF; 9]), message::delete(4), message::commit()] {
        serve(&mut board, 3, &message);
    }
    for message in [message::put(2, b"dropped"), message::abort()] {
        serve(&mut board, 1, &message);
    }
    // 16 + 3 * 11 + 9 + 240 + 0
    assert_eq!(board.serve(2, &message::convert()), done(298 - 5));
    assert_eq!((idle(&board).end, idle(&board).block, board.ids()), (298, 1, vec![1, 2, 3]));
    let values = [1, 2, 3].map(|id| board.value(id));
    assert_eq!(values, [Some(vec![0xFF; 9]), Some(vec![2; 240]), Some(vec![])]);
    assert_eq!(board.log(), [14, 0, 1, 2, 2, 0, 0, 0, 3, 0, 42, 1, 0, 2]);
    assert_eq!(board.whole(&Call::Mount), done(0));
}

/// Up to the step that makes the new block valid a mount finds edition 1, from it on edition 2, and the same objects.
#[test]
fn cut_after_each_step() {
    let mut board = formatted(LENGTH);
    settle(&mut board, &[20, 0, 7]);
    let (before, right) = (board.image().to_vec(), idle(&board));
    let objects: Objects = [(1, vec![1; 20]), (2, vec![]), (3, vec![3; 7])].into();
    // 16 + 3 * 11 + 27
    let steps = 76 - 5;
    for made in 0..=steps {
        board.load(&before);
        board.forge(right);
        assert_eq!(board.ask(3, &message::convert()), Answer::MORE);
        assert_eq!(board.call(&Call::Run(made)).steps, made);
        assert_eq!(board.whole(&Call::Mount), done(usize::from(0 < made && made < steps)));
        let new = made + 1 >= steps;
        let found = idle(&board);
        assert_eq!((found.edition, found.block), if new { (2, 1) } else { (1, 0) }, "after {made} steps");
        for (id, value) in &objects {
            assert_eq!(board.value(*id).as_ref(), Some(value));
        }
    }
    let call = Call::Request { host: 1, message: message::convert(), reply: 0 };
    let mut cuts = Cuts::everywhere(LENGTH);
    cuts.of_job(&Start { image: &before, idle: Some(right), call: &call }, Allowed::Exactly(&objects), &objects);
    assert!(cuts.inside > 0);
}

/// Power lost inside the erase of the old block: each bit of it raised alone, all but one, and all combinations of the kind's
/// bits. A mount finds edition 2: a half-erased block of edition 1 looks neither newer nor of edition 2.
#[test]
fn cut_inside_its_erase() {
    let mut board = formatted(LENGTH);
    settle(&mut board, &[5]);
    assert_eq!(board.ask(0, &message::convert()), Answer::MORE);
    let steps = board.steps_left();
    assert_eq!(board.call(&Call::Run(steps - 1)).steps, steps - 1);
    let before = board.image().to_vec();
    let one = |(at, bit): (usize, u8)| (0..S).map(|byte| if byte == at { bit } else { 0 }).collect::<Vec<u8>>();
    let alone: Vec<Vec<u8>> = raise::zeros(&before[..S]).map(one).collect();
    let others = alone.iter().map(|mask| mask.iter().map(|bits| !bits).collect());
    let kinds = (0..=0xFFFF_u16)
        .filter(|bits| bits & 0x4A01 == 0)
        .map(|bits| [&[0; 2][..], &bits.to_le_bytes(), &[0; S - 4]].concat());
    for mask in alone.iter().cloned().chain(others).chain(kinds) {
        let raised: Vec<u8> = before[..S].iter().zip(&mask).map(|(byte, bits)| byte | bits).collect();
        let edition = model::block::edition(&raised);
        assert!(edition.is_none_or(|edition| edition.number() == 1), "{mask:?}");
        board.load(&[&raised, &before[S..]].concat());
        assert_eq!(board.whole(&Call::Mount), done(1));
        assert_eq!((idle(&board).block, idle(&board).edition, board.value(1)), (1, 2, Some(vec![1; 5])));
    }
}

/// The block with the larger time is current, whatever the editions; equal times are 3, named at block 0.
#[test]
fn blocks_of_both_editions() {
    for (first, second) in [(1, 2), (2, 1)] {
        let image = |times: [u32; 2]| {
            [filled(&[&header(first, times[0])], S), filled(&[&header(second, times[1])], S)].concat()
        };
        for (times, block, edition) in [([2, 1], 0, first), ([1, 2], 1, second)] {
            let mut board = Twin::new(&image(times));
            assert_eq!(board.whole(&Call::Mount), done(1));
            assert_eq!((idle(&board).block, idle(&board).edition), (block, edition));
        }
        let mut board = Twin::new(&image([7, 7]));
        assert_eq!(board.call(&Call::Mount).answer, Answer::FOREIGN);
        assert_eq!(board.fault().1, Some(Fault { block: 0, field: Field::Time, place: 4 }));
    }
}
