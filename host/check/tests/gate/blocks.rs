//! K14: two to sixteen blocks. What a mount, a format and a transfer do with them, and what a mount refuses.

use check::cuts::newest;
use check::raise;
use check::rng::Rng;
use check::twin::{Call, Twin};
use store::{Answer, Fault, Field, Head, Idle, message, places};

const S: usize = 256;
pub const NUMBERS: std::ops::RangeInclusive<u8> = 2..=16;

/// What may stand in a block.
#[derive(Clone, Copy)]
pub enum Part {
    Blank,
    InProgress,
    Foreign,
    Valid(u32),
    /// With a put of host 1 pending.
    Pending(u32),
    /// With a put pending that ends where the block does: a mount has no room for a reset.
    Full(u32),
}

use Part::{Blank, Foreign, Full, InProgress, Pending, Valid};

/// Such a block; a valid one has object 5, "AB".
fn block(part: Part) -> Vec<u8> {
    let settled = [9, 0, 5, 0, 5, 0, b'A', b'B', 0xFE];
    let valid = |time: u32, tail: &[u8]| {
        [&[0x10, 0, 1, 0x4A][..], &(!time).to_le_bytes(), &[0xFC], &[0xFF; 7], &settled, tail].concat()
    };
    let mut bytes = match part {
        Blank => vec![],
        InProgress => vec![0x10, 0, 1, 0x4A, 0, 0, 0, 0, 0xFE, 0x55],
        Foreign => vec![0x10, 0, 1, 0x4A, 0, 0, 0, 0, 0xFD],
        Valid(time) => valid(time, &[]),
        Pending(time) => valid(time, &[8, 0, 1, 0, 1, 7, 0, 0xFE]),
        Full(time) => valid(time, &[&[231, 0, 1, 0, 1, 7, 0][..], &[0; 223], &[0xFE]].concat()),
    };
    assert!(bytes.len() <= S);
    bytes.resize(S, 0xFF);
    bytes
}

pub fn image(parts: &[Part]) -> Vec<u8> {
    parts.iter().flat_map(|part| block(*part)).collect()
}

pub fn twin(parts: &[Part]) -> Twin {
    Twin::of_blocks(parts.len() as u8, &image(parts))
}

/// The blocks that the job in hand erases, in its order. All steps are made; how many there were.
fn erased(twin: &mut Twin) -> (Vec<usize>, usize) {
    let (mut order, mut steps) = (Vec::new(), 0);
    while twin.busy() {
        order.extend(twin.erases_next());
        assert!(!twin.step().refused());
        steps += 1;
    }
    (order, steps)
}

/// Each number of blocks with each one current, the others of all kinds in turn, from some kind on.
fn boards() -> impl Iterator<Item = (Vec<Part>, usize)> {
    let beside = [Blank, InProgress, Foreign, Valid(3), Blank, Valid(2), Foreign, Valid(1), Foreign];
    let others = move |from: usize| beside.into_iter().skip(from).chain([InProgress; 16]);
    let places = NUMBERS.flat_map(|blocks| (0..usize::from(blocks)).map(move |place| (blocks, place)));
    places.flat_map(move |(blocks, place)| {
        (0..4).map(move |from| {
            let mut parts: Vec<Part> = others(from).take(usize::from(blocks) - 1).collect();
            parts.insert(place, Valid(4));
            (parts, place)
        })
    })
}

#[test]
fn a_mount_erases_every_other_block_in_number_order() {
    for (parts, current) in boards() {
        let blocks = parts.len() as u8;
        let mut mounted = twin(&parts);
        mounted.call(&Call::Mount);
        let others = |number: &usize| *number != current && !matches!(parts[*number], Blank);
        let order: Vec<usize> = (0..parts.len()).filter(others).collect();
        assert_eq!(erased(&mut mounted), (order.clone(), order.len()));
        let (length, block, pending, places) = (S * parts.len(), current as u8, [0; 4], places([(5, 16)]));
        let idle = Idle { length, block, end: 25, blocks, edition: 1, pending, places };
        assert_eq!(mounted.head(), Head::Idle(idle));
        for number in 0..parts.len() {
            assert_eq!(mounted.block(number), self::block(if number == current { Valid(4) } else { Blank }));
        }
        assert_eq!(mounted.value(5), Some(b"AB".to_vec()));
    }
}

/// The erases come first, then the reset, in the same block.
#[test]
fn a_mount_that_drops_changes_stays_in_its_block() {
    for (mut parts, current) in boards() {
        parts[current] = Pending(4);
        let mut mounted = twin(&parts);
        assert_eq!(mounted.call(&Call::Mount).answer, Answer::MORE);
        let others = |number: &usize| *number != current && !matches!(parts[*number], Blank);
        let order: Vec<usize> = (0..parts.len()).filter(others).collect();
        let steps = order.len() + 5;
        assert_eq!(erased(&mut mounted), (order, steps));
        let mut mended = block(Pending(4));
        mended[33..38].copy_from_slice(&[5, 0, 7, 0, 0xFE]);
        for number in 0..parts.len() {
            assert_eq!(mounted.block(number), if number == current { mended.clone() } else { block(Blank) });
        }
        assert_eq!(mounted.idle().map(|idle| (usize::from(idle.block), idle.end)), Some((current, 38)));
    }
}

/// The erases come first, and the transfer goes to the next block, whatever stood there.
#[test]
fn a_mount_without_room_for_a_reset_goes_to_the_next_block() {
    for (mut parts, current) in boards() {
        parts[current] = Full(4);
        let mut mounted = twin(&parts);
        assert_eq!(mounted.call(&Call::Mount).answer, Answer::MORE);
        let next = if current + 1 == parts.len() { 0 } else { current + 1 };
        let others = |number: &usize| *number != current && !matches!(parts[*number], Blank);
        let order: Vec<usize> = (0..parts.len()).filter(others).chain([current]).collect();
        let steps = order.len() - 1 + 25 - 5;
        assert_eq!(erased(&mut mounted), (order, steps));
        for number in 0..parts.len() {
            assert_eq!(mounted.block(number), block(if number == next { Valid(5) } else { Blank }));
        }
        assert_eq!(mounted.idle().map(|idle| usize::from(idle.block)), Some(next));
    }
}

/// The erases of a format of these blocks, and that it ends with a store in block 0 alone.
fn format(parts: &[Part]) -> Vec<usize> {
    let mut formatted = twin(parts);
    assert_eq!(formatted.call(&Call::Format).answer, Answer::MORE);
    let (order, steps) = erased(&mut formatted);
    assert_eq!(steps, parts.len() + 10);
    let mut left = vec![0xFF; S * parts.len()];
    left[..9].copy_from_slice(b"\x10\0\x01\x4A\xFE\xFF\xFF\xFF\xFC");
    assert_eq!(formatted.image(), left);
    let (length, blocks, pending, places) = (left.len(), parts.len() as u8, [0; 4], [0; 256]);
    let idle = Idle { length, block: 0, end: 16, blocks, edition: 1, pending, places };
    assert_eq!(formatted.head(), Head::Idle(idle));
    order
}

#[test]
fn a_format_erases_the_current_block_last() {
    for (mut parts, current) in boards() {
        let blocks = parts.len();
        let last =
            |number| -> Vec<usize> { (0..blocks).filter(|block| *block != number).chain([number]).collect() };
        assert_eq!(format(&parts), last(current));
        parts[current] = Blank;
        let of_time = |time| parts.iter().position(|part| matches!(part, Valid(its) if *its == time));
        let newest = of_time(3).or(of_time(2)).or(of_time(1));
        assert_eq!(format(&parts), newest.map_or((0..blocks).collect(), last));
    }
}

/// Only a block that is newer than all others is current; equal times below it do not count.
#[test]
fn a_format_where_times_are_equal() {
    assert_eq!(format(&[Valid(4), Valid(4)]), [0, 1]);
    assert_eq!(format(&[Valid(4), Valid(4), Blank]), [0, 1, 2]);
    assert_eq!(format(&[Valid(4), Foreign, Pending(4), Valid(1)]), [0, 1, 2, 3]);
    assert_eq!(format(&[Valid(1), Valid(4), Valid(1)]), [0, 2, 1]);
    assert_eq!(format(&[Valid(9), Valid(4), Foreign, Valid(4)]), [1, 2, 3, 0]);
}

/// The old objects are there until the last erase, then no store is until the last step.
#[test]
fn a_format_cut_after_each_step() {
    for (parts, _) in boards() {
        for cut in 0..=parts.len() + 10 {
            let mut cut_short = twin(&parts);
            assert_eq!(cut_short.call(&Call::Format).answer, Answer::MORE);
            cut_short.call(&Call::Run(cut));
            let left = cut_short.image().to_vec();
            cut_short.load(&left);
            let answer = cut_short.whole(&Call::Mount).0;
            let held = answer == Answer::DONE && cut_short.value(5).is_some();
            let expected = match cut {
                _ if cut < parts.len() => (Answer::DONE, true),
                _ if cut < parts.len() + 10 => (Answer::NO_STORE, false),
                _ => (Answer::DONE, false),
            };
            assert_eq!((answer, held), expected, "{} blocks, {cut} steps", parts.len());
        }
    }
}

/// Three times round, each time to the next block in number, all others blank and each block erased as often.
#[test]
fn transfers_go_round() {
    for blocks in NUMBERS {
        let number = usize::from(blocks);
        let mut twin = Twin::formatted_of(blocks, S * number);
        let (before, mut seen) = (twin.erases(), vec![0]);
        for time in 1.. {
            let value = [time as u8; 60];
            assert_eq!(twin.serve(1, &message::put(9, &value)).0, Answer::DONE);
            assert_eq!(twin.serve(1, &message::commit()).0, Answer::DONE);
            let current = usize::from(twin.idle().expect("idle").block);
            if current != seen[seen.len() - 1] {
                seen.push(current);
            }
            assert_eq!(twin.value(9), Some(value.to_vec()));
            for other in (0..number).filter(|other| *other != current) {
                assert_eq!(twin.block(other), [0xFF; S]);
            }
            if seen.len() > 3 * number {
                break;
            }
        }
        let expected: Vec<usize> = (0..number).cycle().take(3 * number + 1).collect();
        assert_eq!(seen, expected);
        assert_eq!(newest(twin.image(), blocks), Some(3 * number as u32 + 1));
        assert!((0..number).all(|block| twin.erases()[block] - before[block] == 3));
    }
}

#[test]
fn equal_times_name_the_lowest_of_the_equal_blocks() {
    let cases: [(&[Part], usize); 10] = [
        (&[Valid(4), Valid(4)], 0),
        (&[Valid(5), Valid(3), Valid(3)], 1),
        (&[Valid(3), Valid(5), Pending(3)], 0),
        (&[Valid(7), Valid(7), Valid(9)], 0),
        (&[Foreign, Valid(2), Valid(9), Valid(2)], 1),
        (&[Blank, InProgress, Pending(9), Valid(9)], 2),
        (&[Valid(1), Valid(2), Valid(2), Valid(1)], 0),
        (&[Valid(3), Valid(2), Valid(1), Valid(2), Valid(1)], 1),
        (&[Foreign, Foreign, Foreign, Foreign, Valid(u32::MAX), Valid(u32::MAX)], 4),
        (&[Valid(3), Valid(2), Foreign, Valid(1), Blank, Blank, Valid(1)], 3),
    ];
    for (parts, block) in cases {
        let fault = Fault { block, field: Field::Time, place: 4 };
        assert_eq!(twin(parts).call(&Call::Mount).answer, Answer::FOREIGN);
        assert_eq!(twin(parts).fault(), (Answer::FOREIGN, Some(fault)));
    }
}

/// Each two blocks of each number, alone and below a newer one.
#[test]
fn any_two_blocks_of_equal_times() {
    for blocks in NUMBERS.map(usize::from) {
        for (low, high) in (0..blocks).flat_map(|high| (0..high).map(move |low| (low, high))) {
            for newer in (0..blocks).filter(|newer| *newer != low) {
                let mut parts = vec![Blank; blocks];
                parts[newer] = Valid(8);
                (parts[low], parts[high]) = (Valid(7), Valid(7));
                let fault = Fault { block: low, field: Field::Time, place: 4 };
                assert_eq!(twin(&parts).fault(), (Answer::FOREIGN, Some(fault)));
            }
        }
    }
}

#[test]
fn a_foreign_block_is_named_where_none_is_valid() {
    for blocks in NUMBERS.map(usize::from) {
        for lowest in 0..blocks {
            let parts: Vec<Part> =
                (0..blocks).map(|number| if number < lowest { InProgress } else { Foreign }).collect();
            let fault = Fault { block: lowest, field: Field::State, place: 8 };
            assert_eq!(twin(&parts).fault(), (Answer::FOREIGN, Some(fault)));
        }
        assert_eq!(twin(&vec![InProgress; blocks]).fault(), (Answer::NO_STORE, None));
    }
}

/// Power is lost inside each erase of a mount, of the mount after it, and so on: the store is found every time.
#[test]
fn cuts_inside_a_mounts_erases_one_in_the_others_recovery() {
    let mut rng = Rng::new(14);
    for blocks in NUMBERS.map(usize::from) {
        for current in 0..blocks {
            let mut parts = vec![InProgress; blocks];
            parts[current] = rng.pick(&[Valid(6), Pending(6), Full(6)]);
            let mut twin = twin(&parts);
            for _ in 0..3 * blocks {
                assert!(!twin.call(&Call::Mount).answer.refused());
                twin.call(&Call::Run(rng.below(2)));
                let Some(block) = twin.erases_next() else { break };
                let mask = raise::mask(&mut rng, twin.block(block));
                twin.cut_erase(&mask);
            }
            assert_eq!(twin.whole(&Call::Mount).0, Answer::DONE);
            assert_eq!((twin.ids(), twin.value(5)), (vec![5], Some(b"AB".to_vec())));
        }
    }
}
