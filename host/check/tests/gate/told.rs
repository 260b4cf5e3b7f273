//! K14: the number of blocks that a call is told. Which of them are 4, and which 11.

use super::blocks::NUMBERS;
use check::blocks::allowed;
use check::twin::{Call, Twin, UNWRITTEN};
use store::{Answer, Head, Idle, message, places};

const S: usize = 256;

/// Lengths near those that some number of blocks has, and others.
const LENGTHS: [usize; 24] = [
    0, 1, 256, 384, 511, 512, 513, 640, 768, 896, 1_024, 1_152, 1_280, 1_792, 2_688, 4_095, 4_096, 4_224, 65_280,
    65_408, 65_535, 65_536, 65_537, 65_664,
];

#[test]
fn the_lengths_by_hand() {
    let right = [(512, 2), (768, 2), (768, 3), (1_152, 3), (1_024, 4), (2_688, 7), (65_280, 15), (65_536, 16)];
    assert!(right.iter().all(|(length, blocks)| allowed(*length, *blocks)));
    let wrong = [(512, 1), (512, 3), (512, 4), (640, 2), (1_024, 3), (1_152, 4), (65_536, 3), (65_664, 2), (0, 0)];
    assert!(!wrong.iter().any(|(length, blocks)| allowed(*length, *blocks)));
    // 4,352 bytes are 17 blocks of 256
    assert!(!allowed(4_352, 17) && allowed(4_352, 2));
}

/// For two blocks it is document 01's length: a multiple of 256 from 512 to 65,536.
#[test]
fn two_blocks_have_the_lengths_of_before() {
    for length in 0..=66_000 {
        assert_eq!(allowed(length, 2), length % 256 == 0 && (512..=65_536).contains(&length));
    }
}

#[test]
fn every_number_of_blocks_with_some_lengths() {
    for length in LENGTHS {
        let mut twin = Twin::new(&vec![0xFF; length]);
        for blocks in 0..=255 {
            twin.blocks = blocks;
            let wrong = !allowed(length, blocks);
            let answer = |right: Answer| if wrong { Answer::IMAGE_LENGTH } else { right };
            assert_eq!(twin.call(&Call::Mount).answer, answer(Answer::NO_STORE), "{length}, {blocks}");
            assert_eq!(twin.ask(4, &message::log()), answer(Answer::HOST_RANGE));
            assert_eq!(twin.ask(0, &message::log()), answer(Answer::NO_STORE));
            let read = twin.call(&Call::Read { host: 0, message: message::read(1) });
            assert_eq!(read.answer, answer(Answer::NO_STORE));
            assert_eq!(twin.step(), Answer::DONE);
            assert_eq!(twin.call(&Call::Format).answer, answer(Answer::MORE));
            assert_eq!(twin.head(), if wrong { Head::Unmounted } else { Head::Job });
        }
    }
}

/// The answers to a step, a run, a request and a read under the record in hand.
fn answers(twin: &mut Twin) -> [Answer; 4] {
    let request = twin.call(&Call::Request { host: 1, message: message::log(), reply: message::PAGE });
    assert!(!request.answer.refused() || request.reply == [UNWRITTEN; message::PAGE]);
    let read = twin.call(&Call::Read { host: 1, message: message::read(5) }).answer;
    [twin.step(), twin.call(&Call::Run(9)).answer, request.answer, read]
}

/// The same for every number of blocks but the board's own: in each only 4 may stand in place of the request's refusal.
fn told_another(twin: &mut Twin, step: Answer, request: Answer) {
    let (own, head, image) = (twin.blocks, twin.head(), twin.image().to_vec());
    for blocks in (0..=255).filter(|blocks| *blocks != own) {
        twin.blocks = blocks;
        let refusal = if allowed(image.len(), blocks) { request } else { Answer::IMAGE_LENGTH };
        assert_eq!(answers(twin), [step, step, refusal, refusal], "{blocks} blocks for {own}");
        assert_eq!((twin.head(), twin.image()), (head, &image[..]));
    }
    twin.blocks = own;
}

/// Some of these lengths may be of several numbers of blocks: 3,072, 12,288, 5,760, 7,680.
#[test]
fn a_call_told_another_number_changes_nothing() {
    let kinds = [(2, 3_072), (3, 3_072), (4, 12_288), (5, 7_680), (6, 3_072), (7, 2_688), (8, 12_288), (9, 5_760)];
    let more = [(10, 7_680), (11, 8_448), (12, 12_288), (13, 3_328), (14, 5_376), (15, 5_760), (16, 12_288)];
    for (blocks, length) in kinds.into_iter().chain(more) {
        let mut twin = Twin::formatted_of(blocks, length);
        told_another(&mut twin, Answer::DONE, Answer::STALE);
        for message in [message::put(5, b"AB"), message::commit()] {
            assert_eq!(twin.ask(2, &message), Answer::MORE);
            told_another(&mut twin, Answer::STALE, Answer::BUSY);
            assert_eq!(twin.step(), Answer::MORE);
            told_another(&mut twin, Answer::STALE, Answer::BUSY);
            assert_eq!(twin.finish().0, Answer::DONE);
        }
        assert_eq!(twin.value(5), Some(b"AB".to_vec()));
        for call in [Call::Format, Call::Mount] {
            twin.call(&call);
            if twin.busy() {
                told_another(&mut twin, Answer::STALE, Answer::BUSY);
            }
        }
        twin.unmount();
        told_another(&mut twin, Answer::DONE, Answer::NO_STORE);
    }
}

/// A record that says any other number of blocks, or a block that is not there, is 11, and no step divides by it. A read that
/// has no place needs no block.
#[test]
fn forged_records() {
    for blocks in NUMBERS {
        let mut twin = Twin::formatted_of(blocks, S * usize::from(blocks));
        let right = twin.idle().expect("idle");
        for number in (0..=255).filter(|number| *number != blocks) {
            twin.forge(Idle { blocks: number, ..right });
            assert_eq!(answers(&mut twin), [Answer::DONE, Answer::DONE, Answer::STALE, Answer::STALE]);
            if !allowed(right.length, number) {
                twin.blocks = number;
                let refusal = Answer::IMAGE_LENGTH;
                assert_eq!(answers(&mut twin), [Answer::DONE, Answer::DONE, refusal, refusal]);
                twin.blocks = blocks;
            }
        }
        for block in 1..=255 {
            twin.forge(Idle { block, ..right });
            assert_eq!(answers(&mut twin), [Answer::DONE, Answer::DONE, Answer::STALE, Answer::NO_OBJECT]);
            twin.forge(Idle { block, places: places([(5, 16)]), ..right });
            assert_eq!(answers(&mut twin), [Answer::DONE, Answer::DONE, Answer::STALE, Answer::STALE]);
        }
        twin.forge(right);
        assert_eq!(answers(&mut twin), [Answer::DONE, Answer::DONE, Answer::DONE, Answer::NO_OBJECT]);
    }
}

/// Any one bit cleared in any block but the current one makes the record stale.
#[test]
fn every_other_block_must_be_blank() {
    for blocks in NUMBERS {
        let mut twin = Twin::formatted_of(blocks, S * usize::from(blocks));
        let (right, image) = (twin.idle().expect("idle"), twin.image().to_vec());
        for at in (S..image.len()).filter(|at| [0, 8, 100, S - 1].contains(&(at % S))) {
            let mut other = image.clone();
            other[at] = 0x7F;
            twin.swap_image(&other);
            twin.forge(right);
            assert_eq!(twin.ask(0, &message::commit()), Answer::STALE, "{blocks} blocks, byte {at}");
        }
        twin.swap_image(&image);
        twin.forge(right);
        assert_eq!(twin.ask(0, &message::commit()), Answer::DONE);
    }
}
