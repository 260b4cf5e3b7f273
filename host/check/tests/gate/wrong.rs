//! Wrong stores, each wrong in one thing that K4 says: the half-erased images of these tests must tell them from right ones.

use super::altered::{Altered, Begun, RIGHT};
use super::erase::{Scene, mount_transfer};
use super::format::{beside, olders, transferred};
use library::Library;
use model::block::{self, Block};
use model::{Model, Record, block_of};
use plain::Plain;
use store::{Answer, Store, message};

fn both(image: &[u8]) -> [Block; 2] {
    [0, 1].map(|block| block::read(block_of(image, 2, block)))
}

/// As before K4: any foreign block is 3.
fn mount_that_refuses(image: &[u8], blocks: u8) -> Begun {
    if both(image).contains(&Block::Foreign) {
        (Answer::FOREIGN, Record::Unmounted)
    } else {
        Model.mount(image, blocks)
    }
}

/// Of two valid blocks the older is current, as if times were stored as they are.
fn mount_of_the_older(image: &[u8], blocks: u8) -> Begun {
    let mut seen = image.to_vec();
    if let [Block::Valid(first), Block::Valid(second)] = both(image) {
        let newer = usize::from(second.time > first.time);
        seen[newer * image.len() / 2 + block::STATE] = block::IN_PROGRESS;
    }
    Model.mount(&seen, blocks)
}

/// As before K4: block 0 first, whatever it holds.
fn format_in_number_order(image: &[u8], blocks: u8) -> Begun {
    Model.format(&vec![0xFF; image.len()], blocks)
}

/// The value of an object after a restart and all its steps, or the refusal.
fn restart<S: Store>(store: &S, image: &mut [u8], id: u8) -> Result<Vec<u8>, Answer> {
    let (mut answer, mut record) = store.mount(image, 2);
    while answer == Answer::MORE {
        answer = store.step(image, 2, &mut record);
    }
    match store.read(image, 2, &record, 0, &message::read(id)) {
        _ if answer.refused() => Err(answer),
        (Answer::DONE, stretch) => Ok(stretch.of(image).to_vec()),
        (refusal, _) => Err(refusal),
    }
}

/// How many of some half-erased images a restart gets wrong: one bit is raised, or one value.
fn wrong_restarts<S: Store>(store: &S) -> usize {
    let scene: Scene = mount_transfer(1);
    let images =
        [(8, 0x01), (8, 0x02), (4, 0x01), (2, 0x80), (16, 0x40), (23, 0x08), (255, 0xFF)].map(|(at, bits)| {
            let mut mask = [0; 256];
            mask[at] = bits;
            scene.raised(&mask)
        });
    images.into_iter().filter(|image| restart(store, &mut image.clone(), 7) != Ok(b"seven".to_vec())).count()
}

/// How many formats, cut after their first step beside a half-erased older block, leave other objects than the old ones.
fn wrong_formats<S: Store>(store: &S) -> usize {
    let mut wrong = 0;
    for current in [0, 1] {
        let image = transferred(current);
        for older in olders(block_of(&image, 2, 1 - current)) {
            let mut image = beside(&image, current, &older);
            let (answer, mut record) = store.format(&image, 2);
            assert_eq!((answer, store.step(&mut image, 2, &mut record)), (Answer::MORE, Answer::MORE));
            wrong += usize::from(restart(store, &mut image, 5) != Ok(b"AB".to_vec()));
        }
    }
    wrong
}

#[test]
fn right_stores_pass() {
    assert_eq!([wrong_restarts(&Model), wrong_restarts(&Plain), wrong_restarts(&Library::linked())], [0; 3]);
    assert_eq!([wrong_formats(&Model), wrong_formats(&Plain), wrong_formats(&Library::linked())], [0; 3]);
    assert_eq!((wrong_restarts(&RIGHT), wrong_formats(&RIGHT)), (0, 0));
}

/// State byte 0xFD, time 0, a wrong kind and a put of 77 bytes, of which the last is not 0xFE, make the old block foreign.
#[test]
fn a_store_that_refuses_a_half_erased_block() {
    assert_eq!(wrong_restarts(&Altered { mount: mount_that_refuses, ..RIGHT }), 4);
}

/// The old block is still valid with its first put's value raised to "{even".
#[test]
fn a_store_that_takes_the_old_block_for_the_newer() {
    assert_eq!(wrong_restarts(&Altered { mount: mount_of_the_older, ..RIGHT }), 1);
}

/// With block 0 current, no older block is left to find in its place, or one with another value.
#[test]
fn a_format_that_erases_the_valid_block_first() {
    assert_eq!(wrong_formats(&Altered { format: format_in_number_order, ..RIGHT }), 8);
}
