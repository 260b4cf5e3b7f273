//! Wrong words on where a block broke, each wrong in one thing that K5 says: these images must tell them from the right ones.

use super::fault::{COMMIT, EMPTY, HEADER, PUT, SETTLED, block, with};
use library::Library;
use model::Model;
use plain::Plain;
use store::{Fault, Field, Store};

type Said = Option<Fault>;

/// Blocks, and what a mount refused with 3 names.
fn images() -> Vec<([Vec<u8>; 2], Fault)> {
    let blank = || block(&[]);
    let fault = |block, field, place| Fault { block, field, place };
    let host = block(&[&HEADER, &with(&COMMIT, 4, 4)]);
    let rest = block(&[&with(&HEADER, 9, 0)]);
    let last = with(&SETTLED, 4, 255);
    let no_time = block(&[&with(&with(&HEADER, 4, 0xFF), 8, 0xFD)]);
    vec![
        ([block(&[&HEADER, &PUT, &with(&COMMIT, 2, 6)]), blank()], fault(0, Field::Kind, 28)),
        ([host.clone(), blank()], fault(0, Field::Host, 20)),
        ([blank(), host.clone()], fault(1, Field::Host, 20)),
        ([host, rest], fault(0, Field::Host, 20)),
        ([block(&[&HEADER, &last, &SETTLED]), blank()], fault(0, Field::Kind, 27)),
        ([block(&[&HEADER, &last, &EMPTY]), blank()], fault(0, Field::Length, 25)),
        ([block(&[&HEADER, &SETTLED[..8]]), blank()], fault(0, Field::Finish, 24)),
        ([no_time, blank()], fault(0, Field::Time, 4)),
        ([block(&[&HEADER]), block(&[&HEADER, &PUT])], fault(0, Field::Time, 4)),
    ]
}

/// How many of these images it is wrong about.
fn wrong(said: impl Fn(&[u8]) -> Said) -> usize {
    images().into_iter().filter(|(blocks, fault)| said(&blocks.concat()) != Some(*fault)).count()
}

fn right(image: &[u8]) -> Said {
    Model.fault(image, 2).1
}

#[test]
fn right_stores_are_not_misled() {
    let library = Library::linked();
    assert_eq!(
        [wrong(right), wrong(|image| Plain.fault(image, 2).1), wrong(|image| library.fault(image, 2).1)],
        [0; 3]
    );
}

/// The next field in the order of their numbers, where there is one.
#[test]
fn one_field_late() {
    let late =
        |fault: Fault| Fault { field: Field::numbered(fault.field as u8 + 1).unwrap_or(fault.field), ..fault };
    assert_eq!(wrong(|image| right(image).map(late)), images().len());
}

/// Right only about headers.
#[test]
fn places_counted_from_the_frame() {
    let frames = [16, 25, 26];
    let start = |place: usize| frames.into_iter().rfind(|start| *start <= place).unwrap_or(0);
    assert_eq!(
        wrong(|image| right(image).map(|fault| Fault { place: fault.place - start(fault.place), ..fault })),
        7
    );
}

/// Wrong where both are foreign, and of equal times.
#[test]
fn block_1_named_before_block_0() {
    let swapped = |image: &[u8]| {
        let (first, second) = image.split_at(image.len() / 2);
        right(&[second, first].concat()).map(|fault| Fault { block: 1 - fault.block, ..fault })
    };
    assert_eq!(wrong(swapped), 2);
}

/// After settled id 255, at 16 to 25, a further settled frame is not bad at its id.
#[test]
fn at_the_id_after_settled_id_255() {
    let at_the_id = |image: &[u8]| {
        let fault = right(image)?;
        let last = image[16..].starts_with(&with(&SETTLED, 4, 255));
        Some(if last { Fault { field: Field::Id, place: 29, ..fault } } else { fault })
    };
    assert_eq!(wrong(at_the_id), 2);
}

/// The state byte before a time that was never programmed.
#[test]
fn the_state_before_the_time() {
    let state = |image: &[u8]| {
        let fault = right(image)?;
        let early = fault.field == Field::Time && image[fault.block * image.len() / 2 + 8] != 0xFC;
        Some(if early { Fault { field: Field::State, place: 8, ..fault } } else { fault })
    };
    assert_eq!(wrong(state), 1);
}
