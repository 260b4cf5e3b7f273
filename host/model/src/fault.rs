//! K5: the first bad field of a foreign block. It is found by trying every legal frame: the bytes up to the field's end begin
//! none that may stand there and fits, and those up to the end of the field before still do.

use crate::block::{self, Block, HEADER, STATE, TIME, VALID, blank};
use crate::cut;
use crate::edition::Edition;
use crate::frame::{self, Body, Frame, closed_samples, samples, settled_samples};
use std::mem::discriminant;
use std::ops::Range;
use store::{Fault, Field};

/// What a mount refused with 3 names: the lowest of the valid blocks of equal times, or else the lowest foreign block.
pub fn of_image(image: &[u8], blocks: u8) -> Fault {
    let cut = cut(image, blocks);
    let read: Vec<Block> = cut.iter().map(|bytes| block::read(bytes)).collect();
    if let Some(block) = equal_times(&read) {
        return Fault { block, field: Field::Time, place: TIME };
    }
    let block = read.iter().position(|read| *read == Block::Foreign).expect("refused with 3");
    let (field, place) = of_block(cut[block]);
    Fault { block, field, place }
}

/// The lowest valid block whose time another has too.
pub fn equal_times(read: &[Block]) -> Option<usize> {
    let has = |time: u32| read.iter().filter(|read| read.time() == Some(time)).count();
    read.iter().position(|read| read.time().is_some_and(|time| has(time) > 1))
}

/// The first bad field of a foreign block, and where it starts.
pub fn of_block(block: &[u8]) -> (Field, usize) {
    let edition = match (of_header(block), block::edition(block)) {
        (None, Some(edition)) => edition,
        (wrong, _) => return wrong.expect("no other kind is right"),
    };
    let (frames, lowest) = block::frames(edition, block);
    let end = frames.last().map_or(HEADER, |frame| frame.place.end);
    let (field, place) = of_frame(edition, &block[end..], lowest);
    (field, end + place)
}

/// The first field that is not as the header of a valid block has it.
fn of_header(block: &[u8]) -> Option<(Field, usize)> {
    let fields = [
        (Field::Length, 0, block[..2] == Edition::First.label()[..2]),
        (Field::Kind, 2, block::edition(block).is_some()),
        (Field::Time, TIME, !blank(&block[TIME..STATE])),
        (Field::State, STATE, block[STATE] == VALID),
        (Field::Rest, STATE + 1, blank(&block[STATE + 1..HEADER])),
    ];
    fields.into_iter().find(|(_, _, right)| !right).map(|(field, place, _)| (field, place))
}

/// Of all legal frames that fit into these bytes, the one that agrees with them longest says which field is bad.
fn of_frame(edition: Edition, bytes: &[u8], lowest: u16) -> (Field, usize) {
    let legal = samples(edition).iter().chain(settled_samples(edition)).chain(closed_samples(edition));
    let fitting = legal.filter(|sample| sample.len() <= bytes.len());
    let tried = fitting.map(|sample| first_bad(edition, bytes, sample.clone(), lowest));
    tried.max_by_key(|(_, place)| *place).unwrap_or((Field::Length, 0))
}

/// The first field up to whose end the bytes begin no legal frame of the sample's kind and length that may stand there.
fn first_bad(edition: Edition, bytes: &[u8], mut sample: Vec<u8>, lowest: u16) -> (Field, usize) {
    let shape = |frame: &Frame| (discriminant(&frame.body), frame.place.end);
    let whole = frame::begun(edition, &sample, 0, 0).expect("samples are legal");
    for (field, place) in fields(edition, &whole) {
        sample[..place.end].copy_from_slice(&bytes[..place.end]);
        let begun = frame::begun(edition, &sample, 0, place.end).filter(|begun| shape(begun) == shape(&whole));
        if !begun.is_some_and(|begun| begun.may_stand(lowest)) {
            return (field, place.start);
        }
    }
    unreachable!("a whole legal frame stands there")
}

/// The fields of a frame in address order, but for the value and a closed frame's body and CRC, which are never bad.
fn fields(edition: Edition, frame: &Frame) -> Vec<(Field, Range<usize>)> {
    let body = match frame.body {
        Body::Put(..) | Body::Delete(..) => vec![(Field::Host, 4..5), (Field::Id, 5..7)],
        Body::Commit(_) | Body::Abort(_) => vec![(Field::Host, 4..5)],
        Body::Settled(..) => vec![(Field::Id, 4..6)],
        Body::Closed | Body::Reset => vec![],
    };
    let (end, seal) = (frame.place.end, frame.seal(edition));
    let crc = if seal.is_empty() { vec![] } else { vec![(Field::Crc, seal)] };
    [vec![(Field::Length, 0..2), (Field::Kind, 2..4)], body, crc, vec![(Field::Finish, end - 1..end)]].concat()
}
