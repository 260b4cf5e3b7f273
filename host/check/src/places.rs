//! Where each object's frame stands, as the record says it (K8).

use crate::pending;
use crate::rng::Rng;
use crate::side::Modelled;
use crate::twin::{Call, Twin};
use model::block::{self, Block, HEADER};
use model::block_of;
use model::edition::Edition;
use model::frame::{self, Body, Frame, Host, Id};
use std::mem::take;
use store::{Answer, Drive, Idle, Store, Stretch, message};

/// By id, where in a block the frame starts that its settled value stands in; none in a block that is not valid. A replay
/// apart from the model's.
pub fn of_block(bytes: &[u8]) -> [u16; 256] {
    let (mut places, mut lists) = ([0; 256], <[Vec<(u8, u16)>; 4]>::default());
    let Block::Valid(journal) = block::read(bytes) else { return places };
    for Frame { place, body } in &journal.frames {
        let at = place.start as u16;
        match body {
            Body::Settled(Id(id), _) => places[usize::from(*id)] = at,
            Body::Put(Host(host), Id(id), _) => lists[usize::from(*host)].push((*id, at)),
            Body::Delete(Host(host), Id(id)) => lists[usize::from(*host)].push((*id, 0)),
            Body::Commit(Host(host)) => {
                let list = take(&mut lists[usize::from(*host)]);
                list.into_iter().for_each(|(id, at)| places[usize::from(id)] = at);
            }
            Body::Abort(Host(host)) => lists[usize::from(*host)].clear(),
            Body::Reset => lists = Default::default(),
            Body::Closed => {}
        }
    }
    places
}

/// What a read of this id is answered under an idle record of this image's length and number of blocks: whatever else the
/// record says, its place decides.
pub fn told(image: &[u8], idle: &Idle, id: u8) -> (Answer, Stretch) {
    let (refused, place) = (Stretch::default(), usize::from(idle.places[usize::from(id)]));
    if place == 0 {
        return (Answer::NO_OBJECT, refused);
    }
    if idle.block >= idle.blocks {
        return (Answer::STALE, refused);
    }
    let block = block_of(image, idle.blocks, usize::from(idle.block));
    let frame = if place < block.len() { frame::whole(edition(idle), block, place) } else { None };
    match frame.map(|frame| frame.body) {
        Some(Body::Put(_, Id(owner), value) | Body::Settled(Id(owner), value)) if owner == id => {
            let at = usize::from(idle.block) * block.len() + value.start;
            (Answer::DONE, Stretch { at, len: value.len() })
        }
        _ => (Answer::STALE, refused),
    }
}

/// An id, more often one that has a place.
fn some_id(rng: &mut Rng, idle: &Idle) -> u8 {
    let owned: Vec<u8> = (0..=255).filter(|id| idle.places[usize::from(*id)] != 0).collect();
    if owned.is_empty() || rng.once_in(4) { rng.byte() } else { rng.pick(&owned) }
}

/// Reads of some id under the record in hand, which is this one.
pub fn look<M: Modelled, L: Drive, P: Store>(twin: &mut Twin<M, L, P>, rng: &mut Rng, idle: &Idle) {
    let id = some_id(rng, idle);
    look_for(twin, rng, idle, id);
}

/// A read and a request to read are answered as told, malformed ones with 1; none changes anything.
pub fn look_for<M: Modelled, L: Drive, P: Store>(
    twin: &mut Twin<M, L, P>,
    rng: &mut Rng,
    idle: &Idle,
    id: u8,
) -> Answer {
    let (image, host, message) = (twin.image().to_vec(), rng.below(4) as u8, message::read(id));
    let bodies = [&[][..], &[id], &[id, 1], &[id, 0, 0]].map(|body| message::message(message::READ, body));
    let malformed = if rng.once_in(5) { &[7, 0, 5, 1, id, 0][..] } else { &bodies[rng.below(4)] };
    let (told, refused) = (told(&image, idle, id), (Answer::MALFORMED, Stretch::default()));
    for (message, told) in [(&message[..], told), (malformed, refused)] {
        let read = twin.call(&Call::Read { host, message: message.to_vec() });
        assert_eq!((read.answer, read.stretch), told, "read {message:?} under {idle:?}");
        let asked = twin.call(&Call::Request { host, message: message.to_vec(), reply: 0 });
        assert_eq!(asked.answer, told.0, "request {message:?} under {idle:?}");
    }
    assert_eq!((twin.idle(), twin.image()), (Some(*idle), &image[..]));
    told.0
}

/// How the place of an id may be wrong.
#[derive(Clone, Copy, PartialEq, Eq, PartialOrd, Ord, Debug)]
pub enum Wrong {
    /// That of another id.
    Anothers,
    /// A few bytes beside the right one.
    Beside,
    None,
    InHeader,
    /// Behind the last frame, or in no block.
    PastEnd,
    /// Of a frame without a value.
    OtherFrame,
    /// Of a value of this id that is not settled: pending, aborted, dropped or overwritten.
    OtherValue,
    /// From before the last transfer.
    Old,
}

impl Wrong {
    pub const ALL: [Wrong; 8] = [
        Wrong::Anothers,
        Wrong::Beside,
        Wrong::None,
        Wrong::InHeader,
        Wrong::PastEnd,
        Wrong::OtherFrame,
        Wrong::OtherValue,
        Wrong::Old,
    ];

    /// Ids with places that are wrong in this way, if there are such; some may be right.
    fn places(self, rng: &mut Rng, frames: &[Frame], idle: &Idle, old: &[u16; 256]) -> Vec<(u8, u16)> {
        let (id, size) = (some_id(rng, idle), (idle.length / usize::from(idle.blocks)) as u16);
        let place = idle.places[usize::from(id)];
        let at = |frame: &Frame| frame.place.start as u16;
        let value = |frame: &Frame| match frame.body {
            Body::Put(_, Id(id), _) | Body::Settled(Id(id), _) => Some((id, at(frame))),
            _ => None,
        };
        match self {
            Wrong::Anothers => idle.places.iter().filter(|place| **place != 0).map(|place| (id, *place)).collect(),
            Wrong::Beside => {
                [1, 2, 7, 256, u16::MAX, u16::MAX - 1].map(|by| (id, place.wrapping_add(by))).to_vec()
            }
            Wrong::None => vec![(id, 0)],
            Wrong::InHeader => (1..HEADER as u16).map(|place| (id, place)).collect(),
            Wrong::PastEnd => [idle.end, idle.end.saturating_add(1), size - 1, size, size + 1, u16::MAX]
                .map(|place| (id, place))
                .to_vec(),
            Wrong::OtherFrame => {
                frames.iter().filter(|frame| value(frame).is_none()).map(|frame| (id, at(frame))).collect()
            }
            Wrong::OtherValue => frames.iter().filter_map(value).collect(),
            Wrong::Old => (0..=255).zip(old.iter().copied()).filter(|(_, place)| *place != 0).collect(),
        }
    }
}

/// Under this record, which is right but for one place, a read of that id goes by the place, a read of any other finds what it
/// did, and all other calls are refused with 11.
pub fn mislead<M: Modelled, L: Drive, P: Store>(
    twin: &mut Twin<M, L, P>,
    rng: &mut Rng,
    right: Idle,
    old: &[u16; 256],
) {
    let how = rng.pick(&Wrong::ALL);
    let (mut wrong, frames) = (right, frames(twin.image(), &right));
    let mut places = how.places(rng, &frames, &right, old);
    places.retain(|(id, place)| right.places[usize::from(*id)] != *place);
    if places.is_empty() {
        return;
    }
    let (id, place) = rng.pick(&places);
    wrong.places[usize::from(id)] = place;
    pending::refused(twin, rng, right, wrong);
    twin.forge(wrong);
    let answer = look_for(twin, rng, &wrong, id);
    twin.tally.count_place(how, answer);
    twin.forge(right);
}

/// The frames of the record's block, by its edition, as far as they are legal.
fn frames(image: &[u8], idle: &Idle) -> Vec<Frame> {
    block::frames(edition(idle), block_of(image, idle.blocks, usize::from(idle.block))).0
}

fn edition(idle: &Idle) -> Edition {
    if idle.edition == 2 { Edition::Second } else { Edition::First }
}

/// Places of any kind for some ids, also in a block that is not valid: of frames as far as they are legal, and others.
pub fn any(rng: &mut Rng, image: &[u8], idle: &Idle) -> [u16; 256] {
    let (mut places, frames) = (idle.places, frames(image, idle));
    for _ in 0..8 {
        let how = rng.pick(&Wrong::ALL);
        let some = how.places(rng, &frames, idle, &idle.places);
        if !some.is_empty() {
            let (id, place) = rng.pick(&some);
            places[usize::from(id)] = place;
        }
    }
    places
}
