//! K8: a read goes to the place that the record has for its object, and looks at the frame there alone.

use crate::edition::Edition;
use crate::frame::{self, Body, Id};
use store::{Answer, Idle, Stretch};

/// Where the object's value stands, on an image whose length is allowed.
pub fn find(image: &[u8], blocks: u8, idle: &Idle, id: Id) -> Result<Stretch, Answer> {
    if (idle.length, idle.blocks) != (image.len(), blocks) {
        return Err(Answer::STALE);
    }
    match idle.places[usize::from(id.0)] {
        0 => Err(Answer::NO_OBJECT),
        place => value(image, idle, usize::from(place), id).ok_or(Answer::STALE),
    }
}

/// The value in the put or settled frame of this object at a place in the recorded block, if one stands there. The record
/// says by which edition it is read, whatever the header says.
fn value(image: &[u8], idle: &Idle, place: usize, id: Id) -> Option<Stretch> {
    let (block, size) = (usize::from(idle.block), image.len() / usize::from(idle.blocks));
    let bytes = image.chunks(size).nth(block)?;
    match frame::whole(Edition::numbered(idle.edition), bytes, place)?.body {
        Body::Put(_, found, value) | Body::Settled(found, value) if found == id => {
            Some(Stretch { at: block * size + value.start, len: value.len() })
        }
        _ => None,
    }
}
