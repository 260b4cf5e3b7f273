//! Number and size of an image's blocks, and how evenly they wear (K14).

use crate::rng::Rng;
use crate::side::Modelled;
use crate::twin::{Call, Twin, UNWRITTEN};
use store::{Answer, Drive, Head, Store, message};

/// Whether an image of this length may have so many blocks: 2 to 16 of a whole multiple of 128 bytes each, from 256 up,
/// 65,536 bytes in all at most.
pub fn allowed(length: usize, blocks: u8) -> bool {
    (2..=16).contains(&blocks)
        && length <= 65_536
        && (2..=256).any(|multiple| length == 128 * multiple * usize::from(blocks))
}

/// Another number of blocks than this one, allowed for the image or not.
pub fn other(rng: &mut Rng, blocks: u8) -> u8 {
    let near = [0, 1, 2, 3, 4, 8, 16, 17, 255, blocks / 2, blocks * 2, blocks - 1, blocks + 1];
    loop {
        let other = if rng.once_in(8) { rng.byte() } else { rng.pick(&near) };
        if other != blocks {
            return other;
        }
    }
}

/// A call that is told another number of blocks than the record's: it is refused and changes nothing. A step without a job
/// in hand looks at no image.
pub fn tell_another<M: Modelled, L: Drive, P: Store>(twin: &mut Twin<M, L, P>, rng: &mut Rng) {
    let (blocks, head, image) = (twin.blocks, twin.head(), twin.image().to_vec());
    let (host, message, reply) = (rng.below(5) as u8, rng.pick(&[message::log, message::commit])(), 20);
    let call = match rng.below(4) {
        0 => Call::Step,
        1 => Call::Run(1 + rng.below(9)),
        2 => Call::Read { host, message: message::read(1) },
        _ => Call::Request { host, message, reply },
    };
    twin.blocks = other(rng, blocks);
    let outcome = twin.call(&call);
    let expected = match head {
        Head::Job if call.goes_on() => Answer::STALE,
        _ if call.goes_on() => Answer::DONE,
        _ if !allowed(image.len(), twin.blocks) => Answer::IMAGE_LENGTH,
        _ if host > 3 => Answer::HOST_RANGE,
        Head::Job => Answer::BUSY,
        Head::Unmounted => Answer::NO_STORE,
        Head::Idle(_) => Answer::STALE,
    };
    assert_eq!((outcome.answer, outcome.steps), (expected, 0), "{call}, told {} blocks", twin.blocks);
    assert!(outcome.reply.iter().all(|byte| *byte == UNWRITTEN), "the reply was written to");
    assert_eq!((twin.head(), twin.image()), (head, &image[..]));
    twin.blocks = blocks;
}

/// From a finished format to the next one's start, with no mount begun inside a job, two blocks' erases differ by at most
/// one.
#[derive(Default)]
pub struct Wear {
    /// What was counted when the format finished; nothing once a format or a mount inside a job has begun.
    since: Option<[usize; 16]>,
    /// The most erases in one such stretch.
    pub most: usize,
}

impl Wear {
    pub fn start(&mut self, erases: [usize; 16]) {
        self.since = Some(erases);
    }

    pub fn end(&mut self) {
        self.since = None;
    }

    pub fn check(&mut self, blocks: u8, erases: [usize; 16]) {
        let Some(since) = self.since else { return };
        let counts: Vec<usize> = (0..usize::from(blocks)).map(|block| erases[block] - since[block]).collect();
        let (least, most) = (counts.iter().min(), counts.iter().max());
        assert!(most.zip(least).is_some_and(|(most, least)| most - least <= 1), "erased {counts:?} times");
        self.most = self.most.max(counts.iter().sum());
    }
}
