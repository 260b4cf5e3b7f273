//! Power cuts after every step of a job and inside its erases, in every recovery from them, and in every recovery from
//! those.

use crate::book::{Lists, Objects, found};
use crate::mend::{Due, current};
use crate::places;
use crate::raise;
use crate::rng::Rng;
use crate::side::{Modelled, Stores};
use crate::twin::{Call, Twin};
use library::Library;
use model::Model;
use plain::Plain;
use std::collections::{HashSet, VecDeque};
use std::hash::{DefaultHasher, Hasher};
use store::{Answer, Drive, Idle, Store};

/// Where a job starts: its image, the idle record (mount and format take none) and the call.
pub struct Start<'a> {
    pub image: &'a [u8],
    pub idle: Option<Idle>,
    pub call: &'a Call,
}

/// What a mount after the cut may find.
#[derive(Clone, Copy)]
pub enum Allowed<'a> {
    Exactly(&'a Objects),
    /// A cut format: these objects, or no store.
    OrGone(&'a Objects),
}

/// How many images are tried that a cut inside an erase of the job leaves. In a recovery it is one, or none.
const RAISED: usize = 6;

/// How many cuts there are one in the other's recovery. There is no last one of its own: a reset that is cut is closed, and
/// another comes behind it, which may be cut.
const DEEP: usize = 3;

/// An image that a cut left, whether it fell inside an erase, and how many cuts there were.
struct Left {
    image: Vec<u8>,
    inside: bool,
    cuts: usize,
}

pub struct Cuts<M: Modelled = Model, L: Drive = Library, P: Store = Plain> {
    pub twin: Twin<M, L, P>,
    rng: Rng,
    /// The most images to recover from after one job; if there may be more, cuts are made at only some steps, and chance says
    /// which images are recovered from.
    most: usize,
    /// The steps of the job begun last.
    steps: usize,
    pub cuts: u64,
    /// How many of them fell inside an erase.
    pub inside: u64,
}

impl Cuts {
    pub fn everywhere(length: usize) -> Cuts {
        Cuts::among(Stores::real(), 2, length, usize::MAX, 0)
    }
}

impl<M: Modelled, L: Drive, P: Store> Cuts<M, L, P> {
    pub fn among(stores: Stores<M, L, P>, blocks: u8, length: usize, most: usize, seed: u64) -> Self {
        let twin = Twin::among(stores, blocks, &vec![0xFF; length]);
        Cuts { twin, rng: Rng::new(seed), most, steps: 0, cuts: 0, inside: 0 }
    }

    /// Cuts the job everywhere: up to its last step `before` must be found, after it `after`.
    pub fn of_job(&mut self, start: &Start, before: Allowed, after: &Objects) {
        let mut seen = HashSet::new();
        let mut images = self.images(start, 1, RAISED, &mut seen).expect("an accepted call");
        let finished = self.twin.image().to_vec();
        // a job may end with an image seen before: the format of a store just formatted does; no recovery may, unless what is
        // found before and after is the same
        if images.last().is_some_and(|left| left.image == finished) {
            images.pop();
            seen.remove(&digest(&finished));
        }
        // an image without a store, which a cut format may leave, must not be left by a mount
        let seen = if matches!(before, Allowed::OrGone(_)) { HashSet::new() } else { seen };
        self.recover(images, seen, before);
        let last = Left { image: finished, inside: false, cuts: 1 };
        self.recover(vec![last], HashSet::new(), Allowed::Exactly(after));
    }

    /// The images not seen so far before the first step and after each, or after some, and so many that cuts inside each
    /// erase leave; or the call's refusal. A cut inside a format's erase is no part of a run. With these there were so many
    /// cuts.
    fn images(
        &mut self,
        start: &Start,
        cuts: usize,
        raised: usize,
        seen: &mut HashSet<u64>,
    ) -> Result<Vec<Left>, Answer> {
        self.begin(start)?;
        self.steps = self.twin.steps_left();
        let mut images = Vec::new();
        keep(Left { image: self.twin.image().to_vec(), inside: false, cuts }, &mut images, seen);
        let stride = self.steps * 2 / self.most + 1;
        for step in 1.. {
            if !self.twin.busy() {
                break;
            }
            if *start.call != Call::Format {
                self.raise(cuts, raised, &mut images, seen);
            }
            assert!(!self.twin.step().refused());
            if step % stride == 0 || step < 3 || self.twin.steps_left() < 3 {
                keep(Left { image: self.twin.image().to_vec(), inside: false, cuts }, &mut images, seen);
            }
        }
        Ok(images)
    }

    /// If the next step is an erase, some images that a cut inside it leaves. In none does its block look newer.
    fn raise(&mut self, cuts: usize, raised: usize, images: &mut Vec<Left>, seen: &mut HashSet<u64>) {
        let Some(block) = self.twin.erases_next() else { return };
        let (size, newest) = (self.twin.size(), self.newest(self.twin.image()));
        for _ in 0..raised {
            let mut image = self.twin.image().to_vec();
            let bytes = &mut image[block * size..][..size];
            let mask = raise::mask(&mut self.rng, bytes);
            bytes.iter_mut().zip(mask).for_each(|(byte, bits)| *byte |= bits);
            assert_eq!(self.newest(&image), newest, "a block looks newer, half erased");
            keep(Left { image, inside: true, cuts }, images, seen);
        }
    }

    fn begin(&mut self, start: &Start) -> Result<(), Answer> {
        self.twin.load(start.image);
        if let Some(idle) = start.idle {
            self.twin.forge(idle);
        }
        let answer = self.twin.call(start.call).answer;
        if answer.refused() { Err(answer) } else { Ok(()) }
    }

    /// Mounts each image, and each image that a cut of such a mount leaves. Once a mount was accepted the store is there.
    fn recover(&mut self, images: Vec<Left>, mut seen: HashSet<u64>, allowed: Allowed) {
        let mut images: VecDeque<(Left, Allowed)> = images.into_iter().map(|left| (left, allowed)).collect();
        for _ in 0..self.most {
            let some = if self.most < usize::MAX { self.rng.below(images.len().max(1)) } else { 0 };
            let Some((Left { image, inside, cuts }, allowed)) = images.swap_remove_front(some) else { break };
            self.cuts += 1;
            self.inside += u64::from(inside);
            let start = Start { image: &image, idle: None, call: &Call::Mount };
            let raised = usize::from(self.rng.once_in(2));
            match self.images(&start, cuts + 1, raised, &mut seen) {
                Err(refusal) => self.judge_refusal(refusal, &image, allowed),
                Ok(reached) => {
                    let objects = self.judge(&image, allowed);
                    let reached = reached.into_iter().filter(|left| left.cuts <= DEEP);
                    images.extend(reached.map(|left| (left, Allowed::Exactly(objects))));
                }
            }
        }
    }

    /// The objects that were to be found, and are; in the block where they were to be, mended or transferred.
    fn judge<'a>(&mut self, image: &[u8], allowed: Allowed<'a>) -> &'a Objects {
        let idle = self.twin.idle().expect("a mount whose steps are all made ends idle");
        let (objects, lists) = found(self.twin.block(usize::from(idle.block)));
        assert_eq!(lists, Lists::default(), "something is pending after a mount");
        assert_eq!(idle.pending, [0; 4], "the record says that something is");
        assert_eq!(
            idle.places,
            places::of_block(self.twin.block(usize::from(idle.block))),
            "other places after a mount"
        );
        let (Allowed::Exactly(expected) | Allowed::OrGone(expected)) = allowed;
        assert_eq!(objects, *expected, "a mount found other objects");
        let due = Due::of(image, self.twin.blocks).expect("a current block");
        let ends = (usize::from(idle.block), usize::from(idle.end));
        assert_eq!(ends, due.rest(self.twin.blocks), "a mount ends in another block or at another place");
        assert_eq!(self.steps, due.steps(), "a mount has another number of steps");
        expected
    }

    fn judge_refusal(&self, answer: Answer, image: &[u8], allowed: Allowed) {
        match answer {
            Answer::NO_STORE => assert!(matches!(allowed, Allowed::OrGone(_)), "the store is gone"),
            Answer::WORN => {
                assert!(stuck(image, self.twin.blocks), "6 though the time may rise or nothing is to be done");
            }
            refusal => panic!("mount after a cut answered {refusal}"),
        }
    }

    fn newest(&self, image: &[u8]) -> Option<u32> {
        newest(image, self.twin.blocks)
    }
}

/// Keeps the image unless it was seen.
fn keep(left: Left, images: &mut Vec<Left>, seen: &mut HashSet<u64>) {
    if seen.insert(digest(&left.image)) {
        images.push(left);
    }
}

/// The largest time of the valid blocks.
pub fn newest(image: &[u8], blocks: u8) -> Option<u32> {
    current(image, blocks).map(|(_, journal)| journal.time)
}

/// Whether a mount would need a transfer at the last time.
pub fn stuck(image: &[u8], blocks: u8) -> bool {
    Due::of(image, blocks).is_some_and(|due| due.worn())
}

fn digest(image: &[u8]) -> u64 {
    let mut hasher = DefaultHasher::new();
    hasher.write(image);
    hasher.finish()
}
