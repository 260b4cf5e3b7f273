//! The images that are measured.

use model::Model;
use model::edition::Edition;
use model::frame::closed_samples;
use store::{Answer, Head, Idle, Store, message};

/// A store at rest, and the same with one change of host 0 pending; with its commit torn behind it, after one byte; and with
/// closed frames behind it, so that a mount has no room for a reset.
pub struct Case {
    pub blocks: u8,
    pub fill: &'static str,
    pub rest: Vec<u8>,
    pub rest_idle: Idle,
    pub pending: Vec<u8>,
    pub pending_idle: Idle,
    pub torn: Vec<u8>,
    pub crowded: Vec<u8>,
}

/// A board under the model, which builds the images.
struct Builder {
    image: Vec<u8>,
    blocks: u8,
    record: model::Record,
}

/// Bytes of a frame beside its body: length, kind and finish byte, in edition 2 the CRC too.
fn around(edition: u8) -> usize {
    if edition == 2 { 9 } else { 5 }
}

impl Builder {
    fn formatted(length: usize, blocks: u8, edition: u8) -> Builder {
        let image = vec![0xFF; length];
        let (answer, record) = Model.format(&image, blocks);
        assert_eq!(answer, Answer::MORE);
        let mut builder = Builder { image, blocks, record };
        builder.finish();
        if edition == 2 {
            builder.serve(&message::convert());
        }
        builder
    }

    fn finish(&mut self) {
        while Model.step(&mut self.image, self.blocks, &mut self.record) == Answer::MORE {}
    }

    fn serve(&mut self, message: &[u8]) {
        let answer = Model.request(&self.image, self.blocks, &mut self.record, 0, message, &mut []);
        assert_eq!(answer, Answer::MORE);
        self.finish();
    }

    fn idle(&self) -> Idle {
        match Model.head(&self.record) {
            Head::Idle(idle) => idle,
            other => panic!("{other:?}"),
        }
    }

    /// Bytes of a block.
    fn size(&self) -> usize {
        self.image.len() / usize::from(self.blocks)
    }

    /// Bytes after the last frame.
    fn free(&self) -> usize {
        self.size() - usize::from(self.idle().end)
    }
}

/// Two short objects in an otherwise empty journal.
pub fn sparse(length: usize, blocks: u8, edition: u8) -> Case {
    let mut builder = Builder::formatted(length, blocks, edition);
    for id in [0, 1] {
        builder.serve(&message::put(id, &[id; 8]));
    }
    builder.serve(&message::commit());
    case(builder, if edition == 2 { "sparse, edition 2" } else { "sparse" })
}

/// Bytes of the values that are put and of the objects of a full store. It is less than the store's limit: the figures
/// stay comparable with those from before the limit was raised, and the smallest image has room for such values.
pub const OBJECT: usize = 64;

/// As many such objects as leave room for one more put, none of them 255, and a journal with so few bytes left that such a
/// put needs a transfer, and a put of one byte with its commit and a reset does not.
pub fn full(length: usize, blocks: u8, edition: u8) -> Case {
    let mut builder = Builder::formatted(length, blocks, edition);
    let (change, end) = (3 + around(edition), 1 + around(edition));
    let (put, settled) = (change + OBJECT, 2 + around(edition) + OBJECT);
    let objects = ((builder.size() - 16 - (put + end + change + end)) / settled).min(255);
    for id in 0..objects {
        builder.serve(&message::put(id as u8, &[id as u8; OBJECT]));
        builder.serve(&message::commit());
    }
    while builder.free() > 3 * (change + end) {
        builder.serve(&message::put(0, &[]));
        builder.serve(&message::abort());
    }
    case(builder, if edition == 2 { "full, edition 2" } else { "full" })
}

fn case(mut builder: Builder, fill: &'static str) -> Case {
    let (rest, rest_idle) = (builder.image.clone(), builder.idle());
    builder.serve(&message::put(0, &[1]));
    let pending_idle = builder.idle();
    assert_eq!(pending_idle.block, rest_idle.block, "no transfer");
    let (torn, crowded) = (torn(&builder), crowded(&builder));
    Case { blocks: builder.blocks, fill, rest, rest_idle, pending: builder.image, pending_idle, torn, crowded }
}

/// Where the board's frames end in the image.
fn end(builder: &Builder) -> usize {
    usize::from(builder.idle().block) * builder.size() + usize::from(builder.idle().end)
}

fn torn(builder: &Builder) -> Vec<u8> {
    let mut image = builder.image.clone();
    image[end(builder)] = 1 + around(builder.idle().edition) as u8;
    image
}

fn crowded(builder: &Builder) -> Vec<u8> {
    let (mut image, mut at, until) = (builder.image.clone(), end(builder), end(builder) + builder.free());
    let closed = closed_samples(Edition::ALL[usize::from(builder.idle().edition) - 1]);
    while let Some(frame) = closed.iter().rfind(|frame| at + frame.len() <= until) {
        image[at..at + frame.len()].copy_from_slice(frame);
        at += frame.len();
    }
    image
}
