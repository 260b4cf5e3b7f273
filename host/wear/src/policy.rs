//! Stores that transfer at other times, or to other blocks, than document 01 says; otherwise the model.

use model::block::{self, Block, Journal};
use model::edition::Edition;
use model::frame;
use model::job::{Work, begin};
use model::{Model, Record, block_of};
use store::{Answer, Fault, Head, Idle, Store, Stretch};

/// A frame that was accepted.
#[derive(Clone, Copy)]
pub struct Append {
    /// Where the journal ends before it, its own length and the block's.
    pub end: usize,
    pub frame: usize,
    pub size: usize,
    pub commit: bool,
}

#[derive(Clone, Copy)]
pub struct Policy {
    pub name: &'static str,
    /// How many transfers come before the frame.
    pub transfers: fn(Append) -> usize,
    /// Where one goes, from a block of so many.
    pub next: fn(usize, usize) -> usize,
}

fn in_turn(block: usize, blocks: usize) -> usize {
    (block + 1) % blocks
}

fn when_full(append: Append) -> usize {
    usize::from(append.end + append.frame > append.size)
}

pub const RIGHT: Policy = Policy { name: "when the block is full", transfers: when_full, next: in_turn };

pub const HALF_FULL: Policy = Policy {
    name: "when the block is half full",
    transfers: |append| usize::from(append.end + append.frame > append.size / 2),
    ..RIGHT
};

pub const EVERY_COMMIT: Policy = Policy {
    name: "at every commit",
    transfers: |append| usize::from(append.commit).max(when_full(append)),
    ..RIGHT
};

pub const EVERY_FRAME: Policy = Policy { name: "at every frame", transfers: |_| 1, ..RIGHT };

pub const TWICE: Policy = Policy { name: "twice at every frame", transfers: |_| 2, ..RIGHT };

/// Blocks 0 and 1 alone wear.
pub const BACK_TO_0: Policy =
    Policy { name: "when full, between blocks 0 and 1", next: |block, _| usize::from(block == 0), ..RIGHT };

/// The current block, as an idle record has it.
struct Board<'a> {
    image: &'a [u8],
    idle: Idle,
    edition: Edition,
    journal: Journal,
}

impl<'a> Board<'a> {
    fn new(image: &'a [u8], idle: Idle) -> Board<'a> {
        match block::read(block_of(image, idle.blocks, usize::from(idle.block))) {
            Block::Valid(journal) => Board { image, idle, edition: journal.edition, journal },
            other => panic!("{other:?} under an idle record"),
        }
    }

    fn size(&self) -> usize {
        self.image.len() / usize::from(self.idle.blocks)
    }

    /// What a transfer copies: settled objects and pending frames.
    fn frames(&self) -> Vec<u8> {
        let bytes = block_of(self.image, self.idle.blocks, usize::from(self.idle.block));
        let replay = block::replay(&self.journal);
        let settled = replay.objects().map(|(id, value)| frame::settled(self.edition, id, &bytes[value]));
        let pending = replay.pending.iter().map(|frame| bytes[frame.place.clone()].to_vec());
        settled.chain(pending).collect::<Vec<_>>().concat()
    }

    /// A job of so many transfers, then the frame.
    fn job(&self, transfers: usize, next: fn(usize, usize) -> usize, frame: &[u8]) -> Record {
        let (size, frames) = (self.size(), self.frames());
        let (mut work, mut current) = (Vec::new(), usize::from(self.idle.block));
        for time in (self.journal.time + 1..).take(transfers) {
            let to = next(current, usize::from(self.idle.blocks));
            let base = to * size;
            work.push(Work::program(base + block::STATE, [block::IN_PROGRESS]));
            work.push(Work::program(base, self.edition.label()));
            work.push(Work::program(base + block::HEADER, frames.clone()));
            work.push(Work::program(base + block::TIME, (!time).to_le_bytes()));
            work.push(Work::program(base + block::STATE, [block::VALID]));
            work.push(Work::erase(current, size));
            current = to;
        }
        let block = [&[0xFF; block::HEADER], &frames[..], frame].concat();
        work.push(Work::program(current * size + block.len() - frame.len(), frame.to_vec()));
        let replay = block::replayed(self.edition, &block::frames(self.edition, &block).0);
        let (end, pending, places) = (block.len() as u16, replay.counts(), replay.places);
        begin(work, Idle { block: current as u8, end, pending, places, ..self.idle })
    }
}

/// The frame that a job of the model ends with.
fn last_frame(image: &[u8], blocks: u8, job: &Record, length: usize) -> Vec<u8> {
    let (mut image, mut record) = (image.to_vec(), job.clone());
    Model.run(&mut image, blocks, &mut record, usize::MAX);
    let Head::Idle(idle) = Model.head(&record) else { panic!("the model's job did not end") };
    let end = usize::from(idle.end);
    block_of(&image, blocks, usize::from(idle.block))[end - length..end].to_vec()
}

impl Store for Policy {
    type Record = Record;

    fn request(
        &self,
        image: &[u8],
        blocks: u8,
        record: &mut Record,
        host: u8,
        message: &[u8],
        reply: &mut [u8],
    ) -> Answer {
        let before = Model.head(record);
        let answer = Model.request(image, blocks, record, host, message, reply);
        let convert = message == store::message::convert();
        if let Head::Idle(idle) = before
            && answer == Answer::MORE
            && !convert
        {
            let board = Board::new(image, idle);
            let length = message.len() + 2 + board.edition.seal();
            let (end, size, commit) = (board.journal.end, board.size(), message == store::message::commit());
            let transfers = (self.transfers)(Append { end, frame: length, size, commit });
            if transfers > 0 {
                *record = board.job(transfers, self.next, &last_frame(image, blocks, record, length));
            }
        }
        answer
    }

    fn mount(&self, image: &[u8], blocks: u8) -> (Answer, Record) {
        Model.mount(image, blocks)
    }

    fn fault(&self, image: &[u8], blocks: u8) -> (Answer, Option<Fault>) {
        Model.fault(image, blocks)
    }

    fn format(&self, image: &[u8], blocks: u8) -> (Answer, Record) {
        Model.format(image, blocks)
    }

    fn step(&self, image: &mut [u8], blocks: u8, record: &mut Record) -> Answer {
        Model.step(image, blocks, record)
    }

    fn read(&self, image: &[u8], blocks: u8, record: &Record, host: u8, message: &[u8]) -> (Answer, Stretch) {
        Model.read(image, blocks, record, host, message)
    }

    fn unmounted(&self) -> Record {
        Model.unmounted()
    }

    fn idle(&self, idle: Idle) -> Record {
        Model.idle(idle)
    }

    fn head(&self, record: &Record) -> Head {
        Model.head(record)
    }
}
