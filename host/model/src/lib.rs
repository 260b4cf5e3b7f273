//! Document 01 with K2, K4, K5, K7, K8, K9, K11 and K14 of document 02, implemented straightforwardly and on its own:
//! nothing here is shared with the proved library.

pub mod block;
pub mod edition;
pub mod fault;
pub mod frame;
pub mod job;
mod mend;
mod place;
mod request;

use block::{Block, HEADER, Journal, Replay};
use edition::Edition;
use frame::Host;
pub use job::Record;
use job::Work;
use request::{Message, Page, Request};
use store::message::PAGE;
use store::{Answer, Drive, Fault, Head, Idle, Store, Stretch};

const LAST_TIME: u32 = u32::MAX;

pub struct Model;

impl Store for Model {
    type Record = Record;

    fn mount(&self, image: &[u8], blocks: u8) -> (Answer, Record) {
        accepted_or_unmounted(mount(image, blocks))
    }

    fn fault(&self, image: &[u8], blocks: u8) -> (Answer, Option<Fault>) {
        match mount(image, blocks) {
            Ok(_) => (Answer::DONE, None),
            Err(Answer::FOREIGN) => (Answer::FOREIGN, Some(fault::of_image(image, blocks))),
            Err(refusal) => (refusal, None),
        }
    }

    fn format(&self, image: &[u8], blocks: u8) -> (Answer, Record) {
        accepted_or_unmounted(format(image, blocks))
    }

    fn request(
        &self,
        image: &[u8],
        blocks: u8,
        record: &mut Record,
        host: u8,
        message: &[u8],
        reply: &mut [u8],
    ) -> Answer {
        match serve(image, blocks, record, host, message, reply) {
            Ok(next) => {
                *record = next;
                job::answer(record)
            }
            Err(refusal) => refusal,
        }
    }

    fn step(&self, image: &mut [u8], blocks: u8, record: &mut Record) -> Answer {
        if let Record::Job(job) = record
            && job.is_on(image.len(), blocks)
        {
            job.next().make(image);
        }
        self.made(image, blocks, record)
    }

    fn read(&self, image: &[u8], blocks: u8, record: &Record, host: u8, message: &[u8]) -> (Answer, Stretch) {
        match read(image, blocks, record, host, message) {
            Ok(stretch) => (Answer::DONE, stretch),
            Err(refusal) => (refusal, Stretch::default()),
        }
    }

    fn unmounted(&self) -> Record {
        Record::Unmounted
    }

    fn idle(&self, idle: Idle) -> Record {
        Record::Idle(idle)
    }

    fn head(&self, record: &Record) -> Head {
        match record {
            Record::Unmounted => Head::Unmounted,
            Record::Idle(idle) => Head::Idle(*idle),
            Record::Job(_) => Head::Job,
        }
    }
}

fn accepted_or_unmounted(result: Result<Record, Answer>) -> (Answer, Record) {
    match result {
        Ok(record) => (job::answer(&record), record),
        Err(refusal) => (refusal, Record::Unmounted),
    }
}

/// The size of a block, unless the length is not allowed (refusal 4).
fn allowed_size(image: &[u8], blocks: u8) -> Result<usize, Answer> {
    let (length, blocks) = (image.len(), usize::from(blocks));
    if !(2..=16).contains(&blocks) || length > 65_536 || length % blocks != 0 {
        return Err(Answer::IMAGE_LENGTH);
    }
    let size = length / blocks;
    if size >= 256 && size.is_multiple_of(128) { Ok(size) } else { Err(Answer::IMAGE_LENGTH) }
}

/// The bytes of each block of an image whose length is allowed.
pub fn cut(image: &[u8], blocks: u8) -> Vec<&[u8]> {
    image.chunks(image.len() / usize::from(blocks)).collect()
}

/// The bytes of one of them.
pub fn block_of(image: &[u8], blocks: u8, block: usize) -> &[u8] {
    cut(image, blocks)[block]
}

fn mount(image: &[u8], blocks: u8) -> Result<Record, Answer> {
    let size = allowed_size(image, blocks)?;
    let mut read: Vec<Block> = cut(image, blocks).into_iter().map(block::read).collect();
    let current = match newest(&read) {
        _ if fault::equal_times(&read).is_some() => return Err(Answer::FOREIGN),
        Some(block) => block,
        None if read.contains(&Block::Foreign) => return Err(Answer::FOREIGN),
        None => return Err(Answer::NO_STORE),
    };
    let dirty = |block: &usize| *block != current && read[*block] != Block::Blank;
    let mut work: Vec<Work> = (0..read.len()).filter(dirty).map(|block| Work::erase(block, size)).collect();
    let board = Board::new(image, blocks, current, read.swap_remove(current)).expect("the newest is valid");
    let (mending, idle) = board.mend()?;
    work.extend(mending);
    Ok(job::begin(work, idle))
}

/// The valid block with the strictly largest time.
fn newest(read: &[Block]) -> Option<usize> {
    let others = |block: usize| read.iter().enumerate().filter(move |(number, _)| *number != block);
    let largest = |block: &usize| others(*block).all(|(_, other)| other.time() < read[*block].time());
    (0..read.len()).filter(|block| read[*block].time().is_some()).find(largest)
}

/// Erases all blocks in number order, but the current one last if there is one, and writes block 0.
fn format(image: &[u8], blocks: u8) -> Result<Record, Answer> {
    let size = allowed_size(image, blocks)?;
    let read: Vec<Block> = cut(image, blocks).into_iter().map(block::read).collect();
    let current = newest(&read);
    let others = (0..read.len()).filter(|block| Some(*block) != current);
    let mut work: Vec<Work> = others.chain(current).map(|block| Work::erase(block, size)).collect();
    work.extend(write_block(Edition::First, 0, 1, Vec::new()));
    let (length, end, edition) = (image.len(), HEADER as u16, Edition::First.number());
    Ok(job::begin(work, Idle { length, block: 0, end, blocks, edition, pending: [0; 4], places: [0; 256] }))
}

/// Writes a block that starts at `base`: the state byte says "in progress" first and "valid" last.
fn write_block(edition: Edition, base: usize, time: u32, frames: Vec<u8>) -> [Work; 5] {
    [
        Work::program(base + block::STATE, [block::IN_PROGRESS]),
        Work::program(base, edition.label()),
        Work::program(base + HEADER, frames),
        Work::program(base + block::TIME, (!time).to_le_bytes()),
        Work::program(base + block::STATE, [block::VALID]),
    ]
}

/// The refusals that come before a look at the message.
fn ready<'a>(image: &[u8], blocks: u8, record: &'a Record, host: u8) -> Result<(&'a Idle, Host), Answer> {
    allowed_size(image, blocks)?;
    let host = Host::new(host).ok_or(Answer::HOST_RANGE)?;
    match record {
        Record::Job(_) => Err(Answer::BUSY),
        Record::Unmounted => Err(Answer::NO_STORE),
        Record::Idle(idle) => Ok((idle, host)),
    }
}

fn read(image: &[u8], blocks: u8, record: &Record, host: u8, message: &[u8]) -> Result<Stretch, Answer> {
    let (idle, _) = ready(image, blocks, record, host)?;
    match request::parse(message) {
        Message::Read(Some(id)) => place::find(image, blocks, idle, id),
        Message::Read(None) | Message::Other(_) => Err(Answer::MALFORMED),
    }
}

fn serve(
    image: &[u8],
    blocks: u8,
    record: &Record,
    host: u8,
    message: &[u8],
    reply: &mut [u8],
) -> Result<Record, Answer> {
    let Message::Other(request) = request::parse(message) else {
        return read(image, blocks, record, host, message).map(|_| record.clone());
    };
    let (idle, host) = ready(image, blocks, record, host)?;
    let board = Board::found(image, blocks, idle)?;
    let edition = board.journal.edition;
    match request.ok_or(Answer::MALFORMED)? {
        Request::Log(Page::Store) => {
            reply.get_mut(..PAGE).ok_or(Answer::SHORT_REPLY)?.copy_from_slice(&board.page());
            Ok(record.clone())
        }
        Request::Put(id, value) => board.change(host, frame::put(edition, host, id, value), edition.reserve()),
        Request::Delete(id) => board.change(host, frame::delete(edition, host, id), 0),
        Request::Commit | Request::Abort if !board.replay.has_pending(host) => Ok(record.clone()),
        Request::Commit => board.append(frame::commit(edition, host)),
        Request::Abort => board.append(frame::abort(edition, host)),
        Request::Convert => board.convert(),
    }
}

/// An image of so many blocks, and the one of them that is current.
struct Board<'a> {
    image: &'a [u8],
    blocks: u8,
    block: usize,
    journal: Journal,
    replay: Replay,
}

impl<'a> Board<'a> {
    fn new(image: &'a [u8], blocks: u8, block: usize, read: Block) -> Option<Board<'a>> {
        match read {
            Block::Valid(journal) => {
                Some(Board { image, blocks, block, replay: block::replay(&journal), journal })
            }
            _ => None,
        }
    }

    /// The board as an idle record has it, unless the image is another (refusal 11).
    fn found(image: &'a [u8], blocks: u8, idle: &Idle) -> Result<Board<'a>, Answer> {
        if idle.length != image.len() || idle.blocks != blocks || idle.block >= blocks {
            return Err(Answer::STALE);
        }
        let (block, mut others) = (usize::from(idle.block), cut(image, blocks));
        let read = block::read(others.remove(block));
        let board = Board::new(image, blocks, block, read).ok_or(Answer::STALE)?;
        let room = board.replay.claimed() + board.journal.edition.mark() * board.replay.open(None) <= board.size();
        let says = *idle == board.idle(board.journal.end);
        let alone = others.into_iter().all(|other| block::read(other) == Block::Blank);
        if !board.journal.torn && room && says && alone { Ok(board) } else { Err(Answer::STALE) }
    }

    fn size(&self) -> usize {
        self.image.len() / usize::from(self.blocks)
    }

    fn bytes(&self) -> &'a [u8] {
        block_of(self.image, self.blocks, self.block)
    }

    /// Where a transfer goes: the next block in number, round to 0.
    fn next(&self) -> usize {
        (self.block + 1) % usize::from(self.blocks)
    }

    /// The record where whole frames end at `end` and replay gives what it gives now.
    fn idle(&self, end: usize) -> Idle {
        self.says(self.journal.edition, self.block, end, &self.replay)
    }

    /// The record once a block holds these frames behind its header.
    fn holding(&self, edition: Edition, block: usize, frames: &[u8]) -> Idle {
        let bytes = [&[0xFF; HEADER], frames].concat();
        let replay = block::replayed(edition, &block::frames(edition, &bytes).0);
        self.says(edition, block, bytes.len(), &replay)
    }

    fn says(&self, edition: Edition, block: usize, end: usize, replay: &Replay) -> Idle {
        let (pending, places) = (replay.counts(), replay.places);
        let (length, block, edition) = (self.image.len(), block as u8, edition.number());
        Idle { length, block, end: end as u16, blocks: self.blocks, edition, pending, places }
    }

    fn page(&self) -> [u8; PAGE] {
        let mut page = [0; PAGE];
        let short = |number: usize| (number as u16).to_le_bytes();
        page[0..2].copy_from_slice(&short(PAGE));
        page[2..4].copy_from_slice(&short(0x0201));
        page[4..8].copy_from_slice(&self.journal.time.to_le_bytes());
        page[8..10].copy_from_slice(&short(self.replay.objects().count()));
        page[10..12].copy_from_slice(&short(self.replay.used()));
        page[12..14].copy_from_slice(&short(self.size()));
        page
    }

    /// A put or delete: the host's pending frames have half a block at most (K7), then the room rule; `spare` is what must
    /// stay free beyond it.
    fn change(&self, host: Host, frame: Vec<u8>, spare: usize) -> Result<Record, Answer> {
        if self.replay.pending_bytes(host) + frame.len() > self.size() / 2 {
            return Err(Answer::HOST_FULL);
        }
        let marks = self.journal.edition.mark() * self.replay.open(Some(host));
        if self.replay.claimed() + frame.len() + marks + spare > self.size() {
            return Err(Answer::NO_ROOM);
        }
        self.append(frame)
    }

    fn append(&self, frame: Vec<u8>) -> Result<Record, Answer> {
        let edition = self.journal.edition;
        let ((mut work, mut frames), block) = if self.journal.end + frame.len() > self.size() {
            (self.transfer(edition)?, self.next())
        } else {
            ((Vec::new(), self.bytes()[HEADER..self.journal.end].to_vec()), self.block)
        };
        let at = block * self.size() + HEADER + frames.len();
        frames.extend(&frame);
        work.push(Work::program(at, frame));
        Ok(job::begin(work, self.holding(edition, block, &frames)))
    }

    /// K9: the settled objects into a block of edition 2, unless this is one.
    fn convert(&self) -> Result<Record, Answer> {
        let used = self.replay.used_in(Edition::Second);
        if !self.replay.pending.is_empty() {
            Err(Answer::PENDING)
        } else if used > self.size() {
            Err(Answer::NO_ROOM)
        } else if self.journal.edition == Edition::Second {
            Ok(Record::Idle(self.idle(self.journal.end)))
        } else {
            let (work, frames) = self.transfer(Edition::Second)?;
            Ok(job::begin(work, self.holding(Edition::Second, self.next(), &frames)))
        }
    }

    /// Settled and pending frames into the next block, then the erase of this one; and the bytes of those frames. Where the
    /// edition changes nothing is pending.
    fn transfer(&self, edition: Edition) -> Result<(Vec<Work>, Vec<u8>), Answer> {
        if self.journal.time == LAST_TIME {
            return Err(Answer::WORN);
        }
        let (base, time, frames) = (self.next() * self.size(), self.journal.time + 1, self.frames(edition));
        let mut work = Vec::from(write_block(edition, base, time, frames.clone()));
        work.push(Work::erase(self.block, self.size()));
        Ok((work, frames))
    }

    /// The settled objects as frames, then the pending frames.
    fn frames(&self, edition: Edition) -> Vec<u8> {
        let settled = self.replay.objects().map(|(id, value)| frame::settled(edition, id, &self.bytes()[value]));
        let pending = self.replay.pending.iter().map(|frame| self.bytes()[frame.place.clone()].to_vec());
        settled.chain(pending).collect::<Vec<_>>().concat()
    }
}
