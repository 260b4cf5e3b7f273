//! Document 01 and the landed requests of document 02, as one would write them by hand for a small board: no heap, a
//! record of fixed size, changed in place.
//! Nothing here is shared with the proved library or with the model.

#![no_std]

mod crc;
mod job;
mod journal;
mod look;

pub use crc::crc;
use job::Phase;
pub use job::Record;
pub use journal::VALUE_LIMIT;
use journal::{ABORT, BARE, CHANGE, COMMIT, DELETE, HEADER, Journal, MARK, PUT, State, blank, held, seal};
use look::Look;
use store::{Answer, Fault, Head, Idle, Store, Stretch};

pub struct Plain;

/// The most blocks that an image can be.
const MOST: usize = 16;

/// Finds the store and begins to tidy up after a power cut.
pub fn mount(image: &[u8], blocks: u8, record: &mut Record) -> Answer {
    *record = Record::UNMOUNTED;
    begin_mount(image, blocks, record).unwrap_or_else(|refusal| refusal)
}

fn begin_mount(image: &[u8], blocks: u8, record: &mut Record) -> Result<Answer, Answer> {
    let size = size_of(image, blocks)?;
    let look = Look::at(image, size);
    let block = match look.current() {
        _ if look.equal().is_some() => return Err(Answer::FOREIGN),
        Some(block) => block,
        None if look.foreign.is_some() => return Err(Answer::FOREIGN),
        None => return Err(Answer::NO_STORE),
    };
    let journal = &look.journal;
    let pending = journal.open(None) > 0;
    let moves = pending && journal.end + journal.torn + BARE + seal(journal.edition) > size;
    if moves && journal.time == u32::MAX {
        return Err(Answer::WORN);
    }
    record.name(image.len(), blocks, block as u8, journal.end as u16, journal.edition);
    record.places = journal.places;
    for other in (0..MOST).filter(|other| *other != block && look.used[*other]) {
        record.wipe(other);
    }
    if moves {
        record.transfer(journal, journal.edition, false);
    } else {
        mend(&image[size * block..], record, journal, pending);
    }
    Ok(record.begin(image))
}

/// Where the journal stands, its torn frame is closed and a reset drops what is pending.
fn mend(block: &[u8], record: &mut Record, journal: &Journal, pending: bool) {
    if journal.torn > 0 {
        record.close(block, journal);
    }
    if pending {
        record.reset();
    }
}

/// Why a mount would be refused, and with 3 where the image broke; 0 if it would be accepted.
pub fn fault(image: &[u8], blocks: u8) -> (Answer, Option<Fault>) {
    match mount(image, blocks, &mut Record::UNMOUNTED.clone()) {
        Answer::FOREIGN => {
            let look = Look::at(image, image.len() / usize::from(blocks));
            (Answer::FOREIGN, look.equal().or(look.foreign))
        }
        answer if answer.refused() => (answer, None),
        _ => (Answer::DONE, None),
    }
}

/// Begins to make an empty store. The block that holds the store, if there is one, is erased last.
pub fn format(image: &[u8], blocks: u8, record: &mut Record) -> Answer {
    *record = Record::UNMOUNTED;
    let size = match size_of(image, blocks) {
        Ok(size) => size,
        Err(refusal) => return refusal,
    };
    let current = Look::at(image, size).current();
    record.name(image.len(), blocks, 0, HEADER as u16, 1);
    for block in (0..usize::from(blocks)).filter(|block| Some(*block) != current) {
        record.wipe(block);
    }
    if let Some(block) = current {
        record.wipe(block);
    }
    record.make(0, 1, 1);
    record.begin(image)
}

/// A host's message.
pub fn request(
    image: &[u8],
    blocks: u8,
    record: &mut Record,
    host: u8,
    message: &[u8],
    reply: &mut [u8],
) -> Answer {
    let served = if matches!(message, [_, _, 5, 1, ..]) {
        read(image, blocks, record, host, message).map(|_| Answer::DONE)
    } else {
        serve(image, blocks, record, host, message, reply)
    };
    served.unwrap_or_else(|refusal| refusal)
}

fn serve(
    image: &[u8],
    blocks: u8,
    record: &mut Record,
    host: u8,
    message: &[u8],
    reply: &mut [u8],
) -> Result<Answer, Answer> {
    let mut journal = Journal::EMPTY;
    let size = fresh(image, blocks, record, host, &mut journal)?;
    let (kind, body) = kind_of(message)?;
    let quiet = journal.pending[usize::from(host)] == 0;
    let delete = CHANGE + seal(journal.edition);
    match (kind, body) {
        (1, [id, 0, value @ ..]) if value.len() <= VALUE_LIMIT => {
            let length = delete + value.len();
            half(size, record, host, length)?;
            room(size, &journal, host, length + mark(&journal) + delete)?;
            append(image, size, record, &journal, &[0, 0, PUT, 0, host, *id, 0], value)
        }
        (2, [id, 0]) => {
            half(size, record, host, delete)?;
            room(size, &journal, host, delete)?;
            append(image, size, record, &journal, &[0, 0, DELETE, 0, host, *id, 0], &[])
        }
        (3 | 4, []) if quiet => Ok(Answer::DONE),
        (3, []) => append(image, size, record, &journal, &[0, 0, COMMIT, 0, host], &[]),
        (4, []) => append(image, size, record, &journal, &[0, 0, ABORT, 0, host], &[]),
        (6, [1]) => log(size, &journal, reply),
        (8, []) => convert(image, size, record, &journal),
        _ => Err(Answer::MALFORMED),
    }
}

/// Where the record says that the value stands, if the frame of this id is there. Nothing else is looked at.
pub fn read(image: &[u8], blocks: u8, record: &Record, host: u8, message: &[u8]) -> Result<Stretch, Answer> {
    let size = at_rest(image, blocks, record, host)?;
    let [6, 0, 5, 1, id, 0] = *message else { return Err(Answer::MALFORMED) };
    if !names(record, image, blocks) {
        return Err(Answer::STALE);
    }
    let place = usize::from(record.places[usize::from(id)]);
    if place == 0 {
        return Err(Answer::NO_OBJECT);
    }
    let base = size * usize::from(record.block);
    let block = image.get(base..base + size).ok_or(Answer::STALE)?;
    let (at, len) = held(block, place, id, record.edition).ok_or(Answer::STALE)?;
    Ok(Stretch { at: base + at, len })
}

/// The bytes of a block, if image and number of blocks are allowed.
fn size_of(image: &[u8], blocks: u8) -> Result<usize, Answer> {
    let length = image.len();
    let size = match usize::from(blocks) {
        blocks @ 2..=MOST if length <= 65_536 && length.is_multiple_of(128 * blocks) => length / blocks,
        _ => 0,
    };
    if size < 256 { Err(Answer::IMAGE_LENGTH) } else { Ok(size) }
}

/// The refusals of a request on any image, and the bytes of a block.
fn at_rest(image: &[u8], blocks: u8, record: &Record, host: u8) -> Result<usize, Answer> {
    let size = size_of(image, blocks)?;
    match record.phase {
        _ if host > 3 => Err(Answer::HOST_RANGE),
        Phase::Idle => Ok(size),
        Phase::Unmounted => Err(Answer::NO_STORE),
        _ => Err(Answer::BUSY),
    }
}

/// Whether the record is of an image of this length and number of blocks.
fn names(record: &Record, image: &[u8], blocks: u8) -> bool {
    (record.length as usize, record.blocks) == (image.len(), blocks)
}

/// The refusals before a look at the message; the current block is read into `journal`. Gives the bytes of a block.
fn fresh(image: &[u8], blocks: u8, record: &Record, host: u8, journal: &mut Journal) -> Result<usize, Answer> {
    let size = at_rest(image, blocks, record, host)?;
    let right = names(record, image, blocks) && record.block < blocks && rests(image, size, record, journal);
    if right { Ok(size) } else { Err(Answer::STALE) }
}

/// Whether the record's block is valid up to the recorded end, with what the record says settled and pending and room to
/// settle, and all others are blank.
fn rests(image: &[u8], size: usize, record: &Record, journal: &mut Journal) -> bool {
    let (before, rest) = image.split_at(size * usize::from(record.block));
    let (block, after) = rest.split_at(size);
    journal.read(block) == State::Valid
        && journal.end == usize::from(record.end)
        && (journal.edition, journal.pending) == (record.edition, record.pending)
        && journal.places == record.places
        && journal.torn == 0
        && blank(before)
        && blank(after)
        && journal.claimed() + mark(journal) * journal.open(None) <= size
}

/// The low byte of a message's kind, and its body.
fn kind_of(message: &[u8]) -> Result<(u8, &[u8]), Answer> {
    match message {
        [low, high, kind, 1, body @ ..] if usize::from(u16::from_le_bytes([*low, *high])) == message.len() => {
            Ok((*kind, body))
        }
        _ => Err(Answer::MALFORMED),
    }
}

/// A host may have half a block pending.
fn half(size: usize, record: &Record, host: u8, bytes: usize) -> Result<(), Answer> {
    let pending = usize::from(record.pending[usize::from(host)]) + bytes;
    if pending > size / 2 { Err(Answer::HOST_FULL) } else { Ok(()) }
}

/// Length of a commit or abort frame.
fn mark(journal: &Journal) -> usize {
    MARK + seal(journal.edition)
}

fn room(size: usize, journal: &Journal, host: u8, bytes: usize) -> Result<(), Answer> {
    let marks = mark(journal) * journal.open(Some(usize::from(host)));
    if journal.claimed() + bytes + marks > size { Err(Answer::NO_ROOM) } else { Ok(()) }
}

/// A frame, whose length is written with its end.
fn append(
    image: &[u8],
    size: usize,
    record: &mut Record,
    journal: &Journal,
    head: &[u8],
    value: &[u8],
) -> Result<Answer, Answer> {
    let transfer = journal.end + head.len() + value.len() + seal(journal.edition) > size;
    if transfer && journal.time == u32::MAX {
        return Err(Answer::WORN);
    }
    record.clear();
    if transfer {
        record.transfer(journal, journal.edition, true);
    } else if head[2] == COMMIT {
        record.settle(&image[size * usize::from(record.block)..], journal, head[4]);
    }
    record.append(head, value);
    Ok(record.begin(image))
}

/// The settled objects go over to edition 2, unless they are there.
fn convert(image: &[u8], size: usize, record: &mut Record, journal: &Journal) -> Result<Answer, Answer> {
    if journal.open(None) > 0 {
        Err(Answer::PENDING)
    } else if journal.used_in_2() > size {
        Err(Answer::NO_ROOM)
    } else if journal.edition == 2 {
        Ok(Answer::DONE)
    } else if journal.time == u32::MAX {
        Err(Answer::WORN)
    } else {
        record.clear();
        record.transfer(journal, 2, false);
        Ok(record.begin(image))
    }
}

fn log(size: usize, journal: &Journal, reply: &mut [u8]) -> Result<Answer, Answer> {
    let page = reply.first_chunk_mut::<14>().ok_or(Answer::SHORT_REPLY)?;
    page[..4].copy_from_slice(&[14, 0, 0x01, 0x02]);
    page[4..8].copy_from_slice(&journal.time.to_le_bytes());
    page[8..10].copy_from_slice(&journal.objects.to_le_bytes());
    page[10..12].copy_from_slice(&(journal.used as u16).to_le_bytes());
    page[12..].copy_from_slice(&(size as u16).to_le_bytes());
    Ok(Answer::DONE)
}

impl Store for Plain {
    type Record = Record;

    fn mount(&self, image: &[u8], blocks: u8) -> (Answer, Record) {
        let mut record = Record::UNMOUNTED;
        (mount(image, blocks, &mut record), record)
    }

    fn fault(&self, image: &[u8], blocks: u8) -> (Answer, Option<Fault>) {
        fault(image, blocks)
    }

    fn format(&self, image: &[u8], blocks: u8) -> (Answer, Record) {
        let mut record = Record::UNMOUNTED;
        (format(image, blocks, &mut record), record)
    }

    fn request(
        &self,
        image: &[u8],
        blocks: u8,
        record: &mut Record,
        host: u8,
        message: &[u8],
        reply: &mut [u8],
    ) -> Answer {
        request(image, blocks, record, host, message, reply)
    }

    fn step(&self, image: &mut [u8], blocks: u8, record: &mut Record) -> Answer {
        record.step(image, blocks)
    }

    fn read(&self, image: &[u8], blocks: u8, record: &Record, host: u8, message: &[u8]) -> (Answer, Stretch) {
        match read(image, blocks, record, host, message) {
            Ok(stretch) => (Answer::DONE, stretch),
            Err(refusal) => (refusal, Stretch::default()),
        }
    }

    fn unmounted(&self) -> Record {
        Record::UNMOUNTED
    }

    fn idle(&self, idle: Idle) -> Record {
        let mut record = Record::UNMOUNTED;
        record.name(idle.length, idle.blocks, idle.block, idle.end, idle.edition);
        (record.pending, record.places) = (idle.pending, idle.places);
        record
    }

    fn head(&self, record: &Record) -> Head {
        match record.phase {
            Phase::Unmounted => Head::Unmounted,
            Phase::Idle => Head::Idle(record.idle()),
            _ => Head::Job,
        }
    }
}
