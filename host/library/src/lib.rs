//! The proved C library as a `Store`.

mod calls;
mod driven;

pub use calls::{Library, UNCOUNTED, UNTOLD};
pub use driven::{Driven, flash};

use std::ops::Range;
use store::{Answer, Fault, Field, Head, Idle, Store, Stretch};

/// The most bytes of a value.
pub const VALUE_LIMIT: usize = 240;
/// Length of the longest frame, a put of the longest value in edition 2.
pub const LONGEST: usize = 12 + VALUE_LIMIT;

/// Where a record says what each host has pending.
pub const PENDING: Range<usize> = 7..15;
/// Where it says the edition.
pub const EDITION: usize = PENDING.end;
/// Where it says, by id, which frame the settled value stands in.
pub const PLACES: Range<usize> = EDITION + 1..EDITION + 1 + 2 * 256;
/// Where the job stands, after the bytes that anyone may know.
pub const JOB: Range<usize> = PLACES.end..PLACES.end + 52;
/// After the job there are two frames in hand.
pub const RECORD_SIZE: usize = JOB.end + 2 * LONGEST;

/// A board record as it crosses the edge to C.
pub type Record = [u8; RECORD_SIZE];

const UNMOUNTED: u8 = 0;
const IDLE: u8 = 1;
/// The stages of a job, a record's first byte.
pub const STAGES: std::ops::RangeInclusive<u8> = 2..=8;

/// What a new record buffer holds, so that a call which does not write all of it shows.
const STALE: Record = [0xA5; RECORD_SIZE];

impl Store for Library {
    type Record = Record;

    fn mount(&self, image: &[u8], blocks: u8) -> (Answer, Record) {
        let mut record = STALE;
        (self.mount_into(image, blocks, &mut record), record)
    }

    fn fault(&self, image: &[u8], blocks: u8) -> (Answer, Option<Fault>) {
        let (answer, (block, number, place)) = self.fault_of(image, blocks);
        let fault = Field::numbered(number).map(|field| Fault { block, field, place });
        assert!(
            fault.is_some() || (block, number, place) == (0, 0, 0),
            "{answer}: block {block}, field {number}, place {place}"
        );
        (answer, fault)
    }

    fn format(&self, image: &[u8], blocks: u8) -> (Answer, Record) {
        let mut record = STALE;
        (self.format_into(image, blocks, &mut record), record)
    }

    fn request(
        &self,
        image: &[u8],
        blocks: u8,
        record: &mut Record,
        host: u8,
        message: &[u8],
        reply: &mut [u8],
    ) -> Answer {
        self.request_on(image, blocks, record, host, message, reply)
    }

    fn step(&self, image: &mut [u8], blocks: u8, record: &mut Record) -> Answer {
        self.step_on(image, blocks, record)
    }

    fn run(&self, image: &mut [u8], blocks: u8, record: &mut Record, most: usize) -> (Answer, usize) {
        self.run_on(image, blocks, record, most)
    }

    fn read(&self, image: &[u8], blocks: u8, record: &Record, host: u8, message: &[u8]) -> (Answer, Stretch) {
        self.read_on(image, blocks, record, host, message)
    }

    fn unmounted(&self) -> Record {
        [UNMOUNTED; RECORD_SIZE]
    }

    fn idle(&self, idle: Idle) -> Record {
        let mut record = self.unmounted();
        record[0] = IDLE;
        record[1..3].copy_from_slice(&((idle.length - 1) as u16).to_le_bytes());
        record[3] = idle.block;
        record[4..6].copy_from_slice(&idle.end.to_le_bytes());
        record[6] = idle.blocks;
        record[EDITION] = idle.edition;
        let shorts = PENDING.chain(PLACES).step_by(2).zip(idle.pending.into_iter().chain(idle.places));
        for (at, number) in shorts {
            record[at..at + 2].copy_from_slice(&number.to_le_bytes());
        }
        record
    }

    fn head(&self, record: &Record) -> Head {
        let short = |at: usize| u16::from_le_bytes([record[at], record[at + 1]]);
        match record[0] {
            IDLE => Head::Idle(Idle {
                length: usize::from(short(1)) + 1,
                block: record[3],
                end: short(4),
                blocks: record[6],
                edition: record[EDITION],
                pending: [0, 1, 2, 3].map(|host| short(PENDING.start + 2 * host)),
                places: std::array::from_fn(|id| short(PLACES.start + 2 * id)),
            }),
            stage if STAGES.contains(&stage) => Head::Job,
            _ => Head::Unmounted,
        }
    }
}
