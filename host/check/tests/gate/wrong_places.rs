//! Wrong stores, each wrong in one thing that K8 says and in all places: what the book and the frames tell must tell them from
//! right ones.

use super::altered::{Altered, RIGHT, job, steps};
use check::places::{Wrong, of_block};
use check::runs::{Made, Plan, run_among};
use model::block::{self, Block};
use model::frame::{Body, Host, Id};
use model::{Model, Record, block_of};
use store::{Answer, Idle, Store, Stretch, message};

type Places = [u16; 256];

/// Two runs; some hosts send converts.
fn run(store: Altered) -> Vec<Made> {
    let (blocks, length, calls) = (2, 512, 3_000);
    let (cut_jobs, most_cuts, filled, calm) = (0, 0, false, false);
    let plan = |seed| Plan { seed, blocks, length, calls, time: 1, cut_jobs, most_cuts, filled, calm };
    (34..36).map(|seed| run_among(|| store.everywhere(), plan(seed))).collect()
}

#[test]
fn right_stores_run() {
    let made = run(RIGHT);
    let count = |how, answer| made.iter().map(|made| made.own.places(how, answer)).sum::<u64>();
    assert!(count(Wrong::Old, Answer::STALE) > 0 && count(Wrong::OtherValue, Answer::DONE) > 0);
    assert!(count(Wrong::None, Answer::NO_OBJECT) > 0 && count(Wrong::InHeader, Answer::STALE) > 0);
}

/// What a request was: the record before it and the one that its job leaves.
struct Served<'a> {
    before: Idle,
    after: Idle,
    host: u8,
    message: &'a [u8],
    block: &'a [u8],
}

impl Served<'_> {
    fn is(&self, kind: u16) -> bool {
        self.message.get(2..4) == Some(&kind.to_le_bytes())
    }

    /// The ids that a host has pending, each with its place in the block from before and whether it is put.
    fn pending(&self, host: u8) -> Vec<(usize, u16, bool)> {
        let Block::Valid(journal) = block::read(self.block) else { return Vec::new() };
        let pending = block::replay(&journal).pending.into_iter().filter_map(|frame| match frame.body {
            Body::Put(owner, Id(id), _) if owner == Host(host) => {
                Some((usize::from(id), frame.place.start as u16, true))
            }
            Body::Delete(owner, Id(id)) if owner == Host(host) => Some((usize::from(id), 0, false)),
            _ => None,
        });
        pending.collect()
    }

    fn stays(&self) -> bool {
        self.before.block == self.after.block
    }
}

/// A store whose requests' jobs leave these places.
macro_rules! leaving {
    ($other:expr) => {
        Altered {
            request: |image, blocks, record, host, message, reply| {
                let before = record.clone();
                let answer = Model.request(image, blocks, record, host, message, reply);
                let other: fn(Served) -> Places = $other;
                if let (Answer::MORE, Record::Idle(before), Some((steps, after))) = (answer, before, steps(record))
                {
                    let block = block_of(image, blocks, usize::from(before.block));
                    let places = other(Served { before, after, host, message: &message.to_vec(), block });
                    *record = job(steps, Idle { places, ..after });
                }
                answer
            },
            ..RIGHT
        }
    };
}

#[test]
#[should_panic(expected = "the record's places are not replay's")]
fn old_offsets_after_a_transfer() {
    run(leaving!(|served| {
        let moved = |id: usize| !served.stays() && served.before.places[id] != 0 && served.after.places[id] != 0;
        std::array::from_fn(|id| if moved(id) { served.before.places[id] } else { served.after.places[id] })
    }));
}

#[test]
#[should_panic(expected = "the record's places are not replay's")]
fn a_delete_that_keeps_its_place() {
    run(leaving!(|served| {
        let mut places = served.after.places;
        for (id, ..) in served.pending(served.host).iter().filter(|change| !change.2 && served.is(message::COMMIT))
        {
            places[*id] = if served.stays() { served.before.places[*id] } else { places[*id] };
        }
        places
    }));
}

#[test]
#[should_panic(expected = "the record's places are not replay's")]
fn an_aborts_put_that_gets_a_place() {
    run(leaving!(|served| {
        let mut places = served.after.places;
        for (id, place, _) in
            served.pending(served.host).iter().filter(|_| served.is(message::ABORT) && served.stays())
        {
            places[*id] = *place;
        }
        places
    }));
}

#[test]
#[should_panic(expected = "the record's places are not replay's")]
fn a_put_that_gets_a_place_at_once() {
    run(leaving!(|served| {
        let mut places = served.after.places;
        if served.is(message::PUT) && served.stays() {
            places[usize::from(served.message[4])] = served.before.end;
        }
        places
    }));
}

/// A commit applies the list of the host after it too.
#[test]
#[should_panic(expected = "the record's places are not replay's")]
fn another_hosts_list() {
    run(leaving!(|served| {
        let mut places = served.after.places;
        let other = (served.host + 1) % 4;
        for (id, place, _) in served.pending(other).iter().filter(|_| served.is(message::COMMIT) && served.stays())
        {
            places[*id] = *place;
        }
        places
    }));
}

/// Of a host's changes the first one to an object counts.
#[test]
#[should_panic(expected = "the record's places are not replay's")]
fn a_list_that_is_applied_from_its_end() {
    run(leaving!(|served| {
        let mut places = served.after.places;
        for (id, place, _) in
            served.pending(served.host).iter().rev().filter(|_| served.is(message::COMMIT) && served.stays())
        {
            places[*id] = *place;
        }
        places
    }));
}

/// A mount whose record has other places.
fn mounting(other: fn(&[u8], Idle) -> Places, image: &[u8], blocks: u8) -> (Answer, Record) {
    match Model.mount(image, blocks) {
        (answer, Record::Idle(idle)) => (answer, Record::Idle(Idle { places: other(image, idle), ..idle })),
        (answer, record) => match steps(&record) {
            Some((steps, idle)) => (answer, job(steps, Idle { places: other(image, idle), ..idle })),
            None => (answer, record),
        },
    }
}

#[test]
#[should_panic(expected = "the record's places are not replay's")]
fn a_mount_that_finds_no_places() {
    run(Altered { mount: |image, blocks| mounting(|_, _| [0; 256], image, blocks), ..RIGHT });
}

/// The places that it found, in the block that it leaves.
fn found(image: &[u8], idle: Idle) -> Places {
    let [own, other] = [idle.block, 1 - idle.block].map(|block| of_block(block_of(image, 2, usize::from(block))));
    if own == idle.places { own } else { other }
}

#[test]
#[should_panic(expected = "the record's places are not replay's")]
fn a_mount_that_moves_and_keeps_the_offsets() {
    run(Altered { mount: |image, blocks| mounting(found, image, blocks), ..RIGHT });
}

/// A request under the record with other fields, and the same read.
fn under(other: fn(&[u8], Idle) -> Idle, image: &[u8], blocks: u8, record: &Record) -> Record {
    match record {
        Record::Idle(idle) if idle.length == image.len() && idle.blocks == blocks && idle.block < blocks => {
            Record::Idle(other(image, *idle))
        }
        other => other.clone(),
    }
}

/// Where a record says that an object stands, a value is read, whatever is there.
#[test]
#[should_panic(expected = "read [6, 0, 5, 1,")]
fn a_place_that_is_trusted() {
    let read = |image: &[u8], blocks, record: &Record, host, message: &[u8]| {
        let found = Model.read(image, blocks, record, host, message);
        let (Answer::STALE, Record::Idle(idle), [_, _, 5, 1, id, 0]) = (found.0, record, message) else {
            return found;
        };
        let (place, size) = (usize::from(idle.places[usize::from(*id)]), image.len() / usize::from(blocks));
        let len = usize::from(image[place.min(size - 1)]).saturating_sub(8);
        (Answer::DONE, Stretch { at: usize::from(idle.block) * size + place + 7, len })
    };
    run(Altered { read, ..RIGHT });
}

/// The frame is looked at, and not whose it is.
#[test]
#[should_panic(expected = "read [6, 0, 5, 1,")]
fn a_frame_of_another_object() {
    let read = |image: &[u8], blocks, record: &Record, host, message: &[u8]| {
        let found = Model.read(image, blocks, record, host, message);
        let (Answer::STALE, Record::Idle(idle), [_, _, 5, 1, id, 0]) = (found.0, record, message) else {
            return found;
        };
        let mut places = [0; 256];
        let of_others = (0..=255).map(|other| {
            places[usize::from(other)] = idle.places[usize::from(*id)];
            Model.read(image, blocks, &Record::Idle(Idle { places, ..*idle }), host, &message::read(other))
        });
        of_others.into_iter().find(|(answer, _)| *answer == Answer::DONE).unwrap_or(found)
    };
    run(Altered { read, ..RIGHT });
}

/// What a request with no bytes is answered: 11 comes before 1.
fn of_no_message(image: &[u8], blocks: u8, record: &Record, host: u8) -> Answer {
    Model.request(image, blocks, &mut record.clone(), host, &[], &mut [])
}

/// 11 before 1: a malformed read goes through all of 11 first.
#[test]
#[should_panic(expected = "read [")]
fn refusal_11_before_1() {
    let read = |image: &[u8], blocks, record: &Record, host, message: &[u8]| match Model
        .read(image, blocks, record, host, message)
    {
        (Answer::MALFORMED, stretch) => (of_no_message(image, blocks, record, host), stretch),
        found => found,
    };
    run(Altered { read, ..RIGHT });
}

/// The same of requests alone.
#[test]
#[should_panic(expected = "request [")]
fn refusal_11_before_1_in_a_request() {
    let request = |image: &[u8], blocks, record: &mut Record, host, message: &[u8], reply: &mut [u8]| match Model
        .request(image, blocks, record, host, message, reply)
    {
        Answer::MALFORMED => Model.request(image, blocks, record, host, &[], reply),
        answer => answer,
    };
    run(Altered { request, ..RIGHT });
}

/// A read that goes through the whole image first, as before.
#[test]
#[should_panic(expected = "read [6, 0, 5, 1,")]
fn a_read_that_checks_all_of_11() {
    let read = |image: &[u8], blocks, record: &Record, host, message: &[u8]| match of_no_message(
        image, blocks, record, host,
    ) {
        Answer::STALE => (Answer::STALE, Stretch::default()),
        _ => Model.read(image, blocks, record, host, message),
    };
    run(Altered { read, ..RIGHT });
}

/// 11 is not given where it is due.
#[test]
#[should_panic(expected = " under Idle {")]
fn other_requests_that_skip_the_places() {
    let request = |image: &[u8], blocks, record: &mut Record, host, message: &[u8], reply: &mut [u8]| {
        if matches!(message, [_, _, 5, 1, ..]) {
            return Model.request(image, blocks, record, host, message, reply);
        }
        let right = |image: &[u8], idle: Idle| Idle {
            places: of_block(block_of(image, idle.blocks, usize::from(idle.block))),
            ..idle
        };
        let mut right = under(right, image, blocks, record);
        let answer = Model.request(image, blocks, &mut right, host, message, reply);
        if answer == Answer::MORE {
            *record = right;
        }
        answer
    };
    run(Altered { request, ..RIGHT });
}

#[test]
#[should_panic(expected = "read [6, 0, 5, 1,")]
fn a_read_by_the_headers_edition() {
    let read = |image: &[u8], blocks, record: &Record, host, message: &[u8]| {
        let by_header = |image: &[u8], idle: Idle| Idle {
            edition: block_of(image, idle.blocks, usize::from(idle.block))[2],
            ..idle
        };
        Model.read(image, blocks, &under(by_header, image, blocks, record), host, message)
    };
    run(Altered { read, ..RIGHT });
}
