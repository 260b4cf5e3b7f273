//! Runs by chance: at every idle record the places are those of the journal read here anew, and a read finds what was settled.

use crate::{Desk, S};
use model::{Model, Record};
use std::collections::HashSet;
use store::{Answer, Store, message};

/// Numbers by a linear congruence.
struct Chance(u64);

impl Chance {
    fn below(&mut self, limit: u64) -> u64 {
        self.0 = self.0.wrapping_mul(6_364_136_223_846_793_005).wrapping_add(1_442_695_040_888_963_407);
        (self.0 >> 33) % limit
    }
}

type Changes = Vec<(usize, Option<Vec<u8>>)>;

/// What the calls have settled and left pending, by their answers alone.
struct Book {
    objects: Vec<Option<Vec<u8>>>,
    lists: [Changes; 4],
}

impl Book {
    fn new() -> Book {
        Book { objects: vec![None; 256], lists: Default::default() }
    }

    fn commit(&mut self, host: usize) {
        for (id, value) in self.lists[host].drain(..) {
            self.objects[id] = value;
        }
    }
}

/// By id, where a journal that is right has its settled value's frame: kinds 1 to 5 and 7 in the order they stand.
fn scanned(block: &[u8], end: usize) -> [u16; 256] {
    let (mut places, mut lists, mut at) = ([0; 256], [const { Vec::new() }; 4], 16);
    while at < end {
        let (kind, host) = (block[at + 2], usize::from(block[at + 4]));
        match kind {
            1 => lists[host].push((block[at + 5], at)),
            2 => lists[host].push((block[at + 5], 0)),
            3 => lists[host].drain(..).for_each(|(id, place)| places[usize::from(id)] = place as u16),
            4 => lists[host].clear(),
            5 => places[host] = at as u16,
            7 => lists.iter_mut().for_each(Vec::clear),
            _ => assert_eq!(kind, 0),
        }
        at += usize::from(block[at]);
    }
    places
}

fn judge(desk: &Desk, book: &Book) {
    let idle = desk.idle();
    let size = desk.image.len() / usize::from(desk.blocks);
    let block = &desk.image[size * usize::from(idle.block)..][..size];
    assert_eq!(idle.places, scanned(block, usize::from(idle.end)));
    for id in 0..=255 {
        let value = desk.read(id).map(|(at, len)| &desk.image[at..at + len]);
        assert_eq!(value, book.objects[usize::from(id)].as_deref().ok_or(8));
    }
    assert_eq!(desk.log(), Answer::DONE);
}

/// A request by chance, to its end or to a cut and a mount.
fn call(desk: &mut Desk, book: &mut Book, chance: &mut Chance) {
    let (host, id) = (chance.below(4) as u8, chance.below(6) as u8 * 51);
    let value = vec![chance.below(256) as u8; chance.below(40) as usize];
    let (list, change) = (usize::from(host), usize::from(id));
    let kind = chance.below(40);
    let message = match kind {
        0..20 => message::put(id, &value),
        20..26 => message::delete(id),
        26..36 => message::commit(),
        36..39 => message::abort(),
        _ => message::convert(),
    };
    if desk.ask(host, &message).refused() {
        return;
    }
    let most = if chance.below(8) == 0 { chance.below(200) as usize } else { usize::MAX };
    let done = Model.run(&mut desk.image, desk.blocks, &mut desk.record, most).0 == Answer::DONE;
    match kind {
        0..20 => book.lists[list].push((change, Some(value))),
        20..26 => book.lists[list].push((change, None)),
        26..36 if done => book.commit(list),
        36..39 => book.lists[list].clear(),
        _ => {}
    }
    if !done || chance.below(30) == 0 {
        book.lists.iter_mut().for_each(Vec::clear);
        desk.record = Record::Unmounted;
        desk.mount();
    }
}

/// Runs come to both editions and to every block.
#[test]
fn places_and_reads_in_runs() {
    let mut reached = HashSet::new();
    for seed in 0..40 {
        let mut chance = Chance(seed);
        let (mut desk, mut book) =
            (Desk::formatted(S + 128 * (seed as usize % 2), 2 + seed as u8 % 3), Book::new());
        for _ in 0..150 {
            call(&mut desk, &mut book, &mut chance);
            judge(&desk, &book);
            reached.insert((desk.blocks, desk.idle().block, desk.idle().edition));
        }
    }
    assert_eq!(reached.len(), (2 + 3 + 4) * 2);
}
