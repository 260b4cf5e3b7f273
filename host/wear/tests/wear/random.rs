//! Long random runs, from formatted and from full stores, counted from their start and from idle records on the way.

use check::generate::{self, Manner, Wish};
use check::rng::Rng;
use check::twin::Call;
use library::Library;
use std::collections::BTreeMap;
use store::{Answer, message};
use wear::count::Shape;
use wear::run::Run;
use wear::start::{fullest, mounted, using};

const SIZES: [usize; 5] = [256, 384, 512, 1024, 4096];
const BLOCKS: [u8; 4] = [2, 3, 4, 16];
const EDITIONS: [u8; 2] = [1, 2];
const KINDS: [Kind; 3] = [Kind::Formatted, Kind::Full, Kind::Modest];

/// The most calls of a run.
const CALLS: usize = 60_000;
/// The most counts at a time.
const COUNTS: usize = 4;

/// How a run begins, and whether its hosts take care that C is at most S/2.
#[derive(Clone, Copy, PartialEq, Eq, Debug)]
enum Kind {
    Formatted,
    Full,
    Modest,
}

struct Hosts {
    rng: Rng,
    manner: Manner,
    kind: Kind,
}

impl Hosts {
    /// What a host sends, mostly well formed; no converts.
    fn message(&mut self, run: &Run<Library>) -> Vec<u8> {
        loop {
            let sent = match self.rng.below(20) {
                0 => generate::odd_message(&self.manner, &mut self.rng),
                1 => Wish::Abort.message(),
                _ => self.manner.wish(&mut self.rng).message(),
            };
            if sent != message::convert() && (self.kind != Kind::Modest || modest(run, &sent)) {
                return sent;
            }
        }
    }

    fn request(&mut self, run: &mut Run<Library>) -> Answer {
        let (host, message) = (generate::host(&mut self.rng), self.message(run));
        run.call(&Call::Request { host, message, reply: 14 })
    }

    /// A request, its steps, and now and then requests that come while it is under way.
    fn act(&mut self, run: &mut Run<Library>) {
        let mut answer = self.request(run);
        while answer == Answer::MORE {
            if self.rng.once_in(400) {
                assert!(self.request(run).refused());
            }
            answer = run.call(&Call::Step);
        }
        if self.rng.once_in(50) {
            run.call(&Call::Step);
        }
        if self.rng.once_in(30) {
            run.counts.truncate(COUNTS - 1);
            run.count_from_here();
        }
    }
}

/// Whether C is at most S/2 after it, and after a put also with a delete and its commit.
fn modest(run: &Run<Library>, message: &[u8]) -> bool {
    let spare = match message {
        [_, _, 1, 1, ..] => 22,
        [_, _, 2, 1, ..] => 0,
        _ => return true,
    };
    run.claimed() + message.len() + run.shape.longer() + spare <= run.shape.size / 2
}

/// The run ends inside a job if one of the last requests begins one.
fn random_run(seed: u64, shape: Shape, kind: Kind) -> Run<Library> {
    let mut rng = Rng::new(seed);
    let used = if kind == Kind::Full { fullest(shape) } else { 16 };
    let sizes = using(shape, used).expect("there are such sizes");
    let mut run = Run::new(mounted(Library::linked(), shape, &sizes).expect("they fit"), shape);
    let manner = Manner::new(&mut rng, shape.size);
    let mut hosts = Hosts { rng, manner, kind };
    while run.calls < CALLS {
        hosts.act(&mut run);
    }
    for _ in 0..20 {
        if hosts.request(&mut run) == Answer::MORE {
            run.call(&Call::Step);
        }
    }
    run
}

/// Erases of the runs whose transfers all had C at most S/2, and of the others.
#[derive(Default)]
struct Sum {
    roomy: usize,
    crowded: usize,
}

fn runs_of(size: usize) {
    let mut sums: BTreeMap<u8, Sum> = BTreeMap::new();
    for (number, blocks) in (0..).zip(BLOCKS) {
        for (edition, kind) in EDITIONS.into_iter().flat_map(|edition| KINDS.map(|kind| (edition, kind))) {
            let shape = Shape { blocks, size, edition };
            let seed = 1_000 * size as u64 + 10 * number + 3 * u64::from(edition) + kind as u64;
            let run = random_run(seed, shape, kind);
            assert_eq!(run.broken, BTreeMap::new(), "seed {seed}, {shape:?}, {kind:?}");
            let (count, sum) = (&run.counts[0], sums.entry(edition).or_default());
            *(if count.roomy() { &mut sum.roomy } else { &mut sum.crowded }) += count.erases;
        }
    }
    for (edition, Sum { roomy, crowded }) in sums {
        println!("S = {size}, edition {edition}: {roomy} erases with C at most S/2, {crowded} others");
        assert!(roomy > 40 && crowded > 40, "too few erases: {roomy} and {crowded}");
    }
}

#[test]
fn blocks_of_256() {
    runs_of(SIZES[0]);
}

#[test]
fn blocks_of_384() {
    runs_of(SIZES[1]);
}

#[test]
fn blocks_of_512() {
    runs_of(SIZES[2]);
}

#[test]
fn blocks_of_1024() {
    runs_of(SIZES[3]);
}

#[test]
fn blocks_of_4096() {
    runs_of(SIZES[4]);
}
