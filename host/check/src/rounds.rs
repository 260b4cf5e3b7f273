//! What one round of comparing does; the gate makes a few, a long run as many as there is time for.

use crate::damage;
use crate::rng::Rng;
use crate::runs::{self, Midway, Plan};
use crate::side::{Modelled, Stores};
use crate::tally::Tally;
use crate::twin::Twin;
use store::{Drive, Store};

#[derive(Default)]
pub struct Sum {
    /// Of all calls, and of those that runs made themselves.
    pub tally: Tally,
    pub own: Tally,
    pub midway: Midway,
    pub runs: u64,
    pub cuts: u64,
    /// Those of the cuts that fell inside an erase, and those of them in runs themselves.
    pub inside: u64,
    pub own_inside: u64,
    pub images: u64,
    /// By the number of blocks, the most erases between two formats that had to be even.
    pub even: [usize; 17],
}

/// The most recoveries after a job that is cut in a small image.
const MANY: usize = 400;

/// Number of blocks, length, calls, one job in so many cut, the most recoveries after it, whether the journal is filled
/// first.
type Kind = (u8, usize, usize, usize, usize, bool);

const TWO: [Kind; 11] = [
    (2, 512, 800, 15, MANY, false),
    (2, 512, 3_000, 0, 0, false),
    (2, 768, 500, 40, MANY, false),
    (2, 1_024, 500, 60, MANY, false),
    (2, 2_816, 600, 40, 100, true),
    (2, 4_096, 600, 20, 100, false),
    (2, 33_024, 150, 0, 0, false),
    (2, 33_024, 30, 10, 10, true),
    (2, 65_536, 15, 6, 8, true),
    (2, 2_048, 3_000, 0, 0, false),
    (2, 4_096, 3_000, 0, 0, false),
];

const MORE: [Kind; 18] = [
    (3, 768, 800, 20, MANY, false),
    (4, 1_024, 500, 40, MANY, false),
    (7, 2_688, 500, 40, 400, false),
    (16, 4_096, 400, 30, 400, false),
    (3, 1_152, 2_000, 0, 0, false),
    (16, 4_096, 2_000, 0, 0, false),
    (5, 2_560, 2_000, 0, 0, true),
    (3, 33_024, 100, 0, 0, true),
    (16, 65_536, 60, 10, 8, true),
    (6, 1_536, 300, 30, 200, false),
    (8, 2_048, 300, 30, 200, false),
    (9, 3_456, 300, 30, 200, false),
    (10, 2_560, 300, 30, 200, false),
    (11, 2_816, 300, 30, 200, false),
    (12, 4_608, 300, 30, 200, false),
    (13, 3_328, 300, 30, 200, false),
    (14, 5_376, 300, 30, 200, false),
    (15, 3_840, 300, 30, 200, false),
];

/// Calls for each block of runs in which no power is lost inside a job.
const CALM: usize = 600;

/// Number of blocks, length and number of damaged images.
const IMAGES_OF_TWO: [(u8, usize, usize); 6] =
    [(2, 512, 4_000), (2, 768, 1_500), (2, 1_024, 1_000), (2, 1_280, 800), (2, 8_192, 100), (2, 65_536, 10)];
const IMAGES_OF_MORE: [(u8, usize, usize); 15] = [
    (3, 768, 2_600),
    (4, 1_024, 2_000),
    (7, 2_688, 600),
    (16, 4_096, 600),
    (5, 10_240, 80),
    (16, 65_536, 20),
    (6, 1_536, 200),
    (8, 2_048, 200),
    (9, 3_456, 200),
    (10, 2_560, 200),
    (11, 2_816, 200),
    (12, 4_608, 200),
    (13, 3_328, 200),
    (14, 5_376, 200),
    (15, 3_840, 200),
];

/// Rounds among such stores, and what they came to.
pub struct Rounds<F> {
    stores: F,
    pub sum: Sum,
}

impl<M: Modelled, L: Drive, P: Store, F: Fn() -> Stores<M, L, P>> Rounds<F> {
    pub fn among(stores: F) -> Self {
        Rounds { stores, sum: Sum::default() }
    }

    /// The runs of a round with two blocks: each kind once, then short ones near the last time.
    pub fn runs_of_two(&mut self, round: u64) {
        self.runs_of(&TWO, round * 100);
        (0..10).for_each(|number| self.late_run(2, round * 100 + 50, number));
    }

    /// The same with three to sixteen, and runs in which the blocks' wear must be even.
    pub fn runs_of_more(&mut self, round: u64) {
        self.runs_of(&MORE, round * 100 + 20);
        (0..14).for_each(|number| self.late_run(3 + number as u8, round * 100 + 60, number));
        for blocks in 2..=16 {
            let (seed, number) = (round * 100 + 76 + u64::from(blocks), usize::from(blocks));
            let (length, calls) = (256 * number, CALM * number);
            let (cut_jobs, most_cuts, filled) = (0, 0, false);
            let erases =
                self.run(Plan { seed, blocks, length, calls, time: 1, cut_jobs, most_cuts, filled, calm: true });
            self.sum.even[number] = erases.max(self.sum.even[number]);
        }
    }

    fn runs_of(&mut self, kinds: &[Kind], seed: u64) {
        for (number, (blocks, length, calls, cut_jobs, most_cuts, filled)) in (0..).zip(kinds.iter().copied()) {
            let seed = seed + number;
            self.run(Plan { seed, blocks, length, calls, time: 1, cut_jobs, most_cuts, filled, calm: false });
        }
    }

    /// A run that begins at one of the last four times.
    fn late_run(&mut self, blocks: u8, seed: u64, number: u64) {
        let (seed, time, length) = (seed + number, u32::MAX - number as u32 % 4, 256 * usize::from(blocks));
        let (calls, cut_jobs, most_cuts) = (200, 15, MANY);
        self.run(Plan { seed, blocks, length, calls, time, cut_jobs, most_cuts, filled: false, calm: false });
    }

    /// Makes the run; the most erases in it that had to be even.
    fn run(&mut self, plan: Plan) -> usize {
        let (made, sum) = (runs::run_among(&self.stores, plan), &mut self.sum);
        sum.tally.add(&made.recoveries);
        sum.tally.add(&made.own);
        sum.own.add(&made.own);
        for (job, cuts) in made.midway {
            *sum.midway.entry(job).or_default() += cuts;
        }
        sum.cuts += made.cuts;
        sum.inside += made.inside;
        sum.own_inside += made.own_inside;
        sum.runs += 1;
        made.erases
    }

    /// The damaged images of a round, with two blocks.
    pub fn images_of_two(&mut self, round: u64) {
        self.images_of(&IMAGES_OF_TWO, round * 100 + 99);
    }

    /// The same with three to sixteen.
    pub fn images_of_more(&mut self, round: u64) {
        self.images_of(&IMAGES_OF_MORE, round * 100 + 98);
    }

    fn images_of(&mut self, kinds: &[(u8, usize, usize)], seed: u64) {
        let mut rng = Rng::new(seed);
        for (blocks, length, images) in kinds.iter().copied() {
            let mut twin = Twin::among((self.stores)(), blocks, &vec![0xFF; length]);
            for _ in 0..images {
                let image = damage::image(&mut rng, blocks, length);
                damage::try_image(&mut twin, &mut rng, &image);
            }
            self.sum.tally.add(&twin.tally);
            self.sum.images += images as u64;
        }
    }
}
