//! Random runs from a finished format, held to the book at every idle record.

mod judge;
mod mended;

use crate::blocks::{self, Wear};
use crate::book::Book;
use crate::cuts::{Allowed, Cuts, Start, newest};
use crate::edition;
use crate::generate::{self, Manner, Wish};
use crate::mend::{self, Dirt, Due};
use crate::pending;
use crate::places;
use crate::raise;
use crate::rng::Rng;
use crate::side::{Modelled, Stores};
use crate::tally::Tally;
use crate::twin::{Call, Outcome, Twin};
use model::block::HEADER;
use model::frame::VALUE_LIMIT;
use std::collections::BTreeMap;
use store::{Answer, Drive, Head, Idle, Store, message};

/// What a run is to be like.
#[derive(Clone, Copy)]
pub struct Plan {
    pub seed: u64,
    pub blocks: u8,
    pub length: usize,
    pub calls: usize,
    /// The creation time that the formatted block is given.
    pub time: u32,
    /// One job in so many is cut; 0 for none.
    pub cut_jobs: usize,
    /// The most recoveries after such a job.
    pub most_cuts: usize,
    /// Whether the journal is filled nearly to its end first.
    pub filled: bool,
    /// Whether no power is lost inside a job.
    pub calm: bool,
}

/// How much oftener a job with an erase is cut than others, of which there are more.
const ERASES_OFTENER: usize = 5;

struct Run<M: Modelled, L: Drive, P: Store> {
    twin: Twin<M, L, P>,
    book: Book,
    rng: Rng,
    manner: Manner,
    calm: bool,
    wear: Wear,
    cuts: Cuts<M, L, P>,
    cut_jobs: usize,
    /// Cuts inside an erase, in the run itself.
    inside: u64,
    /// The job in hand, and its steps so far.
    job: (&'static str, usize),
    midway: Midway,
    /// A format was accepted and has neither finished nor been followed by an accepted mount.
    format_open: bool,
    /// The edition by what was finished; the time that the last convert began at, and whether it was cut since the last idle
    /// record.
    edition: u8,
    convert_time: Option<u32>,
    convert_cut: bool,
    /// Whether the last accepted convert left no room for a delete and its commit.
    tight: bool,
    /// Steps that the job in hand has still to make, where document 01 gives their number.
    due: Option<usize>,
    /// What the current block held when the job in hand began, and what that is to do to it; where a mount is to end: block and
    /// end.
    dirt: Dirt,
    plan: mend::Plan,
    rest: Option<(usize, usize)>,
    /// Block and places of the last idle record, and the places of the last one of another block.
    last: (u8, [u16; 256]),
    old: [u16; 256],
}

/// By job, how often a mount or format began after its first step and before its last, in the run itself.
pub type Midway = BTreeMap<&'static str, u64>;

/// What a run came to: how often each call of its own got each answer, and each in the recoveries from cuts of copies; the
/// cuts, how many of these fell inside an erase; those of its own jobs, inside an erase and between steps; and the most
/// erases between two formats that had to be even.
pub struct Made {
    pub own: Tally,
    pub recoveries: Tally,
    pub cuts: u64,
    pub inside: u64,
    pub own_inside: u64,
    pub midway: Midway,
    pub erases: usize,
}

/// A run among such stores, which are asked for twice: copies of the images are cut beside the run.
pub fn run_among<M: Modelled, L: Drive, P: Store>(stores: impl Fn() -> Stores<M, L, P>, plan: Plan) -> Made {
    let mut rng = Rng::new(plan.seed);
    let mut run = Run {
        twin: formatted_at(stores(), plan),
        book: Book::default(),
        manner: Manner::new(&mut rng, plan.length / usize::from(plan.blocks)),
        calm: plan.calm,
        wear: Wear::default(),
        cuts: Cuts::among(stores(), plan.blocks, plan.length, plan.most_cuts, plan.seed),
        inside: 0,
        job: ("none", 0),
        midway: Midway::default(),
        cut_jobs: 0,
        format_open: false,
        edition: 1,
        convert_time: None,
        convert_cut: false,
        tight: false,
        due: None,
        dirt: Dirt::up_to(HEADER, false),
        plan: mend::Plan::None,
        rest: None,
        last: (0, [0; 256]),
        old: [0; 256],
        rng,
    };
    run.wear.start(run.twin.erases());
    if plan.filled {
        run.fill();
    }
    run.cut_jobs = plan.cut_jobs;
    for _ in 0..plan.calls {
        run.act();
    }
    let (own, recoveries, midway) = (run.twin.tally, run.cuts.twin.tally, run.midway);
    let cuts = run.cuts.cuts + run.inside + midway.values().sum::<u64>();
    let (own_inside, inside, erases) = (run.inside, run.cuts.inside + run.inside, run.wear.most);
    Made { own, recoveries, cuts, inside, own_inside, midway, erases }
}

fn formatted_at<M: Modelled, L: Drive, P: Store>(
    stores: Stores<M, L, P>,
    Plan { blocks, length, time, .. }: Plan,
) -> Twin<M, L, P> {
    let mut twin = Twin::formatted_among(stores, blocks, length);
    let mut image = twin.image().to_vec();
    image[4..8].copy_from_slice(&(!time).to_le_bytes());
    twin.swap_image(&image);
    twin
}

impl<M: Modelled, L: Drive, P: Store> Run<M, L, P> {
    /// Puts of host 0 with a commit after each, until less than 300 bytes are left.
    fn fill(&mut self) {
        while self.twin.idle().is_some_and(|idle| usize::from(idle.end) + 300 < self.twin.size()) {
            let (id, value) = (self.rng.byte(), generate::value(&mut self.rng, 40));
            for wish in [Wish::Put(id, value), Wish::Commit] {
                self.wish(0, &wish);
                self.steps(usize::MAX);
            }
        }
    }

    fn act(&mut self) {
        if self.rng.once_in(30) {
            return blocks::tell_another(&mut self.twin, &mut self.rng);
        }
        match (self.twin.head(), self.rng.below(100)) {
            (Head::Job, 84..) if self.calm => self.steps(usize::MAX),
            (Head::Job, 70..=89) if self.plan.erases() && !self.calm => self.cut_erase(),
            (Head::Job, 60..=69) if self.plan.erases() && !self.calm => self.cut_short(),
            (Head::Job, 34..=59) if ["mount", "format"].contains(&self.job.0) && !self.calm => self.cut_short(),
            (Head::Job, 0..=80) => self.steps(usize::MAX),
            (Head::Job, 81..=89) => self.some_steps(),
            (Head::Job, 90..=92) => self.any_request(),
            (Head::Job, _) => self.cut_short(),
            (Head::Idle(_), 0..=1) => self.steps(1),
            (Head::Idle(_), 2..=7) => self.put_at_the_limit(),
            (Head::Idle(_), 8..=13) => self.put_at_the_hosts_limit(),
            (Head::Idle(idle), 14..=17) => self.put_to_the_end(idle),
            (Head::Idle(idle), 18..=20) => pending::mislead(&mut self.twin, &mut self.rng, idle),
            (Head::Idle(idle), 21) => edition::mislead(&mut self.twin, &mut self.rng, idle),
            (Head::Idle(_), 22) if self.edition == 1 && !self.calm => self.fill_up(),
            (Head::Idle(idle), 23..=25) => places::mislead(&mut self.twin, &mut self.rng, idle, &self.old),
            (Head::Idle(_), 22..=96) => self.any_request(),
            (Head::Unmounted, 0..=19) => self.any_request(),
            (Head::Unmounted, 20..=24) => self.steps(1),
            _ => self.restart(),
        }
    }

    /// So many steps while there are any, each by itself or in one run.
    fn steps(&mut self, most: usize) {
        if self.rng.once_in(3) {
            self.call(Call::Run(most));
            return;
        }
        for _ in 0..most {
            if self.call(Call::Step).answer != Answer::MORE {
                break;
            }
        }
    }

    /// Fewer steps than the job has left.
    fn some_steps(&mut self) {
        let most = self.rng.below(self.twin.steps_left());
        self.steps(most);
    }

    /// Power is lost between steps of the job in hand.
    fn cut_short(&mut self) {
        self.some_steps();
        self.restart();
    }

    /// A mount, now and then a format; less often where wear is counted from one to the next.
    fn restart(&mut self) {
        let formats = if self.calm { 20 } else { 8 };
        let call = if self.rng.once_in(formats) { Call::Format } else { Call::Mount };
        self.call(call);
    }

    /// Steps up to the job's next erase, if it has one. There the power is lost, and often so in the mount that follows. A
    /// format's erase happens whole: a cut inside it ends a run.
    fn cut_erase(&mut self) {
        while !self.format_open && self.twin.busy() {
            match self.twin.erases_next() {
                None => self.steps(1),
                Some(block) => {
                    let before = self.newest();
                    let mask = raise::mask(&mut self.rng, self.twin.block(block));
                    self.twin.cut_erase(&mask);
                    assert_eq!(self.newest(), before, "a block looks newer, half erased");
                    self.inside += 1;
                    self.convert_cut |= self.job.0 == "convert";
                    self.wear.end();
                    self.restart();
                    if self.rng.once_in(2) {
                        break;
                    }
                }
            }
        }
    }

    fn newest(&self) -> Option<u32> {
        newest(self.twin.image(), self.twin.blocks)
    }

    fn any_request(&mut self) {
        let host = generate::host(&mut self.rng);
        if self.rng.once_in(8) {
            let message = generate::odd_message(&self.manner, &mut self.rng);
            self.call(Call::Request { host, message, reply: 20 });
        } else {
            let wish = self.manner.wish(&mut self.rng);
            self.wish(host, &wish);
        }
    }

    /// A host's longest puts, each committed, then a convert: if nothing else is pending, it may leave no room for a delete.
    fn fill_up(&mut self) {
        let (host, lengths) = (self.rng.below(4), self.lengths());
        for _ in 0..4 {
            let taken = self.book.claimed(lengths) + lengths.mark * self.book.open(host) + lengths.reserve;
            let free = self.twin.size().saturating_sub(taken).min(self.twin.size() / 2);
            let Some(longest) = free.checked_sub(lengths.change) else { break };
            let value = generate::value(&mut self.rng, longest.min(VALUE_LIMIT));
            let id = self.rng.byte();
            for wish in [Wish::Commit, Wish::Put(id, value), Wish::Commit] {
                self.wish(host as u8, &wish);
                self.steps(usize::MAX);
            }
        }
        self.wish(host as u8, &Wish::Convert);
    }

    /// The longest put that the room rule and the limit take, or the next longer one.
    fn put_at_the_limit(&mut self) {
        let host = self.rng.below(4);
        let lengths = self.lengths();
        let marks = lengths.mark * self.book.open(host);
        let taken = self.book.claimed(lengths) + lengths.change + marks + lengths.reserve;
        self.put_of_about(host, self.twin.size().saturating_sub(taken));
    }

    /// The longest put that makes half a block with what its host has pending, or the next longer one; or a delete.
    fn put_at_the_hosts_limit(&mut self) {
        let host = self.rng.below(4);
        let lengths = self.lengths();
        let taken = self.book.pending(host, lengths) + lengths.change;
        let free = (self.twin.size() / 2).saturating_sub(taken);
        if free < 8 && self.rng.once_in(2) {
            let id = self.manner.id(&mut self.rng);
            return self.wish(host as u8, &Wish::Delete(id));
        }
        self.put_of_about(host, free);
    }

    /// A put after which a reset just fits or just does not, alone or behind a frame that is torn later.
    fn put_to_the_end(&mut self, idle: Idle) {
        let host = self.rng.below(4);
        let lengths = self.lengths();
        let behind = self.rng.pick(&[0, 0, lengths.mark, lengths.change]) + lengths.reset + self.rng.below(2);
        let free = self.twin.size().saturating_sub(usize::from(idle.end) + lengths.change + behind);
        self.put_of_about(host, free);
    }

    /// A put of so many bytes, of the longest value if these are more, or of one byte more than that.
    fn put_of_about(&mut self, host: usize, free: usize) {
        let size = free.min(VALUE_LIMIT) + self.rng.below(2);
        let value = generate::value(&mut self.rng, size);
        let id = self.manner.id(&mut self.rng);
        self.wish(host as u8, &Wish::Put(id, value));
    }

    /// A well-formed request, whose answer and number of steps the book and document 01 tell beforehand.
    fn wish(&mut self, host: u8, wish: &Wish) {
        let reply = self.rng.pick(&[0, 13, 14, 20, 20, 20]);
        let (expected, steps) = self.expected(host, wish, reply);
        let outcome = self.call(Call::Request { host, message: wish.message(), reply });
        assert_eq!(outcome.answer, expected, "host {host}, {wish:?}");
        if expected == Answer::MORE {
            self.due = Some(steps);
        }
        self.check_reply(wish, &outcome);
    }

    /// Every call of the run goes through here.
    fn call(&mut self, call: Call) -> Outcome {
        let busy = self.twin.busy();
        let idle = self.twin.idle();
        self.follow_cut(&call);
        let due = self.due_of_mount(&call);
        let outcome = self.twin.call(&call);
        self.follow_edition(&call, outcome.answer, busy);
        self.follow_job(&call, &outcome, busy);
        self.check_available(&call, outcome.answer, busy);
        let steps = due.as_ref().map(Due::steps);
        self.follow_plan(&call, outcome.answer, idle, due);
        if outcome.answer == Answer::MORE && !call.goes_on() {
            self.cut_job(idle, &call);
        }
        self.book.feed(&call, outcome.answer);
        self.count_steps(&call, &outcome, busy, steps);
        self.wear.check(self.twin.blocks, self.twin.erases());
        if let Some(idle) = self.twin.idle() {
            self.follow_rest(idle);
            self.check_book(idle);
        }
        outcome
    }

    /// Counts the jobs that a mount or format ends between two steps.
    fn follow_job(&mut self, call: &Call, outcome: &Outcome, busy: bool) {
        let (job, steps) = &mut self.job;
        if busy && matches!(call, Call::Mount | Call::Format) && *steps > 0 {
            *self.midway.entry(job).or_default() += 1;
        }
        if outcome.answer == Answer::MORE && !call.goes_on() {
            self.job = (call.job(), 0);
        } else {
            *steps += outcome.steps;
        }
    }

    /// Now and then the job is cut everywhere, on copies of the image; oftener one with an erase.
    fn cut_job(&mut self, idle: Option<Idle>, call: &Call) {
        let every = if self.plan.erases() { self.cut_jobs.div_ceil(ERASES_OFTENER) } else { self.cut_jobs };
        if every == 0 || !self.rng.once_in(every) {
            return;
        }
        let objects = self.book.objects.clone();
        let idle = if matches!(call, Call::Request { .. }) { idle } else { None };
        let start = Start { image: self.twin.image(), idle, call };
        match call {
            // A format that follows a cut format may find the store gone already.
            Call::Format => self.cuts.of_job(&start, Allowed::OrGone(&objects), &Default::default()),
            Call::Request { host, message, .. } if message[..4] == message::commit() => {
                let after = self.book.committed(usize::from(*host));
                self.cuts.of_job(&start, Allowed::Exactly(&objects), &after);
            }
            _ => self.cuts.of_job(&start, Allowed::Exactly(&objects), &objects),
        }
    }
}
