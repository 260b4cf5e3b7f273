//! Looking for the runs that erase most for their bytes.

use crate::count::Shape;
use crate::quick::Quick;
use crate::run::Run;
use crate::start::{fullest, mounted, using};
use check::generate::Wish;
use check::rng::Rng;
use library::Library;
use model::frame::VALUE_LIMIT;
use std::fmt;
use store::Store;

/// What is settled before a run, by U, and what the hosts then send again and again.
#[derive(Clone, PartialEq, Eq, Debug)]
pub struct Course {
    pub used: usize,
    pub sent: Vec<(u8, Wish)>,
}

impl fmt::Display for Course {
    fn fmt(&self, f: &mut fmt::Formatter) -> fmt::Result {
        write!(f, "U = {}:", self.used)?;
        for (number, (host, wish)) in self.sent.iter().enumerate() {
            let comma = if number == 0 { "" } else { "," };
            match wish {
                Wish::Put(_, value) => write!(f, "{comma} {host} put {}", value.len())?,
                other => write!(f, "{comma} {host} {}", format!("{other:?}").to_lowercase())?,
            }
        }
        Ok(())
    }
}

/// How a course went: frames' bytes from the first erase to the last, and the erases after the first.
#[derive(Clone, Copy, PartialEq, Debug)]
pub struct Cost {
    pub bytes: usize,
    pub erases: usize,
}

impl Cost {
    pub fn bytes_an_erase(self) -> f64 {
        self.bytes as f64 / self.erases as f64
    }
}

/// Which runs count: those in which each C at a transfer is at most S/2, or all.
#[derive(Clone, Copy, PartialEq, Eq, Debug)]
pub enum Premise {
    Half,
    None,
}

/// Requests without a transfer before a course is given up.
const PATIENCE: usize = 400;

/// Sends a course on any store until so many erases came after the first; nothing if they do not come or the premise fails.
pub fn try_on<T: Store>(store: T, shape: Shape, premise: Premise, course: &Course, erases: usize) -> Option<Cost> {
    let mut quick = Quick { side: mounted(store, shape, &using(shape, course.used)?)?, shape };
    let (mut all, mut first, mut seen, mut idle) = (0, 0, 0, 0);
    for (host, wish) in course.sent.iter().cycle() {
        let (bytes, transfer) = quick.serve(*host, wish.message());
        all += bytes;
        idle += 1;
        let Some(transfer) = transfer else {
            if idle > PATIENCE {
                return None;
            }
            continue;
        };
        idle = 0;
        if premise == Premise::Half && transfer.claimed > shape.size / 2 {
            return None;
        }
        if seen == 0 {
            first = all;
        }
        if seen == erases {
            return Some(Cost { bytes: all - first, erases });
        }
        seen += 1;
    }
    None
}

/// The same by single steps, with K12's inequalities looked at after each call; B is that of the whole run.
pub fn count<T: Store>(store: T, shape: Shape, course: &Course, erases: usize) -> Option<Run<T>> {
    let mut run = Run::new(mounted(store, shape, &using(shape, course.used)?)?, shape);
    let (mut seen, mut idle) = (0, 0);
    for (host, wish) in course.sent.iter().cycle() {
        run.serve(*host, &wish.message());
        idle = if run.counts[0].erases > seen { 0 } else { idle + 1 };
        seen = run.counts[0].erases;
        if seen > erases {
            return Some(run);
        }
        if idle > PATIENCE {
            return None;
        }
    }
    None
}

/// Erases after the first, while looking.
const FEW: usize = 6;
/// Of this many courses one is begun afresh.
const AFRESH: usize = 3_000;

/// The cheapest course found in so many trials, by changing one that is changed again as long as it gets no dearer.
pub fn seek(shape: Shape, premise: Premise, seed: u64, trials: usize) -> Option<(Course, Cost)> {
    let mut rng = Rng::new(seed);
    let mut best: Option<(Course, Cost)> = None;
    let mut now: Option<(Course, f64)> = None;
    for trial in 0..trials {
        if trial % AFRESH == 0 {
            now = None;
        }
        let course = match &now {
            Some((course, _)) => changed(&mut rng, shape, premise, course),
            None => any(&mut rng, shape, premise),
        };
        let Some(cost) = try_on(Library::linked(), shape, premise, &course, FEW) else { continue };
        let price = cost.bytes_an_erase();
        if now.as_ref().is_none_or(|(_, least)| price <= *least) {
            now = Some((course.clone(), price));
        }
        if best.as_ref().is_none_or(|(_, least)| price < least.bytes_an_erase()) {
            best = Some((course, cost));
        }
    }
    best.map(|(course, cost)| (pruned(shape, premise, course, cost), cost))
}

/// Without what can be left out at the same price.
fn pruned(shape: Shape, premise: Premise, mut course: Course, cost: Cost) -> Course {
    for at in (0..course.sent.len()).rev() {
        let mut shorter = course.clone();
        shorter.sent.remove(at);
        if !shorter.sent.is_empty() && try_on(Library::linked(), shape, premise, &shorter, FEW) == Some(cost) {
            course = shorter;
        }
    }
    course
}

fn most_used(shape: Shape, premise: Premise) -> usize {
    if premise == Premise::Half { shape.size / 2 } else { fullest(shape) }
}

fn any(rng: &mut Rng, shape: Shape, premise: Premise) -> Course {
    let used = 16 + rng.below(most_used(shape, premise) - 15);
    let sent = (0..2 + rng.below(14)).map(|_| any_wish(rng)).collect();
    Course { used, sent }
}

/// Ids are few: which one it is counts only for how large the settled objects become.
fn any_wish(rng: &mut Rng) -> (u8, Wish) {
    let id = rng.pick(&[0, 1, 200, 201]);
    let wish = match rng.below(8) {
        0..=3 => Wish::Put(id, vec![7; rng.below(VALUE_LIMIT + 1)]),
        4 => Wish::Delete(id),
        5 => Wish::Commit,
        _ => Wish::Abort,
    };
    (rng.below(2) as u8, wish)
}

/// The course with one or two things changed.
fn changed(rng: &mut Rng, shape: Shape, premise: Premise, course: &Course) -> Course {
    let mut course = course.clone();
    for _ in 0..1 + rng.below(3) {
        let at = rng.below(course.sent.len());
        match rng.below(8) {
            0 => course.used = near(rng, course.used).clamp(16, most_used(shape, premise)),
            1 => course.used = most_used(shape, premise) - rng.below(24),
            2 => course.sent.insert(at, any_wish(rng)),
            3 if course.sent.len() > 2 => drop(course.sent.remove(at)),
            4 => course.sent[at] = any_wish(rng),
            5 => course.sent.swap(at, 0),
            _ => {
                if let Wish::Put(_, value) = &mut course.sent[at].1 {
                    let size = if rng.once_in(8) { VALUE_LIMIT } else { near(rng, value.len()) };
                    value.resize(size.min(VALUE_LIMIT), 7);
                }
            }
        }
    }
    course
}

/// A number that is a little or much smaller or larger.
fn near(rng: &mut Rng, number: usize) -> usize {
    let by = rng.pick(&[1, 1, 2, 8, 40]);
    if rng.once_in(2) { number + by } else { number.saturating_sub(by) }
}
