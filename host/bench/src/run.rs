//! One run: every row measured once, the stores in turns.

use crate::case::{Case, full, sparse};
use crate::operation::{Operation, SINGLE, WHOLE, once};
use library::{Driven, Library};
use model::Model;
use plain::Plain;
use std::time::Duration;
use store::Store;

/// Lengths, numbers of blocks and editions. The smallest image has room for two objects, in edition 1.
const IMAGES: [(usize, u8, u8); 7] =
    [(512, 2, 1), (4_096, 2, 1), (4_096, 2, 2), (4_096, 16, 1), (65_536, 2, 1), (65_536, 2, 2), (65_536, 16, 1)];

/// How much is measured: repeats, and of each the time and the goes that it takes at least, so that one held up does not
/// decide.
#[derive(Clone, Copy)]
pub struct Effort {
    repeats: usize,
    least: Duration,
    goes: usize,
}

/// For figures.
pub const WHOLE_RUN: Effort = Effort { repeats: 15, least: Duration::from_millis(3), goes: 7 };
/// Shows that every row can be measured, and no more.
pub const TRIAL: Effort = Effort { repeats: 1, least: Duration::ZERO, goes: 1 };

/// Nanoseconds of library, plain and model, then library / plain and library / model.
pub type Figures = [f64; 5];

/// A row of the tables: where it belongs, and what was measured.
pub struct Row {
    pub length: usize,
    pub blocks: u8,
    pub fill: &'static str,
    pub name: &'static str,
    pub figures: Figures,
}

fn cases() -> Vec<Case> {
    let both = |(length, blocks, edition)| [sparse(length, blocks, edition), full(length, blocks, edition)];
    IMAGES.into_iter().flat_map(both).collect()
}

/// The rows of single calls, then those of whole operations.
pub fn rows(effort: Effort) -> Vec<Row> {
    let (library, cases) = (Library::linked(), cases());
    let mut rows = Vec::new();
    for operations in [&SINGLE[..], &WHOLE] {
        for case in &cases {
            for &(operation, name) in operations {
                let figures = match operation {
                    Operation::DrivenStep => measure(&Driven(Library::linked()), operation, case, effort),
                    _ => measure(&library, operation, case, effort),
                };
                rows.push(Row { length: case.rest.len(), blocks: case.blocks, fill: case.fill, name, figures });
            }
        }
    }
    rows
}

/// Medians over the repeats; a ratio is taken in each repeat.
fn measure(library: &impl Store, operation: Operation, case: &Case, effort: Effort) -> Figures {
    let mut repeats: [Vec<f64>; 5] = Default::default();
    for _ in 0..effort.repeats {
        let plain = nanoseconds(&Plain, operation, case, effort);
        let library = nanoseconds(library, operation, case, effort);
        let model = nanoseconds(&Model, operation, case, effort);
        let figures = [library, plain, model, library / plain, library / model];
        repeats.iter_mut().zip(figures).for_each(|(repeats, figure)| repeats.push(figure));
    }
    repeats.map(median)
}

/// The time of one operation: the median of the goes of one repeat.
fn nanoseconds<S: Store>(store: &S, operation: Operation, case: &Case, effort: Effort) -> f64 {
    let mut spent = Duration::ZERO;
    let mut goes = Vec::new();
    while spent < effort.least || goes.len() < effort.goes {
        let (time, operations) = once(store, operation, case);
        spent += time;
        goes.push(time.as_nanos() as f64 / operations as f64);
    }
    median(goes)
}

fn median(mut values: Vec<f64>) -> f64 {
    values.sort_by(f64::total_cmp);
    values[values.len() / 2]
}

#[cfg(test)]
mod tests {
    use super::*;
    use store::Head;

    /// Each operation asserts what it is answered; both stores make as many steps.
    #[test]
    fn every_row_can_be_measured() {
        for case in cases() {
            for (operation, name) in SINGLE.into_iter().chain(WHOLE) {
                let [(_, plain), (_, model)] = [once(&Plain, operation, &case), once(&Model, operation, &case)];
                assert_eq!(plain, model, "{name}, {} blocks in {} bytes", case.blocks, case.rest.len());
            }
        }
    }

    /// A reset of 5 bytes, in edition 2 of 9; four more close a torn frame; a transfer ends in the next block.
    #[test]
    fn dirty_mounts_are_what_they_are_called() {
        for case in cases() {
            let reset = if case.rest_idle.edition == 2 { 9 } else { 5 };
            let mounted = |image: &[u8]| {
                let (mut image, (_, mut record)) = (image.to_vec(), Model.mount(image, case.blocks));
                let steps = Model.run(&mut image, case.blocks, &mut record, usize::MAX).1;
                let Head::Idle(idle) = Model.head(&record) else { panic!("idle") };
                (steps, idle.block)
            };
            let block = case.rest_idle.block;
            assert_eq!([mounted(&case.pending), mounted(&case.torn)], [(reset, block), (4 + reset, block)]);
            assert_eq!(mounted(&case.crowded).1, (block + 1) % case.blocks);
        }
    }
}
