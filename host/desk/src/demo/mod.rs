//! Three tickets, played. Whatever the story says happened is checked as it is told.

mod bad_length;
mod lost_erase;
mod power_cuts;

use crate::board::Board;
use crate::picture::LEGEND;
use crate::say::{grouped, value};
use std::io::{self, Write};
use store::{Answer, Store, message};

/// This demo's flash: its bytes, its blocks, the bytes of one.
const LENGTH: usize = 512;
const BLOCKS: u8 = 2;
const SIZE: usize = LENGTH / BLOCKS as usize;

/// What was really checked, and found.
#[derive(Default)]
struct Checked {
    bad_lengths: usize,
    disturbed_steps: usize,
    cuts: usize,
    nested: usize,
    lost_erases: usize,
    reads: usize,
    half_changes: usize,
}

/// Tells the tickets; whether no half change was found.
pub fn demo<S: Store>(store: &S, out: &mut impl Write) -> io::Result<bool> {
    let mut checked = Checked::default();
    writeln!(out, "The proved settings store on a board of {LENGTH} bytes of flash, two halves of {SIZE}.")?;
    writeln!(out, "In the pictures each letter is a byte:\n\n{LEGEND}")?;
    bad_length::tell(store, &mut checked, out)?;
    power_cuts::tell(store, &mut checked, out)?;
    lost_erase::tell(store, &mut checked, out)?;
    let rows = [
        (checked.bad_lengths, "bad lengths refused without a trace"),
        (checked.disturbed_steps, "steps of a commit, with a bad request before each"),
        (checked.cuts, "restarts after power cuts"),
        (checked.nested, "restarts after cuts in those restarts"),
        (checked.lost_erases, "restarts after power was lost inside an erase"),
        (checked.reads, "reads"),
        (checked.half_changes, "half changes found"),
    ];
    writeln!(out, "Checked, and counted on the way:\n")?;
    for (number, what) in rows {
        writeln!(out, "  {:>6}  {what}", grouped(number))?;
    }
    Ok(checked.half_changes == 0)
}

fn formatted<S: Store>(store: &S) -> Board<'_, S> {
    let mut board = Board::new(store, vec![0xFF; LENGTH], BLOCKS);
    assert_eq!(board.format(), Answer::MORE);
    assert_eq!(board.run(), (Answer::DONE, usize::from(BLOCKS) + 10));
    board
}

/// A request and all its steps.
fn serve<S: Store>(board: &mut Board<S>, host: u8, message: &[u8]) -> usize {
    assert_eq!(board.request(host, message, &mut []), Answer::MORE);
    let (answer, steps) = board.run();
    assert_eq!(answer, Answer::DONE);
    steps
}

fn read<S: Store>(board: &Board<S>, host: u8, id: u8, checked: &mut Checked) -> Option<Vec<u8>> {
    checked.reads += 1;
    match board.read(host, &message::read(id)) {
        (Answer::DONE, stretch) => Some(stretch.of(&board.image).to_vec()),
        (refusal, _) => {
            assert_eq!(refusal, Answer::NO_OBJECT);
            None
        }
    }
}

/// An object and what a read found.
fn found(id: u8, object: &Option<Vec<u8>>) -> String {
    match object {
        Some(bytes) => format!("{id} = {}", value(bytes)),
        None => format!("{id} not there"),
    }
}

#[cfg(test)]
mod tests {
    use super::*;
    use model::{Model, Record};
    use std::cell::Cell;
    use store::{Fault, Head, Idle, Stretch};

    /// After a mount it hands out object 1's value for object 2's: a new low limit, and no high one.
    struct Mixed {
        mounted: Cell<bool>,
    }

    impl Store for Mixed {
        type Record = Record;

        fn mount(&self, image: &[u8], blocks: u8) -> (Answer, Record) {
            self.mounted.set(true);
            Model.mount(image, blocks)
        }

        fn fault(&self, image: &[u8], blocks: u8) -> (Answer, Option<Fault>) {
            Model.fault(image, blocks)
        }

        fn format(&self, image: &[u8], blocks: u8) -> (Answer, Record) {
            Model.format(image, blocks)
        }

        fn request(
            &self,
            image: &[u8],
            blocks: u8,
            record: &mut Record,
            host: u8,
            body: &[u8],
            reply: &mut [u8],
        ) -> Answer {
            Model.request(image, blocks, record, host, body, reply)
        }

        fn step(&self, image: &mut [u8], blocks: u8, record: &mut Record) -> Answer {
            Model.step(image, blocks, record)
        }

        fn read(&self, image: &[u8], blocks: u8, record: &Record, host: u8, body: &[u8]) -> (Answer, Stretch) {
            let mixed = self.mounted.get() && body == message::read(2);
            Model.read(image, blocks, record, host, if mixed { &[6, 0, 5, 1, 1, 0] } else { body })
        }

        fn unmounted(&self) -> Record {
            Model.unmounted()
        }

        fn idle(&self, idle: Idle) -> Record {
            Model.idle(idle)
        }

        fn head(&self, record: &Record) -> Head {
            Model.head(record)
        }
    }

    fn told<S: Store>(store: &S) -> (bool, String) {
        let mut out = Vec::new();
        let whole = demo(store, &mut out).expect("a vector takes all");
        (whole, String::from_utf8(out).expect("text"))
    }

    #[test]
    fn half_changes_are_counted() {
        let (whole, story) = told(&Mixed { mounted: Cell::new(false) });
        assert!(!whole);
        // Each of 140 + 977 + 5,196 restarts.
        assert!(story.ends_with("   6,313  half changes found\n"), "{story}");
        assert!(story.contains("     140  half a change\n"), "{story}");
        assert!(story.contains("   5,196  half a change\n"), "{story}");
        let (whole, story) = told(&Model);
        assert!(whole && story.ends_with("       0  half changes found\n"), "{story}");
    }

    #[test]
    fn half_changes_are_exit_status_1() {
        let mixed = Mixed { mounted: Cell::new(false) };
        assert_eq!(crate::status(&crate::tell(&mixed, io::sink())), 1);
        assert_eq!(crate::status(&crate::tell(&Model, io::sink())), 0);
    }
}
