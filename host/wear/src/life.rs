//! The example of WEAR.md: one change of 16 bytes a minute, each with its commit.

use crate::count::Shape;
use crate::quick::Quick;
use crate::start::mounted;
use check::book::lengths;
use store::{Store, message};

/// Bytes of each value, and how many objects there are. They are changed in turn.
pub const VALUE: usize = 16;
pub const OBJECTS: usize = 16;
/// What a block is good for.
pub const CYCLES: usize = 100_000;

const MINUTES_A_YEAR: f64 = 365.25 * 24.0 * 60.0;

/// Bytes of a change: its put and its commit.
pub fn change(shape: Shape) -> usize {
    put(shape) + lengths(shape.edition).mark
}

fn put(shape: Shape) -> usize {
    lengths(shape.edition).change + VALUE
}

/// The largest C that there can be: all objects and one put.
fn most_claimed(shape: Shape) -> usize {
    16 + OBJECTS * (lengths(shape.edition).settled + VALUE) + put(shape)
}

/// Years until a block can have been erased so often, if no erase comes for less than so many bytes.
pub fn years(shape: Shape, bytes_an_erase: usize) -> f64 {
    let bytes = usize::from(shape.blocks) * (CYCLES - 1) * bytes_an_erase;
    bytes as f64 / change(shape) as f64 / MINUTES_A_YEAR
}

/// The strong one with what is known here: C is at most M, and no frame is longer than a put.
pub fn strong(shape: Shape) -> usize {
    shape.size + 1 - most_claimed(shape) - put(shape)
}

/// Changes, frames' bytes and erases until some block was erased so often.
#[derive(Clone, Copy, PartialEq, Eq, Debug)]
pub struct Life {
    pub changes: usize,
    pub bytes: usize,
    pub erases: usize,
    pub often: usize,
}

impl Life {
    /// Years until a block is worn, at this pace.
    pub fn years(self) -> f64 {
        self.changes as f64 * (CYCLES / self.often) as f64 / MINUTES_A_YEAR
    }

    pub fn bytes_an_erase(self) -> f64 {
        self.bytes as f64 / self.erases as f64
    }
}

pub fn live<T: Store>(store: T, shape: Shape, often: usize) -> Life {
    let side = mounted(store, shape, &[VALUE; OBJECTS]).expect("the objects fit");
    let mut quick = Quick { side, shape };
    let (mut life, mut each) = (Life { changes: 0, bytes: 0, erases: 0, often }, [0; 16]);
    while each.iter().all(|erases| *erases < often) {
        let id = (life.changes % OBJECTS) as u8;
        for message in [message::put(id, &[life.changes as u8; VALUE]), message::commit()] {
            let (bytes, transfer) = quick.serve(0, message);
            assert!(bytes > 0, "a change was refused");
            life.bytes += bytes;
            if let Some(transfer) = transfer {
                life.erases += 1;
                each[usize::from(transfer.from)] += 1;
            }
        }
        life.changes += 1;
    }
    life
}

#[cfg(test)]
mod tests {
    use super::*;
    use library::Library;

    /// Frames end at 496 in the formatted store, so 120 changes of 30 bytes fit. After a transfer and its put they end at 408; its
    /// commit and 122 changes fit. The fifth erase is block 0's third.
    #[test]
    fn blocks_of_4096() {
        let shape = Shape { blocks: 2, size: 4096, edition: 1 };
        assert_eq!((change(shape), strong(shape)), (30, 4097 - 408 - 24));
        let changes = 120 + 4 * 123 + 1;
        assert_eq!(live(Library::linked(), shape, 3), Life { changes, bytes: 30 * changes, erases: 5, often: 3 });
    }

    /// In edition 2 a change has 38 bytes and U is 448: after a transfer's put frames end at 476, and its commit and 14 changes
    /// fit. The first transfer is the convert's, before the run, and leaves 15 changes room.
    #[test]
    fn blocks_of_1024() {
        let shape = Shape { blocks: 4, size: 1024, edition: 2 };
        assert_eq!((change(shape), strong(shape)), (38, 1025 - 476 - 28));
        let changes = 15 + 4 * 15 + 1;
        assert_eq!(live(Library::linked(), shape, 2), Life { changes, bytes: 38 * changes, erases: 5, often: 2 });
    }

    #[test]
    fn years_by_a_bound() {
        let shape = Shape { blocks: 2, size: 4096, edition: 1 };
        // 2 · 99,999 · 1,801 / 30 minutes, 525,960 to the year
        assert_eq!(format!("{:.2}", years(shape, 1801)), "22.83");
    }
}
