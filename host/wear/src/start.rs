//! Stores from which runs begin: formatted, with settled objects, in an edition, and mounted.

use crate::count::Shape;
use check::book::{FIRST, lengths};
use check::side::Side;
use check::twin::Call;
use model::frame::VALUE_LIMIT;
use store::{Answer, Store, message};

/// A mounted store with objects of these sizes, ids from 0 on; nothing where they do not fit.
pub fn mounted<T: Store>(store: T, shape: Shape, sizes: &[usize]) -> Option<Side<T>> {
    let mut side = Side::new(store, &vec![0xFF; shape.length()]);
    whole(&mut side, shape, &Call::Format)?;
    for (id, size) in (0..=255).zip(sizes) {
        serve(&mut side, shape, &message::put(id, &vec![id; *size]))?;
        serve(&mut side, shape, &message::commit())?;
    }
    if shape.edition == 2 {
        serve(&mut side, shape, &message::convert())?;
    }
    whole(&mut side, shape, &Call::Mount)?;
    Some(side)
}

fn serve<T: Store>(side: &mut Side<T>, shape: Shape, message: &[u8]) -> Option<()> {
    whole(side, shape, &Call::Request { host: 0, message: message.to_vec(), reply: 0 })
}

/// The call and all its steps, if it is accepted.
fn whole<T: Store>(side: &mut Side<T>, shape: Shape, call: &Call) -> Option<()> {
    let answer = side.call(call, shape.blocks).answer;
    let end = side.call(&Call::Run(usize::MAX), shape.blocks).answer;
    (!answer.refused() && end == Answer::DONE).then_some(())
}

/// Sizes of objects with which U is exactly this, if there are such.
pub fn using(shape: Shape, used: usize) -> Option<Vec<usize>> {
    let settled = lengths(shape.edition).settled;
    // they are put in edition 1, by a host that has half a block
    let most = settled + VALUE_LIMIT.min(shape.size / 2 - FIRST.change);
    let mut rest = used.checked_sub(16)?;
    let mut sizes = Vec::new();
    while rest > 0 {
        // the last object must not be shorter than an empty one
        let frame = if rest > most && rest < most + settled { most - settled } else { rest.min(most) };
        sizes.push(frame.checked_sub(settled)?);
        rest -= frame;
    }
    Some(sizes)
}

/// The most that U can come to by puts of new objects, each with its commit.
pub fn fullest(shape: Shape) -> usize {
    let lengths = lengths(shape.edition);
    shape.size - (lengths.change - lengths.settled) - lengths.mark - lengths.reserve
}

#[cfg(test)]
mod tests {
    use super::*;
    use library::Library;
    use store::Head;

    fn used(shape: Shape, sizes: &[usize]) -> Option<usize> {
        let mut side = mounted(Library::linked(), shape, sizes)?;
        let page = side.call(&Call::Request { host: 0, message: message::log(), reply: 14 }, shape.blocks).reply;
        Some(usize::from(u16::from_le_bytes([page[10], page[11]])))
    }

    #[test]
    fn u_as_asked_for() {
        for edition in [1, 2] {
            let shape = Shape { blocks: 2, size: 1024, edition };
            for asked in [16, 39, 512, 513, 520, 700, 900] {
                let sizes = using(shape, asked).expect("there are such sizes");
                assert_eq!(used(shape, &sizes), Some(asked), "{sizes:?}");
            }
            assert_eq!(using(shape, 22), None);
        }
    }

    /// One byte more is refused: the last put leaves no room for a delete and its commit.
    #[test]
    fn no_fuller_in_edition_1() {
        let shape = Shape { blocks: 3, size: 384, edition: 1 };
        let full = using(shape, fullest(shape)).expect("there are such sizes");
        assert_eq!(used(shape, &full), Some(384 - 21));
        let fuller = using(shape, fullest(shape) + 1).expect("there are such sizes");
        assert_eq!(used(shape, &fuller), None);
    }

    #[test]
    fn editions_and_blocks() {
        for (blocks, edition) in [(2, 1), (3, 2), (16, 2)] {
            let side = mounted(Library::linked(), Shape { blocks, size: 256, edition }, &[9]).expect("they fit");
            let Head::Idle(idle) = side.head() else { panic!("{:?}", side.head()) };
            assert_eq!((idle.blocks, idle.edition, idle.block), (blocks, edition, edition - 1));
        }
    }
}
