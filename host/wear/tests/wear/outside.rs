//! What the inequalities leave aside: erases of mounts, formats and converts, the most that there are.

use check::side::Side;
use check::twin::Call;
use library::Library;
use store::{Answer, Drive, Head, message};
use wear::count::Shape;
use wear::start::mounted;

/// How often each block is erased by the call, by the steps that the library tells; blank ones too.
fn erases(side: &mut Side<Library>, shape: Shape, call: &Call) -> Vec<usize> {
    let mut each = vec![0; usize::from(shape.blocks)];
    side.call(call, shape.blocks);
    while side.head() == Head::Job {
        let (answer, told) = side.store.told(side.image.len(), shape.blocks, &side.record);
        if answer == Answer::ERASE {
            each[told.at / shape.size] += 1;
        }
        side.call(&Call::Step, shape.blocks);
    }
    each
}

fn request(message: Vec<u8>) -> Call {
    Call::Request { host: 0, message, reply: 0 }
}

/// A pending put that ends with the block leaves no room for a reset; all others are in progress.
#[test]
fn a_mount_erases_each_block_at_most_once() {
    for blocks in [2, 3, 16] {
        let shape = Shape { blocks, size: 256, edition: 1 };
        let mut side = mounted(Library::linked(), shape, &[]).expect("it is empty");
        for message in [message::put(1, &[7; 100]), message::abort(), message::put(1, &[7; 118])] {
            assert_eq!(erases(&mut side, shape, &request(message)), vec![0; usize::from(blocks)]);
        }
        assert_eq!(side.image[255], 0xFE);
        for other in 1..usize::from(blocks) {
            side.image[256 * other + 8] = 0xFE;
        }
        assert_eq!(erases(&mut side, shape, &Call::Mount), vec![1; usize::from(blocks)]);
        assert_eq!(erases(&mut side, shape, &Call::Mount), vec![0; usize::from(blocks)]);
    }
}

#[test]
fn a_format_and_a_convert() {
    for blocks in [2, 3, 16] {
        let shape = Shape { blocks, size: 256, edition: 1 };
        let mut side = mounted(Library::linked(), shape, &[9]).expect("it fits");
        let mut once = vec![0; usize::from(blocks)];
        once[0] = 1;
        assert_eq!(erases(&mut side, shape, &request(message::convert())), once);
        assert_eq!(erases(&mut side, shape, &request(message::convert())), vec![0; usize::from(blocks)]);
        assert_eq!(erases(&mut side, shape, &Call::Format), vec![1; usize::from(blocks)]);
    }
}
