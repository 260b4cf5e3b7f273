//! K9: a convert may leave less room than a delete and its commit take. S is 256.

use super::convert::{done, formatted, idle, serve, settle};
use check::twin::{Call, Twin};
use store::{Answer, message};

const LENGTH: usize = 512;

/// Two values of 101 bytes: U is 232 in edition 1, 240 in edition 2.
fn tight() -> Twin {
    let mut board = formatted(LENGTH);
    settle(&mut board, &[101, 101]);
    assert_eq!(board.serve(0, &message::convert()), done(240 - 5));
    assert_eq!((idle(&board).end, idle(&board).edition), (240, 2));
    board
}

/// 240 + 12 + 10 and more is above 256. A put of more than half a block is 12 first, a malformed one 1.
#[test]
fn every_put_and_delete_is_refused() {
    let mut board = tight();
    let (before, image) = (idle(&board), board.image().to_vec());
    for host in 0..4 {
        for id in 0..=255 {
            assert_eq!(board.ask(host, &message::delete(id)), Answer::NO_ROOM);
            assert_eq!(board.ask(host, &message::put(id, &[])), Answer::NO_ROOM);
        }
        for size in 0..=241 {
            let expected = match size {
                0..=116 => Answer::NO_ROOM,
                117..=240 => Answer::HOST_FULL,
                _ => Answer::MALFORMED,
            };
            assert_eq!(board.ask(host, &message::put(1, &vec![0; size])), expected, "{size} bytes");
        }
    }
    assert_eq!((idle(&board), board.image()), (before, &image[..]));
}

#[test]
fn everything_else_works() {
    let mut board = tight();
    let image = board.image().to_vec();
    for host in 0..4 {
        for message in [message::commit(), message::abort(), message::convert(), message::log()] {
            assert_eq!(board.serve(host, &message), done(0));
        }
    }
    assert_eq!(board.log(), [14, 0, 1, 2, 2, 0, 0, 0, 2, 0, 240, 0, 0, 1]);
    for _ in 0..2 {
        assert_eq!(
            (board.ids(), board.value(1), board.value(2)),
            (vec![1, 2], Some(vec![1; 101]), Some(vec![2; 101]))
        );
        assert_eq!(board.whole(&Call::Mount), done(0));
    }
    assert_eq!(board.image(), image);
}

/// The way out: the objects are read, and put again after a format.
#[test]
fn a_format_ends_it() {
    let mut board = tight();
    let values = [1, 2].map(|id| board.value(id).expect("settled"));
    assert_eq!(board.whole(&Call::Format), done(12));
    assert_eq!((idle(&board).edition, board.ids()), (1, vec![]));
    for (id, value) in (1..).zip(&values) {
        serve(&mut board, 0, &message::put(id, value));
        serve(&mut board, 0, &message::commit());
    }
    serve(&mut board, 0, &message::delete(1));
    serve(&mut board, 0, &message::commit());
    assert_eq!((board.ids(), board.value(2).as_ref()), (vec![2], Some(&values[1])));
}

/// U of 234 in edition 2 leaves room for a delete and its commit, 235 does not.
#[test]
fn exactly_when() {
    for (last, delete) in [(26, Answer::MORE), (27, Answer::NO_ROOM)] {
        let mut board = formatted(LENGTH);
        settle(&mut board, &[25, 25, 25, 25, 26, last]);
        assert_eq!(board.serve(0, &message::convert()).0, Answer::DONE);
        assert_eq!(usize::from(idle(&board).end), 208 + last);
        assert_eq!(board.ask(0, &message::delete(1)), delete);
    }
}
