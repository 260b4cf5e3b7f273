//! Which messages are of kind 0x0105, and in which order they are refused: 4, 10, 5, 2, 1, 11, 8. All others get 11 before 1.

use crate::{Desk, NONE, S};
use model::{Model, Record};
use store::{Answer, Store, message};

/// Object 5 at 16.
fn board() -> Desk {
    let mut desk = Desk::formatted(S, 2);
    desk.puts(2, 5, 2);
    desk.does(2, &message::commit());
    desk
}

/// The same image under records that are wrong for every read of an object: another length, number of blocks, block, place.
fn wrong() -> [Desk; 4] {
    let desk = board();
    [
        desk.forged(|idle| idle.length = 768),
        desk.forged(|idle| idle.blocks = 3),
        desk.forged(|idle| idle.block = 9),
        desk.forged(|idle| idle.places = [1; 256]),
    ]
}

/// Of kind 0x0105, and malformed: wrong lengths, too few or many bytes, ids above 255.
fn malformed_reads() -> Vec<Vec<u8>> {
    let read = |id: &[u8]| message::message(message::READ, id);
    vec![
        vec![4, 0, 5, 1],
        vec![0, 0, 5, 1],
        vec![6, 0, 5, 1],
        vec![6, 0, 5, 1, 5],
        vec![5, 0, 5, 1, 5, 0],
        vec![7, 0, 5, 1, 5, 0],
        vec![6, 1, 5, 1, 5, 0],
        vec![0xFF, 0xFF, 5, 1, 5, 0],
        read(&[5]),
        read(&[5, 0, 0]),
        read(&[0, 1]),
        read(&[5, 0xFF]),
        read(&[0; 300]),
    ]
}

/// Not of that kind, and malformed, though some come near it: fewer than four bytes, or one of bytes 2 and 3 is another.
fn malformed_others() -> Vec<Vec<u8>> {
    vec![
        vec![],
        vec![5],
        vec![5, 1],
        vec![6, 0, 5],
        vec![6, 0, 1, 5, 5, 0],
        vec![6, 0, 5, 0, 5, 0],
        vec![6, 0, 5, 2, 5, 0],
        vec![6, 0, 4, 1, 5, 0],
        vec![5, 1, 6, 0, 5, 0],
        vec![5, 0, 6, 1, 2],
        vec![4, 0, 7, 1],
    ]
}

#[test]
fn malformed_under_any_record() {
    for message in malformed_reads() {
        assert_eq!(board().read_by(1, &message), Err(1), "{message:?}");
        for desk in wrong() {
            assert_eq!(desk.read_by(1, &message), Err(1), "{message:?}");
        }
    }
    for message in malformed_others() {
        assert_eq!(board().read_by(1, &message), Err(1), "{message:?}");
        for mut desk in wrong() {
            assert_eq!(desk.ask(1, &message), Answer::STALE, "{message:?}");
        }
    }
    for desk in wrong() {
        assert_eq!(desk.read(5), Err(11));
    }
}

/// Messages of another kind get 1 of a call that only reads, under any idle record.
#[test]
fn other_requests_in_a_read() {
    let mut messages = malformed_others();
    messages.extend([message::put(5, b"x"), message::delete(5), message::commit(), message::log()]);
    for message in messages {
        let answer = |desk: &Desk| Model.read(&desk.image, 2, &desk.record, 0, &message).0;
        assert_eq!(answer(&board()), Answer::MALFORMED);
        for desk in wrong() {
            assert_eq!(answer(&desk), Answer::MALFORMED);
        }
        assert_eq!(answer(&board().forged(|idle| idle.end = 31)), Answer::MALFORMED);
    }
}

/// 4, 10, 5 and 2 come before 1, one after the other.
#[test]
fn what_comes_first() {
    let good = message::read(5);
    let messages = malformed_reads();
    for message in messages.iter().chain([&good]) {
        let mut desk = board();
        desk.image.push(0xFF);
        assert_eq!(desk.read_by(4, message), Err(4));
        let mut desk = board();
        desk.blocks = 1;
        assert_eq!(desk.read_by(4, message), Err(4));
        for mut desk in wrong().into_iter().chain([board()]) {
            assert_eq!(desk.read_by(4, message), Err(10));
            assert_eq!(desk.read_by(255, message), Err(10));
            desk.record = Record::Unmounted;
            assert_eq!(desk.read_by(4, message), Err(10));
            assert_eq!(desk.read_by(3, message), Err(2));
        }
        let mut desk = board();
        assert_eq!(desk.ask(0, &message::put(5, b"x")), Answer::MORE);
        assert_eq!((desk.read_by(4, message), desk.read_by(0, message)), (Err(10), Err(5)));
    }
}

/// 11 comes before 8, and 8 only asks for length and number of blocks.
#[test]
fn no_such_object() {
    let [length, blocks, block, _] = wrong();
    assert_eq!((length.read(6), blocks.read(6), block.read(6)), (Err(11), Err(11), NONE));
    assert_eq!(board().read(6), NONE);
    let mut desk = board();
    desk.image.fill(0);
    assert_eq!((desk.read(6), desk.read(5)), (NONE, Err(11)));
}

/// Any host may read what another has settled.
#[test]
fn of_every_host() {
    for host in 0..=3 {
        assert_eq!(board().read_by(host, &message::read(5)), Ok((23, 2)));
    }
}
