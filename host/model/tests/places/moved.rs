//! Transfers, mounts and converts: places are those of the block that is then current.

use crate::{Desk, NONE, S, STALE, desk};
use model::edition::Edition::{First, Second};
use model::frame::{self, Host, Id};
use store::{Answer, message};

/// Object 1 put twice and object 2 once, 60 bytes each, each with its commit. Frames end at 238; U is 16 + 67 + 67.
fn full(blocks: u8) -> Desk {
    let mut desk = Desk::formatted(S, blocks);
    for id in [1, 1, 2] {
        desk.puts(0, id, 60);
        desk.does(0, &message::commit());
    }
    assert_eq!(desk.places(), [(1, 90), (2, 164)]);
    desk
}

#[test]
fn a_put_that_transfers() {
    let mut desk = full(2);
    let old = desk.clone();
    assert_eq!(desk.does(1, &message::put(3, &[3; 20])), 150 - 5 + 28);
    assert_eq!((desk.idle().block, desk.idle().end), (1, 178));
    assert_eq!(desk.places(), [(1, 16), (2, 83)]);
    assert_eq!((desk.read(1), desk.read(2), desk.read(3)), (Ok((278, 60)), Ok((345, 60)), NONE));
    for (id, place) in old.places() {
        let stale = desk.forged(|idle| idle.places[id] = place);
        assert_eq!((stale.read(id as u8), stale.log()), (STALE, Answer::STALE), "the old offset");
    }
    assert_eq!(Desk { image: desk.image.clone(), ..old }.read(1), STALE, "the old block");
    desk.does(1, &message::commit());
    assert_eq!((desk.places(), desk.read(3)), (vec![(1, 16), (2, 83), (3, 150)], Ok((413, 20))));
}

#[test]
fn a_delete_that_transfers() {
    let mut desk = full(2);
    desk.puts(0, 3, 7); // to 253
    assert_eq!(desk.does(0, &message::delete(2)), 150 + 15 - 5 + 8);
    assert_eq!(desk.places(), [(1, 16), (2, 83)]);
    desk.does(0, &message::commit());
    assert_eq!((desk.places(), desk.read(2), desk.read(3)), (vec![(1, 16), (3, 150)], NONE, Ok((413, 7))));
}

/// Object 1 settled and changes of two hosts pending, to 252, so that six bytes more need a transfer. Then the settled frame
/// of object 1 stands at 16 and the pending ones behind it: put 2 of host 1 at 83, put 3 of host 0 at 111, delete 1 of host 1 at
/// 131, put 1 of host 0 at 139, and the mark at 171.
fn two_lists() -> Desk {
    let mut desk = Desk::formatted(S, 2);
    for _ in 0..2 {
        desk.puts(0, 1, 60);
        desk.does(0, &message::commit());
    }
    desk.puts(1, 2, 20);
    desk.puts(0, 3, 12);
    desk.does(1, &message::delete(1));
    desk.puts(0, 1, 24);
    assert_eq!((desk.idle().end, desk.places()), (252, vec![(1, 90)]));
    desk
}

#[test]
fn a_commit_that_transfers() {
    let mut desk = two_lists();
    assert_eq!(desk.does(0, &message::commit()), 171 - 5 + 6);
    assert_eq!(desk.places(), [(1, 139), (3, 111)]);
    assert_eq!((desk.read(1), desk.read(2), desk.read(3)), (Ok((402, 24)), NONE, Ok((374, 12))));
    desk.does(1, &message::commit());
    assert_eq!((desk.places(), desk.read(1)), (vec![(2, 83), (3, 111)], NONE));

    let mut desk = two_lists();
    desk.does(1, &message::commit());
    assert_eq!((desk.places(), desk.read(1), desk.read(2)), (vec![(2, 83)], NONE, Ok((346, 20))));
    desk.does(0, &message::commit());
    assert_eq!(desk.places(), [(1, 139), (2, 83), (3, 111)]);
}

#[test]
fn an_abort_that_transfers() {
    let mut desk = two_lists();
    assert_eq!(desk.does(0, &message::abort()), 171 - 5 + 6);
    assert_eq!((desk.places(), desk.read(1), desk.read(3)), (vec![(1, 16)], Ok((278, 60)), NONE));
    desk.does(1, &message::commit());
    assert_eq!((desk.places(), desk.read(1)), (vec![(2, 83)], NONE));
}

/// Three blocks round: the same places in each, counted from the block's start.
#[test]
fn round_three_blocks() {
    let mut desk = full(3);
    for block in [1, 2, 0, 1] {
        while desk.idle().block != block {
            desk.puts(2, 7, 20);
            desk.does(2, &message::abort());
        }
        let start = S * usize::from(block);
        assert_eq!(desk.places(), [(1, 16), (2, 83)]);
        assert_eq!((desk.read(1), desk.read(2)), (Ok((start + 22, 60)), Ok((start + 89, 60))));
    }
}

/// Settled frames of edition 2 are four bytes longer. In its own edition a convert has nothing to do.
#[test]
fn a_convert() {
    let mut desk = Desk::formatted(S, 2);
    for (id, size) in [(9, 1), (5, 2), (0, 0)] {
        desk.puts(0, id, size);
    }
    desk.does(0, &message::commit());
    assert_eq!(desk.places(), [(0, 35), (5, 25), (9, 16)]);
    assert_eq!(desk.does(0, &message::convert()), 16 + 11 + 13 + 12 - 5);
    let places = vec![(0, 16), (5, 27), (9, 40)];
    assert_eq!((desk.idle().edition, desk.places()), (2, places.clone()));
    assert_eq!((desk.read(0), desk.read(5), desk.read(9)), (Ok((278, 0)), Ok((289, 2)), Ok((302, 1))));
    assert_eq!((desk.does(3, &message::convert()), desk.places()), (0, places));
    desk.does(3, &message::put(5, b"new")); // 15 bytes at 52
    desk.does(3, &message::commit());
    assert_eq!((desk.places(), desk.read(5)), (vec![(0, 16), (5, 52), (9, 40)], Ok((315, 3))));
    assert_eq!((desk.mount(), desk.places()), (0, vec![(0, 16), (5, 52), (9, 40)]));
}

/// A mount gives the places of what it finds, without steps.
#[test]
fn a_clean_mount() {
    let mut desk = full(2);
    let before = desk.idle();
    assert_eq!((desk.mount(), desk.idle()), (0, before));
}

/// Object 1 settled at 16, object 2 put behind it and committed; then a delete and a put whose commit is cut after every byte.
/// A mount drops them, and the frames before stay where they are.
#[test]
fn a_mount_that_mends() {
    for edition in [First, Second] {
        let settled = frame::settled(edition, Id(1), b"one");
        let kept = [settled.clone(), frame::put(edition, Host(1), Id(2), b"two"), frame::commit(edition, Host(1))];
        let dropped =
            [frame::delete(edition, Host(0), Id(1)), frame::put(edition, Host(0), Id(2), b"dropped")].concat();
        let last = frame::commit(edition, Host(0));
        let second = 16 + settled.len();
        for cut in 0..last.len() {
            let desk = desk(edition, &[&kept.concat(), &dropped, &last[..cut]]);
            assert_eq!(desk.places(), [(1, 16), (2, second as u16)], "{cut} bytes of the commit");
            assert_eq!((desk.read(1), desk.read(2)), (Ok((22, 3)), Ok((second + 7, 3))));
            assert_eq!((desk.log(), desk.idle().block), (Answer::DONE, 0));
        }
        let desk = desk(edition, &[&kept.concat(), &dropped, &last]);
        assert_eq!(desk.places(), [(2, (second + kept[1].len() + kept[2].len() + edition.change()) as u16)]);
        assert_eq!((desk.read(1), desk.log()), (NONE, Answer::DONE));
    }
}

/// Where its reset has no room a mount transfers: object 2 moves to the next block, behind object 1, and the dropped put of 3
/// has no place.
#[test]
fn a_mount_that_transfers() {
    let mut desk = full(2); // to 238
    desk.puts(0, 3, 6); // to 252
    assert_eq!(desk.mount(), 150 - 5);
    assert_eq!((desk.idle().block, desk.places()), (1, vec![(1, 16), (2, 83)]));
    assert_eq!((desk.read(2), desk.read(3), desk.log()), (Ok((345, 60)), NONE, Answer::DONE));
}

/// The largest block, filled to its last byte: 128 puts of 254 bytes with their commits to 32,528, one of 226 bytes, then an
/// empty put at 32,754.
#[test]
fn the_last_place_of_the_largest_block() {
    let mut desk = Desk::formatted(32_768, 2);
    for size in [240; 128].into_iter().chain([212]) {
        desk.puts(0, 1, size);
        desk.does(0, &message::commit());
    }
    desk.puts(0, 2, 0);
    desk.does(0, &message::commit());
    assert_eq!((desk.idle().end, desk.places()), (32_768, vec![(1, 32_528), (2, 32_754)]));
    assert_eq!((desk.read(1), desk.read(2), desk.log()), (Ok((32_535, 212)), Ok((32_761, 0)), Answer::DONE));
}
