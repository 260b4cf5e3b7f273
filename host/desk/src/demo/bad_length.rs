//! Ticket 1: a log request with a bad length.

use super::{BLOCKS, Checked, formatted, found, read, serve};
use crate::board::Board;
use crate::picture::picture;
use crate::say::grouped;
use std::io::{self, Write};
use store::{Answer, Store, hex, message};

/// Host 2's log request: five bytes that say they are six.
const BAD: [u8; 5] = [6, 0, 6, 1, 1];

pub fn tell<S: Store>(store: &S, checked: &mut Checked, out: &mut impl Write) -> io::Result<()> {
    writeln!(out, "TICKET 1: one host sends a log request with a bad length\n")?;
    writeln!(out, "What used to happen: the board sat on the bad request, and the other three")?;
    writeln!(out, "hosts could not reach their drives.\n")?;
    let mut board = formatted(store);
    serve(&mut board, 0, &message::put(5, b"AB"));
    writeln!(
        out,
        "Host 0 has put object 5 = \"AB\" and not yet committed it:\n\n{}",
        picture(&board.image, BLOCKS)
    )?;

    assert_eq!(refuse(&mut board, &BAD), Answer::MALFORMED);
    writeln!(out, "Host 2 asks for log page 1 with {}: five bytes that say they are six.", hex::show(&BAD))?;
    writeln!(out, "  Answer 1, malformed. Image, board record and reply buffer are as they were.")?;
    checked.bad_lengths += refuse_every_length(&mut board);
    writeln!(out, "  So with each of the other {} wrong lengths.\n", grouped(checked.bad_lengths - 1))?;

    let steps = commit_disturbed(&mut board);
    checked.disturbed_steps += steps;
    writeln!(out, "Host 0 commits. Host 2 sends its bad request again before each of the {steps} steps.")?;
    writeln!(out, "  Answer 5 each time, a job is unfinished; the commit ends as it does alone.\n")?;
    others_go_on(&mut board, checked, out)?;
    writeln!(out, "{}", picture(&board.image, BLOCKS))
}

fn others_go_on<S: Store>(board: &mut Board<S>, checked: &mut Checked, out: &mut impl Write) -> io::Result<()> {
    serve(board, 1, &message::put(6, b"CD"));
    serve(board, 1, &message::commit());
    writeln!(out, "Host 1 puts and commits object 6 = \"CD\".")?;
    let (five, six) = (read(board, 3, 5, checked), read(board, 3, 6, checked));
    assert_eq!((five.as_deref(), six.as_deref()), (Some(&b"AB"[..]), Some(&b"CD"[..])));
    writeln!(out, "Host 3 reads both objects: {}, {}.", found(5, &five), found(6, &six))?;
    let mut page = [0; message::PAGE];
    assert_eq!(board.request(2, &message::log(), &mut page), Answer::DONE);
    writeln!(out, "Host 2 asks rightly and gets its page: {} settled objects.\n", page[8])
}

/// A refused request of host 2: image, record and reply must be as they were.
fn refuse<S: Store>(board: &mut Board<S>, message: &[u8]) -> Answer {
    let (image, record) = (board.image.clone(), board.record.clone());
    let mut reply = [0x5A; 20];
    let answer = board.request(2, message, &mut reply);
    assert!(board.image == image && board.record == record && reply == [0x5A; 20]);
    answer
}

/// The log request with every length but the right one.
fn refuse_every_length<S: Store>(board: &mut Board<S>) -> usize {
    let mut refused = 0;
    for length in (0..=u16::MAX).filter(|length| *length != 5) {
        let mut message = message::log();
        message[..2].copy_from_slice(&length.to_le_bytes());
        assert_eq!(refuse(board, &message), Answer::MALFORMED);
        refused += 1;
    }
    refused
}

/// Host 0's commit with a bad request before each step: its steps, after which the image is as without them.
fn commit_disturbed<S: Store>(board: &mut Board<S>) -> usize {
    let mut alone = Board {
        store: board.store,
        image: board.image.clone(),
        blocks: board.blocks,
        record: board.record.clone(),
    };
    serve(&mut alone, 0, &message::commit());
    assert_eq!(board.request(0, &message::commit(), &mut []), Answer::MORE);
    let mut steps = 0;
    loop {
        assert_eq!(refuse(board, &BAD), Answer::BUSY);
        steps += 1;
        if board.step() == Answer::DONE {
            break;
        }
    }
    assert!(board.image == alone.image && board.record == alone.record);
    steps
}
