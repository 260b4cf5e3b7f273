//! K11: a dirty mount mends in place. A torn frame is closed, a reset drops what is pending; a transfer is made only where that
//! reset does not fit. Rows f and g are among the rows.

use super::convert::{done, filled, header, idle, serve};
use check::book::Objects;
use check::cuts::{Allowed, Cuts, Start};
use check::side::Stores;
use check::twin::{Call, Twin};
use model::edition::Edition;
use model::frame::{self, Host, Id};
use store::{Answer, Head, Idle, message, places};

const S: usize = 256;

/// An image of so many blocks, all blank but the one with these frames, of this edition and time.
fn image(blocks: u8, current: usize, (edition, time): (Edition, u32), frames: &[&[u8]]) -> Vec<u8> {
    let mut image = vec![0xFF; S * usize::from(blocks)];
    let block = filled(&[&header(edition.number(), time), &frames.concat()], S);
    image[current * S..][..S].copy_from_slice(&block);
    image
}

fn settled(edition: Edition) -> Vec<u8> {
    frame::settled(edition, Id(1), b"kept")
}

/// A change of host 1.
fn change(edition: Edition) -> Vec<u8> {
    frame::delete(edition, Host(1), Id(1))
}

/// A frame of each kind that may be torn.
fn frames(edition: Edition) -> [Vec<u8>; 6] {
    [
        frame::put(edition, Host(2), Id(2), &[0xFF, 0xFE, 0xFF]),
        frame::put(edition, Host(2), Id(2), &[]),
        frame::delete(edition, Host(3), Id(1)),
        frame::commit(edition, Host(1)),
        frame::abort(edition, Host(1)),
        frame::reset(edition),
    ]
}

/// What a reset is, spelt out; the CRC is zlib's.
fn reset(edition: Edition) -> &'static [u8] {
    match edition {
        Edition::First => &[5, 0, 7, 0, 0xFE],
        Edition::Second => &[9, 0, 7, 0, 0x51, 0x06, 0x0D, 0x13, 0xFE],
    }
}

/// The steps that mend a block whose frames end here: those bytes of length, kind and finish byte that are not so already, in
/// this order, then the reset.
fn steps(block: &[u8], end: usize, torn: usize, pending: bool, edition: Edition) -> Vec<(usize, u8)> {
    let mut steps = Vec::new();
    if torn > 0 {
        let closing = [(end + 1, 0), (end + 2, 0), (end + 3, 0), (end + torn - 1, 0xFE)];
        steps.extend(closing.into_iter().filter(|(at, byte)| block[*at] != *byte));
    }
    if pending {
        steps.extend((end + torn..).zip(reset(edition).iter().copied()));
    }
    steps
}

/// Every kind of frame cut after every byte, behind a change that is pending or not, in the last of so many blocks.
#[test]
fn each_step_of_each_mend() {
    for (edition, blocks, pending) in
        Edition::ALL.into_iter().flat_map(|edition| [(edition, 2, true), (edition, 3, false), (edition, 16, true)])
    {
        let current = usize::from(blocks) - 1;
        let before = [settled(edition), if pending { change(edition) } else { vec![] }].concat();
        for (frame, cut) in frames(edition).iter().flat_map(|frame| (0..frame.len()).map(move |cut| (frame, cut)))
        {
            let mut left = image(blocks, current, (edition, 7), &[&before, &frame[..cut]]);
            let (end, torn) = (16 + before.len(), if cut > 0 { frame.len() } else { 0 });
            let expected = steps(&left[current * S..], end, torn, pending, edition);
            assert!(expected.len() <= 4 + 9);
            let mut board = Twin::of_blocks(blocks, &left);
            let answer = board.call(&Call::Mount).answer;
            assert_eq!(answer, if expected.is_empty() { Answer::DONE } else { Answer::MORE });
            for (at, byte) in &expected {
                assert_eq!(board.erases_next(), None);
                assert!(!board.step().refused());
                left[current * S + at] = *byte;
                assert_eq!(board.image(), left, "{cut} bytes of {frame:?}");
            }
            let rest = idle(&board);
            let reset = if pending { reset(edition).len() } else { 0 };
            assert_eq!((usize::from(rest.block), usize::from(rest.end)), (current, end + torn + reset));
            assert_eq!((rest.edition, rest.pending), (edition.number(), [0; 4]));
            assert_eq!((board.ids(), board.whole(&Call::Mount)), (vec![1], done(0)));
        }
    }
}

/// A board on which object 1 is settled and host 1 has a change pending.
fn dirty(edition: Edition, blocks: u8) -> Twin {
    let mut board = Twin::of_blocks(blocks, &image(blocks, 0, (edition, 7), &[&settled(edition)]));
    assert_eq!(board.whole(&Call::Mount), done(0));
    serve(&mut board, 1, &message::delete(1));
    board
}

/// Jobs that write every kind of frame, and a mount, are cut after every step, each recovery likewise, each recovery from those,
/// and each of these is recovered from. A mount in edition 1 has the fewest images: before each byte of the reset 5; while it is
/// closed after the first 3 more, and 5 with the next reset behind it; the same again with that one; and three times the
/// finished one.
#[test]
fn cuts_three_deep() {
    let kept = Objects::from([(1, b"kept".to_vec())]);
    for (edition, blocks) in
        Edition::ALL.into_iter().flat_map(|edition| [2, 3, 16].map(|blocks| (edition, blocks)))
    {
        let board = dirty(edition, blocks);
        let request = |host, message| Call::Request { host, message, reply: 0 };
        let jobs = [
            request(2, message::put(2, &[0xFF, 0xFE])),
            request(2, message::delete(1)),
            request(1, message::commit()),
            request(1, message::abort()),
            Call::Mount,
        ];
        for call in jobs {
            let after = if call == request(1, message::commit()) { Objects::new() } else { kept.clone() };
            let at_rest = if call == Call::Mount { None } else { board.idle() };
            let start = Start { image: board.image(), idle: at_rest, call: &call };
            let mut cuts = Cuts::among(Stores::real(), blocks, board.image().len(), usize::MAX, 0);
            cuts.of_job(&start, Allowed::Exactly(&kept), &after);
            assert!(cuts.cuts >= 5 + 8 + 8 + 3, "{} cuts", cuts.cuts);
            assert_eq!(cuts.inside, 0, "nothing is erased");
        }
    }
}

/// A put of host 3 that is pending and ends here.
fn pending_up_to(edition: Edition, end: usize) -> Vec<u8> {
    let size = end - 16 - settled(edition).len() - edition.change();
    frame::put(edition, Host(3), Id(1), &vec![0; size])
}

/// The reset ends one byte before the block does, where it does, or one byte behind: with nothing torn, and behind a frame that
/// is torn after its first byte or before its last. Only there it is a transfer, and 6 at the last time.
#[test]
fn a_reset_that_just_fits() {
    for edition in Edition::ALL {
        let torn = [vec![], frame::abort(edition, Host(0)), frame::put(edition, Host(0), Id(9), &[9; 30])];
        for (frame, cut) in torn.iter().flat_map(|frame| [(frame, 1), (frame, frame.len().max(1) - 1)]) {
            for ends in [S - 1, S, S + 1] {
                let end = ends - reset(edition).len() - frame.len();
                let (settled, put) = (settled(edition), pending_up_to(edition, end));
                let frames = [&settled[..], &put, &frame[..cut.min(frame.len())]];
                for time in [7, u32::MAX] {
                    just_fits(ends, &image(2, 0, (edition, time), &frames), (edition, time));
                }
            }
        }
    }
}

/// A mount of an image whose reset would end here.
fn just_fits(ends: usize, image: &[u8], (edition, time): (Edition, u32)) {
    let mut board = Twin::new(image);
    let used = 16 + settled(edition).len();
    let (answer, steps) = board.whole(&Call::Mount);
    if ends <= S {
        assert_eq!((answer, idle(&board).block, usize::from(idle(&board).end)), (Answer::DONE, 0, ends));
    } else if time == u32::MAX {
        assert_eq!((answer, board.head(), board.image()), (Answer::WORN, Head::Unmounted, image));
        return;
    } else {
        assert_eq!((answer, steps), done(used - 5));
        assert_eq!((idle(&board).block, usize::from(idle(&board).end)), (1, used));
        let moved = filled(&[&header(edition.number(), time + 1), &settled(edition)], S);
        assert_eq!(board.image(), [vec![0xFF; S], moved].concat());
    }
    assert_eq!((board.ids(), idle(&board).pending), (vec![1], [0; 4]));
}

/// A torn frame up to the block's very end, and nothing pending: it is closed, at the last time too.
#[test]
fn a_torn_frame_at_the_end() {
    for (edition, time) in Edition::ALL.into_iter().flat_map(|edition| [(edition, 7), (edition, u32::MAX)]) {
        let size = S - 16 - settled(edition).len() - edition.change();
        let frame = frame::put(edition, Host(3), Id(1), &vec![3; size]);
        for (cut, closes) in [(1, 4), (2, 3), (3, 3), (4, 2), (frame.len() - 1, 2)] {
            let mut board = Twin::new(&image(2, 0, (edition, time), &[&settled(edition), &frame[..cut]]));
            assert_eq!(board.whole(&Call::Mount), done(closes));
            assert_eq!((idle(&board).block, usize::from(idle(&board).end)), (0, S));
            assert_eq!(board.ids(), [1]);
        }
    }
}

/// Every reset is cut after its first byte, and again, until no further one fits: each is closed in four steps, and what was
/// settled is there all the time. Then a transfer is made.
#[test]
fn resets_that_are_cut_until_the_block_is_full() {
    for edition in Edition::ALL {
        let (settled, change, reset) = (settled(edition), change(edition), reset(edition).len());
        let mut board = Twin::new(&image(2, 0, (edition, 7), &[&settled, &change]));
        let mut end = 16 + settled.len() + change.len();
        while end + 2 * reset <= S {
            assert_eq!(board.call(&Call::Mount).answer, Answer::MORE);
            let closing = board.steps_left() - reset;
            assert!([0, 4].contains(&closing));
            assert_eq!(board.call(&Call::Run(closing + 1)).steps, closing + 1);
            let mut copy = Twin::new(board.image());
            assert_eq!(copy.whole(&Call::Mount), done(4 + reset));
            assert_eq!((usize::from(idle(&copy).end), copy.ids()), (end + 2 * reset, vec![1]));
            end += reset;
        }
        assert_eq!(board.call(&Call::Mount).answer, Answer::MORE);
        board.call(&Call::Run(4 + 1));
        assert_eq!(board.whole(&Call::Mount), done(16 + settled.len() - 5));
        assert_eq!((idle(&board).block, board.ids()), (1, vec![1]));
    }
}

/// What was pending before a mount is gone after it, whoever commits: a change alone, and one whose commit was cut anywhere.
#[test]
fn a_later_commit_picks_up_nothing_old() {
    for (edition, cut) in
        Edition::ALL.into_iter().flat_map(|edition| (0..edition.mark()).map(move |cut| (edition, cut)))
    {
        let mut board = dirty(edition, 2);
        serve(&mut board, 3, &message::put(3, b"old"));
        assert_eq!(board.ask(3, &message::commit()), Answer::MORE);
        board.call(&Call::Run(cut));
        assert_eq!(board.whole(&Call::Mount).0, Answer::DONE);
        for host in 0..4 {
            assert_eq!(board.serve(host, &message::commit()), done(0), "host {host}");
        }
        assert_eq!(board.ids(), [1]);
        for host in [1, 3] {
            serve(&mut board, host, &message::put(4 + host, b"new"));
            serve(&mut board, host, &message::commit());
        }
        assert_eq!((board.ids(), board.value(1)), (vec![1, 5, 7], Some(b"kept".to_vec())));
    }
}

/// Closed frames and resets are in neither U nor C: 16 + 7 + 100 is 123, and a put of 8 + 105 with 6 and 14 more makes 256; in
/// edition 2 it is 127, and 12 + 85 with 10 and 22. Such a put comes with a transfer, which leaves them behind.
#[test]
fn nothing_counts_in_c() {
    for (edition, used, longest) in [(Edition::First, 123, 105), (Edition::Second, 127, 85)] {
        let kept = frame::settled(edition, Id(1), &[1; 100]);
        let (delete, closed) = (change(edition), frame::closed(40));
        let frames = [&kept[..], &delete, &closed, reset(edition), &closed];
        let mut board = Twin::new(&image(2, 0, (edition, 7), &frames));
        assert_eq!(board.whole(&Call::Mount), done(0));
        assert_eq!(board.log()[8..12], [1, 0, used as u8, 0]);
        let put = |size: usize| message::put(2, &vec![2; size]);
        assert_eq!(board.ask(0, &put(longest + 1)), Answer::NO_ROOM);
        assert_eq!(board.serve(0, &put(longest)), done(used - 5 + edition.change() + longest));
        let put = frame::put(edition, Host(0), Id(2), &vec![2; longest]);
        let moved = filled(&[&header(edition.number(), 8), &kept, &put], S);
        assert_eq!(board.image(), [vec![0xFF; S], moved].concat());
    }
}

/// Host 1's changes go over a transfer, and not what was torn between them: a put of its own that was closed, and a reset of
/// others' changes before.
#[test]
fn a_transfer_leaves_them_behind() {
    for edition in Edition::ALL {
        let put = |id: u8, size: usize| frame::put(edition, Host(1), Id(id), &vec![id; size]);
        let (settled, old, first, second) = (settled(edition), put(7, 20), put(2, 10), put(3, 30));
        let mut closed = put(4, 90);
        closed[2] = 0;
        let frames = [&settled[..], &old, reset(edition), &first, &closed, &second];
        let mut board = Twin::new(&image(2, 0, (edition, 7), &frames));
        let (end, pending) = (16 + frames.concat().len(), [0, (first.len() + second.len()) as u16, 0, 0]);
        let (length, number) = (2 * S, edition.number());
        let places = places([(1, 16)]);
        board.forge(Idle { length, block: 0, end: end as u16, blocks: 2, edition: number, pending, places });
        let last = put(5, 40);
        assert!(end + last.len() > S);
        let claimed = 16 + [&settled[..], &first, &second].concat().len();
        assert_eq!(board.serve(1, &message::put(5, &[5; 40])), done(claimed - 5 + last.len()));
        let moved = filled(&[&header(number, 8), &settled, &first, &second, &last], S);
        assert_eq!(board.image(), [vec![0xFF; S], moved].concat());
        serve(&mut board, 1, &message::commit());
        assert_eq!(board.ids(), [1, 2, 3, 5]);
    }
}

/// Blocks that are older, and dirty in every way, are erased, whatever is in them; the current one is mended or is clean.
#[test]
fn older_blocks() {
    for (edition, blocks) in
        Edition::ALL.into_iter().flat_map(|edition| [2, 3, 16].map(|blocks| (edition, blocks)))
    {
        let (settled, change, closed) = (settled(edition), change(edition), frame::closed(20));
        let olds: [&[&[u8]]; 7] = [
            &[&change],
            &[&change[..1]],
            &[&change, &change[..5]],
            &[&closed, &change],
            &[&change, reset(edition)],
            &[&closed[..4]],
            &[&change, reset(edition), &closed[..9]],
        ];
        for (current, mended) in [(&[&settled[..]][..], 0), (&[&settled, &change], reset(edition).len())] {
            for (number, place) in (0..usize::from(blocks)).map(|place| (place % olds.len(), place)) {
                let mut all = image(blocks, place, (edition, 99), current);
                for other in (0..usize::from(blocks)).filter(|other| *other != place) {
                    let old = olds[(number + other) % olds.len()];
                    let block = filled(&[&header(edition.number(), 1 + other as u32), &old.concat()], S);
                    all[other * S..][..S].copy_from_slice(&block);
                }
                let mut board = Twin::of_blocks(blocks, &all);
                assert_eq!(board.whole(&Call::Mount), done(usize::from(blocks) - 1 + mended));
                assert_eq!((usize::from(idle(&board).block), board.ids()), (place, vec![1]));
            }
        }
    }
}
