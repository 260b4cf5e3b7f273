//! K11: frames closed in place, resets, and the transfer where a reset has no room.

mod reader;

use model::block::{self, Block, HEADER, Journal, VALID};
use model::edition::Edition::{self, First, Second};
use model::frame::{self, Host, Id};
use model::job::Step;
use model::{Model, Record};
use std::collections::HashSet;
use store::{Answer, Head, Idle, Store, message};

/// Bytes of a block; images are of two.
const S: usize = 256;

/// Block 0 with this header and these bytes behind it, then a blank block.
pub fn image(edition: Edition, time: u32, frames: &[&[u8]]) -> Vec<u8> {
    let mut image = [&edition.label()[..], &(!time).to_le_bytes(), &[VALID], &[0xFF; 7]].concat();
    image.extend(frames.concat());
    assert!(image.len() <= S);
    image.resize(2 * S, 0xFF);
    image
}

/// The journal of block 0, which is valid.
pub fn journal(image: &[u8]) -> Journal {
    match block::read(&image[..S]) {
        Block::Valid(journal) => journal,
        other => panic!("block 0 is {other:?}"),
    }
}

/// The steps of an accepted mount, and what its record says at the end.
fn plan(image: &[u8]) -> (Vec<Step>, Idle) {
    let mut steps = Vec::new();
    match Model.mount(image, 2) {
        (Answer::DONE, Record::Idle(idle)) => (steps, idle),
        (Answer::MORE, Record::Job(mut job)) => loop {
            steps.push(job.next());
            if let Some(idle) = job.advance() {
                return (steps, idle);
            }
        },
        (answer, _) => panic!("mount answered {answer}"),
    }
}

/// The image after the mount, how many steps it took and what its record says.
fn mounted(image: &[u8]) -> (Vec<u8>, usize, Idle) {
    let (steps, idle) = plan(image);
    let mut image = image.to_vec();
    steps.iter().for_each(|step| step.make(&mut image));
    (image, steps.len(), idle)
}

/// A record with this object's place, none if it is 0.
fn idle(edition: Edition, block: u8, end: usize, (id, place): (u8, u16)) -> Idle {
    let mut places = [0; 256];
    places[usize::from(id)] = place;
    Idle { length: 2 * S, block, end: end as u16, blocks: 2, edition: edition.number(), pending: [0; 4], places }
}

/// The place of object 1, where its settled frame is the block's first.
const FIRST_FRAME: (u8, u16) = (1, 16);
const NO_PLACE: (u8, u16) = (0, 0);

/// One object settled, one change pending of each of two hosts.
fn before(edition: Edition) -> Vec<u8> {
    let (first, second) = (frame::put(edition, Host(0), Id(7), b"x"), frame::delete(edition, Host(2), Id(1)));
    [frame::settled(edition, Id(1), b"\xFF\xFE"), first, second].concat()
}

/// A frame of each kind that can be torn, also with bytes that look blank or final.
fn frames(edition: Edition) -> Vec<Vec<u8>> {
    vec![
        frame::put(edition, Host(2), Id(9), b"A\xFE\xFF\xFF"),
        frame::put(edition, Host(0), Id(1), b""),
        frame::delete(edition, Host(0), Id(7)),
        frame::commit(edition, Host(2)),
        frame::abort(edition, Host(3)),
        frame::reset(edition),
    ]
}

#[test]
fn rows_f_and_g() {
    let (mut image, mut record) = (vec![0xFF; 2 * S], Record::Unmounted);
    let whole = |image: &mut Vec<u8>, record: &mut Record| Model.run(image, 2, record, usize::MAX);
    record.clone_from(&Model.format(&image, 2).1);
    assert_eq!(whole(&mut image, &mut record), (Answer::DONE, 12));
    Model.request(&image, 2, &mut record, 2, &message::put(5, b"AB"), &mut []);
    assert_eq!(whole(&mut image, &mut record), (Answer::DONE, 10));

    let (left, steps, after) = mounted(&image);
    assert_eq!((steps, after), (5, idle(First, 0, 31, NO_PLACE)));
    assert_eq!(left[26..32], [5, 0, 7, 0, 0xFE, 0xFF]);
    assert_eq!(block::replay(&journal(&left)).objects().count(), 0);

    Model.request(&image, 2, &mut record, 2, &message::commit(), &mut []);
    assert_eq!(Model.run(&mut image, 2, &mut record, 5), (Answer::MORE, 5));
    let (left, steps, after) = mounted(&image);
    assert_eq!((steps, after), (7, idle(First, 0, 37, NO_PLACE)));
    assert_eq!(left[26..38], [6, 0, 0, 0, 2, 0xFE, 5, 0, 7, 0, 0xFE, 0xFF]);
    assert_eq!(block::replay(&journal(&left)).objects().count(), 0);

    assert_eq!(whole(&mut image, &mut record), (Answer::DONE, 1));
    let (left, steps, after) = mounted(&image);
    assert_eq!((left, steps, after), (image, 0, idle(First, 0, 32, (5, 16))));
}

/// The steps by place: length's high byte, kind's low byte, its high byte, the finish byte, then the reset.
#[test]
fn torn_after_each_byte() {
    for (edition, pending) in [(First, true), (First, false), (Second, true), (Second, false)] {
        let before = if pending { before(edition) } else { frame::settled(edition, Id(1), b"v") };
        for frame in frames(edition) {
            let reset = if pending { frame::reset(edition) } else { Vec::new() };
            for cut in 1..frame.len() {
                let image = image(edition, 3, &[&before, &frame[..cut]]);
                assert!(journal(&image).torn);
                let (steps, after) = plan(&image);
                let start = HEADER + before.len();
                let mut places = vec![(start + 1, 0), (start + 2, 0), (start + 3, 0)];
                places.retain(|(at, _)| image[*at] != 0);
                places.push((start + frame.len() - 1, 0xFE));
                places.extend((start + frame.len()..).zip(reset.iter().copied()));
                let expected: Vec<Step> =
                    places.into_iter().map(|(at, byte)| Step::Program { at, byte }).collect();
                assert_eq!(steps, expected, "{cut} of {frame:?}");
                assert_eq!(after, idle(edition, 0, start + frame.len() + reset.len(), FIRST_FRAME));
            }
        }
    }
}

/// Power is lost after every step of the mount, of the mount after that, and so on: each time the settled object alone is
/// there, and the host whose commit was cut finds nothing to commit.
#[test]
fn closing_and_reset_cut_again_and_again() {
    for edition in [First, Second] {
        for frame in frames(edition) {
            let mut seen = HashSet::new();
            let mut images: Vec<Vec<u8>> =
                (0..frame.len()).map(|cut| image(edition, 3, &[&before(edition), &frame[..cut]])).collect();
            for _ in 0..4 {
                images = images.iter().flat_map(|image| cut_everywhere(image)).collect();
                images.retain(|image| seen.insert(image.clone()));
            }
        }
    }
}

/// Judges the mount of this image and gives what it leaves if cut.
fn cut_everywhere(image: &[u8]) -> Vec<Vec<u8>> {
    let (steps, after) = plan(image);
    let (mut images, mut left) = (Vec::new(), image.to_vec());
    for step in steps {
        images.push(left.clone());
        step.make(&mut left);
    }
    assert_eq!((after.block, after.pending), (0, [0; 4]));
    let (read, mut record) = (journal(&left), Record::Idle(after));
    assert_eq!((read.end, read.torn), (usize::from(after.end), false));
    let replay = block::replay(&read);
    let values: Vec<_> = replay.objects().map(|(id, place)| (id, &left[place])).collect();
    assert_eq!(values, [(Id(1), &b"\xFF\xFE"[..])]);
    assert!(replay.pending.is_empty());
    assert_eq!(Model.request(&left, 2, &mut record, 2, &message::commit(), &mut []), Answer::DONE);
    assert_eq!(Model.head(&record), Head::Idle(after));
    assert_eq!(mounted(&left), (left.clone(), 0, after), "a mount after it has nothing to do");
    images
}

/// With just enough room the reset is written, and at the last time too; with one byte less there is a transfer of the settled
/// objects, or 6.
#[test]
fn a_reset_that_does_not_fit() {
    for edition in [First, Second] {
        let torn = frame::delete(edition, Host(0), Id(7));
        for (tail, length) in [(&torn[..0], 0), (&torn[..1], torn.len()), (&torn[..6], torn.len())] {
            for less in [0, 1] {
                let settled = frame::settled(edition, Id(1), b"v");
                let filler =
                    S - HEADER - settled.len() - edition.change() - length - frame::reset(edition).len() + less;
                let put = frame::put(edition, Host(3), Id(1), &vec![0; filler]);
                let at = |time| image(edition, time, &[&settled, &put, tail]);
                let used = HEADER + settled.len();
                let (_, steps, after) = mounted(&at(3));
                if less == 0 {
                    assert_eq!(after, idle(edition, 0, S, FIRST_FRAME));
                    assert_eq!(plan(&at(u32::MAX)), plan(&at(3)));
                } else {
                    assert_eq!((steps, after), (used - 5, idle(edition, 1, used, FIRST_FRAME)));
                    assert_eq!(Model.mount(&at(u32::MAX), 2), (Answer::WORN, Record::Unmounted));
                }
            }
        }
    }
}

/// The torn frame runs to the block's very end, nothing is pending: it is closed, at the last time too.
#[test]
fn a_closed_frame_to_the_end() {
    for edition in [First, Second] {
        let rest = S - HEADER - edition.mark() - edition.change();
        let (abort, torn) = (frame::abort(edition, Host(1)), frame::put(edition, Host(1), Id(1), &vec![0; rest]));
        let (image, steps, after) =
            mounted(&image(edition, u32::MAX, &[&abort, &torn[..S - HEADER - abort.len() - 1]]));
        assert_eq!((steps, after), (2, idle(edition, 0, S, NO_PLACE)));
        assert_eq!(journal(&image).end, S);
    }
}

/// The erases come first; the other block is foreign here.
#[test]
fn erases_come_first() {
    let mut image = image(First, 3, &[&before(First), &[6]]);
    image[2 * S - 1] = 0;
    let (steps, after) = plan(&image);
    assert_eq!(steps[0], Step::Erase { at: S, len: S });
    assert_eq!((steps.len(), after.block), (1 + 4 + 5, 0));
}

/// Closed and reset frames count nothing and are not copied.
#[test]
fn what_a_transfer_leaves_behind() {
    for edition in [First, Second] {
        let (settled, reset) = (frame::settled(edition, Id(1), b"v"), frame::reset(edition));
        let before =
            [&settled[..], &frame::put(edition, Host(0), Id(2), b"w"), &frame::closed(110), &reset].concat();
        let pending = frame::put(edition, Host(1), Id(3), &[0; 60]);
        let mut image = image(edition, 3, &[&before, &pending]);
        let end = HEADER + before.len() + pending.len();
        let pending_bytes = [0, pending.len() as u16, 0, 0];
        let mut record = Record::Idle(Idle { pending: pending_bytes, ..idle(edition, 0, end, FIRST_FRAME) });
        let put = frame::put(edition, Host(1), Id(4), &[5; 40]);
        assert!(end + put.len() > S);
        let answer = Model.request(&image, 2, &mut record, 1, &message::put(4, &[5; 40]), &mut []);
        assert_eq!(answer, Answer::MORE);
        Model.run(&mut image, 2, &mut record, usize::MAX);
        let expected = [settled, pending, put].concat();
        assert_eq!(image[S + HEADER..][..expected.len()], expected);
        assert!(block::blank(&image[S + HEADER + expected.len()..]) && block::blank(&image[..S]));
    }
}
