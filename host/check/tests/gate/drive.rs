//! `next`, its flash step and `made` against `step`, and all of them against the definition of a step (`check::forged`); `run`
//! against as many steps. Jobs of every kind and records forged from them, on images of the record's length and of others, of
//! two blocks and of more. `Twin` compares the same on all its runs.

use check::forged;
use check::mend;
use check::rng::Rng;
use check::twin::{Call, Twin};
use library::{Driven, EDITION, JOB, Library, PENDING, PLACES, RECORD_SIZE, Record, STAGES};
use model::edition::Edition;
use std::collections::BTreeMap;
use store::{Answer, Head, Idle, Store, Told, message};

/// An image, how many blocks it is said to have, and a record, whether they belong together or not.
#[derive(Clone, PartialEq)]
struct Board {
    image: Vec<u8>,
    blocks: u8,
    record: Record,
}

/// Where the record says how many blocks there are.
const BLOCKS: usize = 6;

/// One-byte fields of a job by their place in the record, with values on both sides of what is in range: current block and
/// its edition, the first two and the last of the blocks to erase and their number, two flags, block made, length to append,
/// edition made, number of bytes to close, step, length copied and its next byte.
const BYTES: [(usize, &[u8]); 15] = [
    (3, &[0, 0, 1, 1, 2, 15, 16, 255]),
    (EDITION, &[0, 1, 1, 2, 2, 3, 7, 255]),
    (JOB.start, &[0, 1, 2, 15, 16, 255]),
    (JOB.start + 1, &[0, 1, 2, 15, 16, 255]),
    (JOB.start + 15, &[0, 1, 2, 15, 16, 255]),
    (JOB.start + 16, &[0, 1, 2, 3, 15, 16, 17, 255]),
    (JOB.start + 17, &[0, 1, 5]),
    (JOB.start + 18, &[0, 1, 5]),
    (JOB.start + 19, &[0, 0, 1, 1, 2, 15, 16, 255]),
    (JOB.start + 32, &[0, 1, 6, 10, 248, 251, 252, 253, 255]),
    (JOB.start + 33, &[0, 1, 1, 2, 2, 3, 7, 255]),
    (JOB.start + 34, &[0, 0, 1, 2, 3, 4, 5, 255]),
    (JOB.start + 43, &[0, 1, 2, 3, 4, 5, 6, 250, 251, 252, 255]),
    (JOB.start + 50, &[0, 1, 7, 11, 248, 251, 252, 253, 255]),
    (JOB.start + 51, &[0, 1, 6, 10, 250, 251, 252, 254, 255]),
];

/// Two-byte fields: end, what the first and the last host have pending, the places of the objects that the jobs know and of the
/// last one, then in the job each host's mark, the places to close, next offset, next id, next frame to copy.
const WORDS: [usize; 20] = [
    4,
    PENDING.start,
    PENDING.end - 2,
    PLACES.start + 2,
    PLACES.start + 4,
    PLACES.start + 6,
    PLACES.start + 8,
    PLACES.start + 14,
    PLACES.end - 2,
    JOB.start + 24,
    JOB.start + 26,
    JOB.start + 28,
    JOB.start + 30,
    JOB.start + 35,
    JOB.start + 37,
    JOB.start + 39,
    JOB.start + 41,
    JOB.start + 44,
    JOB.start + 46,
    JOB.start + 48,
];

/// A job of each kind on an image of so many blocks, in edition 1 and in edition 2: format, append, commit, append and commit
/// after a transfer, mount with erase and reset, with a closing before the reset, with erase and transfer; between the editions
/// a convert.
fn jobs(blocks: u8, length: usize) -> Vec<Board> {
    let mut twin = Twin::formatted_of(blocks, length);
    assert_eq!(twin.serve(0, &message::put(7, b"both")).0, Answer::DONE);
    assert_eq!(twin.serve(0, &message::commit()).0, Answer::DONE);
    let convert = asked(twin.image(), blocks, &message::convert());
    let mut second = Twin::of_blocks(blocks, twin.image());
    assert_eq!(second.whole(&Call::Mount), (Answer::DONE, 0));
    assert_eq!(second.serve(0, &message::convert()).0, Answer::DONE);
    [jobs_from(twin), vec![convert], jobs_from(second)].concat()
}

/// The image with the job that a request of host 1 begins.
fn asked(image: &[u8], blocks: u8, message: &[u8]) -> Board {
    let library = Library::linked();
    let mut record = library.mount(image, blocks).1;
    assert_eq!(library.request(image, blocks, &mut record, 1, message, &mut []), Answer::MORE);
    Board { image: image.to_vec(), blocks, record }
}

/// The jobs of a store's own edition.
fn jobs_from(mut twin: Twin) -> Vec<Board> {
    let (library, blocks, size) = (Library::linked(), twin.blocks, twin.size());
    let block = |twin: &Twin| usize::from(twin.idle().expect("idle").block);
    let format = library.format(twin.image(), blocks).1;
    let mut jobs = vec![Board { image: twin.image().to_vec(), blocks, record: format }];
    jobs.push(asked(twin.image(), blocks, &message::put(9, &[9; 20])));
    jobs.extend(commits(twin.image(), blocks));
    let (value, start) = (vec![7; (size / 8).min(200)], block(&twin));
    while block(&twin) == start {
        let transfer = asked(twin.image(), blocks, &message::put(2, &value));
        for message in [message::put(1, &value), message::commit(), message::put(2, &value), message::commit()] {
            assert_eq!(twin.serve(1, &message).0, Answer::DONE);
        }
        if block(&twin) != start {
            jobs.push(transfer);
        }
    }
    assert_eq!(twin.serve(3, &message::put(3, b"pending")).0, Answer::DONE);
    let mut image = twin.image().to_vec();
    image[(block(&twin) + 1) % usize::from(blocks) * size + 8] = 0xFE;
    let Idle { end, edition, .. } = twin.idle().expect("idle");
    let (current, end) = (block(&twin) * size, usize::from(end));
    let mut torn = image.clone();
    torn[current + end] = 12;
    let mut full = image.clone();
    mend::stuff(&mut full[current..][..size], end, Edition::ALL[usize::from(edition) - 1]);
    for image in [image, torn, full] {
        let record = library.mount(&image, blocks).1;
        jobs.push(Board { image, blocks, record });
    }
    jobs
}

/// Commits of host 1, which has put an object and deleted one: behind its changes, and where another host's put ends the block.
fn commits(image: &[u8], blocks: u8) -> [Board; 2] {
    let mut twin = Twin::of_blocks(blocks, image);
    assert_eq!(twin.whole(&Call::Mount), (Answer::DONE, 0));
    let serve = |twin: &mut Twin, host, message: &[u8]| assert_eq!(twin.serve(host, message).0, Answer::DONE);
    let commit = |twin: &Twin| {
        let (library, image) = (Library::linked(), twin.image().to_vec());
        let mut record = library.idle(twin.idle().expect("idle"));
        assert_eq!(library.request(&image, blocks, &mut record, 1, &message::commit(), &mut []), Answer::MORE);
        Board { image, blocks, record }
    };
    serve(&mut twin, 1, &message::put(4, b"x"));
    serve(&mut twin, 1, &message::delete(7));
    let short = commit(&twin);
    let frame = |twin: &Twin| Edition::ALL[usize::from(twin.idle().expect("idle").edition) - 1].change();
    let free = |twin: &Twin| twin.size() - usize::from(twin.idle().expect("idle").end);
    while free(&twin) > 120 {
        let value = vec![0; (free(&twin) - 40).min(80)];
        serve(&mut twin, 2, &message::put(3, &value));
        serve(&mut twin, 2, &message::abort());
    }
    let rest = vec![3; free(&twin) - frame(&twin)];
    serve(&mut twin, 3, &message::put(3, &rest));
    assert_eq!(free(&twin), 0);
    [short, commit(&twin)]
}

/// The board with some fields of its record at their limits, in any stage, and now and then other bytes. Where the record
/// says another number of blocks, calls are mostly told that one.
fn forged(rng: &mut Rng, real: &Board) -> Board {
    let Board { image, mut blocks, mut record } = real.clone();
    if rng.once_in(2) {
        record[0] = 2 + rng.below(STAGES.count()) as u8;
    }
    let size = (image.len() / usize::from(blocks)) as u16;
    for (at, bytes) in BYTES {
        if rng.once_in(4) {
            record[at] = rng.pick(bytes);
        }
    }
    for at in WORDS {
        if rng.once_in(4) {
            let words = [0, 1, 16, 255, 256, 257, size.wrapping_sub(1), size, size.wrapping_add(1), 65_535];
            record[at..at + 2].copy_from_slice(&rng.pick(&words).to_le_bytes());
        }
    }
    for _ in 0..rng.pick(&[0, 0, 1, 5]) {
        record[3 + rng.below(RECORD_SIZE - 3)] = rng.byte();
    }
    if rng.once_in(8) {
        record[BLOCKS] = rng.pick(&[0, 1, 2, 3, 5, 16, 17, 255]);
        blocks = if rng.once_in(4) { blocks } else { record[BLOCKS] };
    }
    Board { image, blocks, record }
}

/// How often each stage's next step was told with each answer.
type Seen = BTreeMap<(u8, u8), usize>;

/// What `next` may say beside its answer.
fn check_told(answer: Answer, told: Told, length: usize, blocks: u8) {
    let Told { at, len, byte } = told;
    match answer {
        Answer::PROGRAM => assert!(at < length && len == 1),
        Answer::ERASE => {
            assert_eq!((Some(len), byte), (length.checked_div(usize::from(blocks)), 0xFF));
            assert!((0..usize::from(blocks)).any(|block| at == block * len));
        }
        Answer::DONE | Answer::STALE => assert_eq!(told, Told::default()),
        other => panic!("next answered {other}"),
    }
}

/// A step and, on a copy, the same told, done and made.
fn both_ways(library: &Library, board: &mut Board, seen: &mut Seen) -> Answer {
    let Board { image, blocks, record } = board;
    let (mut flash, mut driven, stage) = (image.clone(), *record, record[0]);
    let (next, told) = library.next_of(image.len(), *blocks, record);
    check_told(next, told, image.len(), *blocks);
    *seen.entry((stage, next.0)).or_default() += 1;
    let (mut defined_image, mut defined) = (image.clone(), *record);
    let answer = library.step(image, *blocks, record);
    assert_eq!(Driven(Library::linked()).step(&mut flash, *blocks, &mut driven), answer);
    assert!(flash == *image && driven == *record, "next and made did other than step, stage {stage}");
    if STAGES.contains(&stage) {
        assert_eq!(forged::step(&mut defined_image, *blocks, &mut defined), answer, "stage {stage}");
        assert!(defined_image == *image && defined == *record, "a step as it should not be, stage {stage}");
    }
    match next {
        Answer::PROGRAM | Answer::ERASE => assert!(!answer.refused()),
        none => assert_eq!(answer, none),
    }
    answer
}

/// Up to so many step calls, and how many flash steps they made.
fn by_steps(library: &Library, board: &mut Board, most: usize) -> (Answer, usize) {
    let Board { image, blocks, record } = board;
    if library.head(record) != Head::Job {
        return (Answer::DONE, 0);
    }
    let mut made = 0;
    while made < most {
        let answer = library.step(image, *blocks, record);
        made += usize::from(!answer.refused());
        if answer != Answer::MORE {
            return (answer, made);
        }
    }
    (Answer::MORE, made)
}

fn run(library: &Library, board: &mut Board, most: usize) -> (Answer, usize) {
    library.run(&mut board.image, board.blocks, &mut board.record, most)
}

/// Runs with budgets around what the job needs, each from the same board; and runs of 7 up to the end.
fn check_runs(library: &Library, board: &Board) {
    let (_, exact) = by_steps(library, &mut board.clone(), usize::MAX);
    for most in [0, 1, 2, 7, exact.saturating_sub(1), exact, exact + 1, usize::MAX] {
        let (mut steps, mut at_once) = (board.clone(), board.clone());
        let expected = by_steps(library, &mut steps, most);
        assert_eq!(run(library, &mut at_once, most), expected, "of at most {most} steps");
        assert!(at_once == steps, "a run of {most} steps did other than {most} steps");
    }
    let (mut whole, mut parts) = (board.clone(), board.clone());
    let (end, _) = run(library, &mut whole, usize::MAX);
    let mut made = 0;
    while let (Answer::MORE, steps) = run(library, &mut parts, 7) {
        assert_eq!(steps, 7);
        made += steps;
    }
    assert!(whole == parts && made <= exact && exact <= made + 7);
    assert_eq!(run(library, &mut parts, 7).0, end);
}

/// Goes on with the job both ways, to its end or so many steps.
fn walk(library: &Library, mut board: Board, most: usize, seen: &mut Seen) {
    for _ in 0..most {
        if both_ways(library, &mut board, seen) != Answer::MORE {
            break;
        }
    }
}

#[test]
fn jobs_of_every_kind() {
    let library = Library::linked();
    let mut seen = Seen::new();
    let two = [(2, 512), (2, 768), (2, 4_096), (2, 65_536), (7, 2_688)];
    for (blocks, length) in two.into_iter().chain((3..=16).map(|blocks| (blocks, 256 * usize::from(blocks)))) {
        for board in jobs(blocks, length) {
            assert_eq!(library.head(&board.record), Head::Job);
            check_runs(&library, &board);
            walk(&library, board, usize::MAX, &mut seen);
        }
    }
    let told = |stage: u8| if [2, 6].contains(&stage) { Answer::ERASE } else { Answer::PROGRAM };
    let expected: Vec<_> = STAGES.map(|stage| (stage, told(stage).0)).collect();
    assert!(seen.keys().copied().eq(expected), "{seen:?}");
}

#[test]
fn forged_records() {
    let library = Library::linked();
    let mut rng = Rng::new(6);
    let mut seen = Seen::new();
    let kinds = [(2, 512, 3_000), (2, 768, 1_000), (2, 65_536, 25), (3, 768, 1_000), (16, 4_096, 500)];
    let more = (4..=15).map(|blocks| (blocks, 256 * usize::from(blocks), 100));
    for (blocks, length, boards) in kinds.into_iter().chain(more) {
        let jobs = jobs(blocks, length);
        for number in 0..boards {
            let mut board = forged(&mut rng, &jobs[number % jobs.len()]);
            if rng.once_in(8) {
                board.image = rng.bytes(length);
            }
            check_runs(&library, &board);
            walk(&library, board, 600, &mut seen);
        }
    }
    for stage in STAGES {
        let step = if [2, 6].contains(&stage) { Answer::ERASE } else { Answer::PROGRAM };
        for answer in [step, Answer::STALE] {
            assert!(seen.contains_key(&(stage, answer.0)), "stage {stage} never told {answer}");
        }
    }
}

/// Images that no mount takes: a job's record may name any length, and the image may have another.
#[test]
fn images_of_other_lengths() {
    let library = Library::linked();
    let mut rng = Rng::new(7);
    let real = jobs(2, 512).swap_remove(4);
    let mut seen = Seen::new();
    for length in [1, 2, 3, 17, 18, 255, 256, 511, 513, 65_535, 65_536] {
        for _ in 0..60 {
            let other = Board { image: rng.bytes(length), ..real.clone() };
            let mut board = forged(&mut rng, &other);
            board.record[1..3].copy_from_slice(&((length - 1) as u16).to_le_bytes());
            check_runs(&library, &board);
            walk(&library, board, 300, &mut seen);
        }
    }
    for length in [0, 1, 256, 510, 511, 513, 514, 768, 65_536, 131_584] {
        let other = Board { image: vec![0xFF; length], ..real.clone() };
        check_stale(&library, &other, &mut seen);
    }
}

/// 11, and nothing changes.
fn check_stale(library: &Library, board: &Board, seen: &mut Seen) {
    let mut after = board.clone();
    assert_eq!(both_ways(library, &mut after, seen), Answer::STALE);
    assert_eq!(run(library, &mut after, 5), (Answer::STALE, 0));
    assert!(after == *board, "11 changed something");
}

/// A job whose calls are told another number of blocks than its record says.
#[test]
fn other_numbers_of_blocks() {
    let library = Library::linked();
    let mut seen = Seen::new();
    for (own, length) in (2..=16).map(|blocks| (blocks, 384 * usize::from(blocks))) {
        for real in jobs(own, length) {
            for blocks in (0..=255).filter(|blocks| *blocks != own) {
                check_stale(&library, &Board { blocks, ..real.clone() }, &mut seen);
            }
        }
    }
    assert!(seen.keys().all(|(_, answer)| *answer == Answer::STALE.0), "{seen:?}");
}

/// The same record tells the same, whatever the flash holds: a driver may ask again after its step, and before it is made.
#[test]
fn next_may_be_asked_again() {
    let library = Library::linked();
    for Board { mut image, blocks, mut record } in jobs(2, 512).into_iter().chain(jobs(3, 768)) {
        while library.head(&record) == Head::Job {
            let (answer, told) = library.next_of(image.len(), blocks, &record);
            library::flash(&mut image, answer, told);
            assert_eq!(library.next_of(image.len(), blocks, &record), (answer, told));
            library::flash(&mut image, answer, told);
            assert!(!library.made_on(&image, blocks, &mut record).refused());
        }
    }
}
