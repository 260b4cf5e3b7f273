//! Forged jobs: each step does what the definition says (`check::forged`), at most one flash step a call, and the job ends or
//! gets 11 within 65,536 step calls, whatever the number of blocks.

use check::forged;
use check::mend;
use check::rng::Rng;
use check::twin::{Call, Twin};
use library::{JOB, Library, RECORD_SIZE, Record, STAGES};
use model::edition::Edition::First;
use store::{Answer, Head, Store, message};

/// Whether one flash step, or none, leads from `before` to `after`, of blocks of this size.
fn at_most_one_step(before: &[u8], after: &[u8], size: usize) -> bool {
    let changed: Vec<usize> = (0..before.len()).filter(|at| before[*at] != after[*at]).collect();
    match changed[..] {
        [] => true,
        [at] if after[at] & !before[at] == 0 => true,
        [first, ..] => {
            let block = first / size * size..first / size * size + size;
            changed.iter().all(|at| block.contains(at)) && after[block].iter().all(|byte| *byte == 0xFF)
        }
    }
}

/// A job's record with bytes changed, or one of random bytes.
fn forged_job(rng: &mut Rng, real: &Record) -> Record {
    let mut record = *real;
    if rng.once_in(3) {
        record = rng.bytes(RECORD_SIZE).try_into().expect("a record's bytes");
        record[1..3].copy_from_slice(&real[1..3]);
        record[6] = real[6];
    }
    for _ in 0..rng.below(6) {
        let at = if rng.once_in(2) { rng.below(RECORD_SIZE) } else { JOB.start + rng.below(JOB.len()) };
        record[at] = rng.byte();
    }
    record[0] = 2 + rng.below(STAGES.count()) as u8;
    record
}

/// All steps of a job, each beside the defined one; how it ended.
fn run_forged(library: &Library, image: &mut [u8], blocks: u8, record: &mut Record) -> Answer {
    let size = image.len() / usize::from(blocks);
    for _ in 0..65_536 {
        let (before, kept) = (image.to_vec(), *record);
        let (mut defined_image, mut defined) = (before.clone(), kept);
        let answer = library.step(image, blocks, record);
        assert_eq!(answer, forged::step(&mut defined_image, blocks, &mut defined));
        assert!(defined_image == image && defined == *record, "a step as it should not be, stage {}", kept[0]);
        assert!(at_most_one_step(&before, image, size), "more than a step");
        match answer {
            Answer::MORE => assert_eq!(library.head(record), Head::Job),
            Answer::DONE => {
                assert_ne!(library.head(record), Head::Job);
                return answer;
            }
            Answer::STALE => {
                assert!(before == image && kept == *record, "11 changed something");
                return answer;
            }
            other => panic!("a step answered {other}"),
        }
    }
    panic!("no end within 65,536 steps");
}

#[test]
fn forged_jobs() {
    let library = Library::linked();
    let mut rng = Rng::new(3);
    for blocks in 2..=16 {
        let mut twin = Twin::formatted_of(blocks, 256 * usize::from(blocks));
        for id in 0..4 {
            assert_eq!(twin.serve(0, &message::put(id, &[id; 20])).0, Answer::DONE);
            assert_eq!(twin.serve(0, &message::commit()).0, Answer::DONE);
        }
        let image = twin.image().to_vec();
        let mut ends = [0, 0];
        for _ in 0..if blocks == 2 { 3_000 } else { 200 } {
            let (mut copy, mut record) = (image.clone(), library.mount(&image, blocks).1);
            let message = if rng.once_in(2) { message::put(9, &[9; 20]) } else { message::delete(1) };
            assert_eq!(library.request(&copy, blocks, &mut record, 1, &message, &mut []), Answer::MORE);
            let mut record = forged_job(&mut rng, &record);
            let busy = library.request(&copy, blocks, &mut record, 0, &message::log(), &mut [0; 14]);
            assert_eq!(busy, Answer::BUSY);
            let end = run_forged(&library, &mut copy, blocks, &mut record);
            ends[usize::from(end == Answer::STALE)] += 1;
        }
        assert!(ends[0] > 0 && ends[1] > 0, "done and 11: {ends:?}");
    }
}

/// The largest block that so many allow.
fn largest(blocks: u8) -> usize {
    65_536 / usize::from(blocks) / 128 * 128
}

/// Forged jobs on the largest images, each number of blocks: how a run of 65,536 steps ends.
fn end_in_time(run: impl Fn(&Library, &mut [u8], u8, &mut Record) -> Answer) {
    let library = Library::linked();
    let mut rng = Rng::new(5);
    for blocks in 2..=16 {
        let mut image = vec![0xFF; largest(blocks) * usize::from(blocks)];
        let real = library.format(&image, blocks).1;
        for _ in 0..60 {
            let mut record = forged_job(&mut rng, &real);
            let end = run(&library, &mut image, blocks, &mut record);
            assert!([Answer::DONE, Answer::STALE].contains(&end), "no end within 65,536 steps, {blocks} blocks");
        }
    }
}

#[test]
fn forged_jobs_on_the_largest_images_end_in_time() {
    end_in_time(|library, image, blocks, record| library.run(image, blocks, record, 65_536).0);
}

/// With eleven blocks no job ever ends.
#[test]
#[should_panic(expected = "no end within 65,536 steps, 11 blocks")]
fn jobs_without_an_end() {
    end_in_time(|library, image, blocks, record| match library.run(image, blocks, record, 65_536) {
        (Answer::DONE, _) if blocks == 11 => Answer::MORE,
        (end, _) => end,
    });
}

/// The header of a block at time 1.
const HEADER: [u8; 16] = *b"\x10\0\x01\x4A\xFE\xFF\xFF\xFF\xFC\xFF\xFF\xFF\xFF\xFF\xFF\xFF";

/// A mount's job with 255 erases first and 255 bytes to append: 255 erases, five writes, the frames of 256 objects, five
/// writes, the erase of the old block, 255 bytes of which the last three are in no frame. Closed frames leave no room for a
/// reset.
#[test]
fn the_longest_jobs() {
    let library = Library::linked();
    for blocks in 2..=16 {
        let (number, size) = (usize::from(blocks), largest(blocks));
        let value = ((size - 16 - 8 - 255) / 256 - 7).min(50);
        let settled =
            (0..=255).flat_map(|id| [&[7 + value as u8, 0, 5, 0, id, 0][..], &vec![id; value], &[0xFE]].concat());
        let pending = [8, 0, 2, 0, 1, 5, 0, 0xFE];
        let mut current: Vec<u8> = HEADER.into_iter().chain(settled).chain(pending).collect();
        let end = current.len();
        current.resize(size, 0xFF);
        mend::stuff(&mut current, end, First);
        let mut image = vec![0xFF; number * size];
        image[size..2 * size].copy_from_slice(&current);
        let (answer, mut record) = library.mount(&image, blocks);
        assert_eq!(answer, Answer::MORE);
        // the blocks to erase, their number, the length to append, by their places in the record
        let target = record[JOB.start + 19];
        assert_eq!(usize::from(target), 2 % number);
        record[0] = 2;
        record[JOB.start..JOB.start + 16].fill(target);
        (record[JOB.start + 16], record[JOB.start + 32]) = (255, 255);
        let steps = 255 + 5 + 256 * (7 + value) + 5 + 1 + 255;
        assert_eq!(library.run(&mut image, blocks, &mut record, 65_536), (Answer::DONE, steps), "{blocks} blocks");
        assert_eq!(
            library.head(&record),
            Head::Idle(store::Idle {
                length: number * size,
                block: target,
                end: (16 + 256 * (7 + value) + 255) as u16,
                blocks,
                edition: 1,
                pending: [0; 4],
                places: store::places((0..=255).map(|id| (id, 16 + u16::from(id) * (7 + value as u16)))),
            })
        );
    }
}

/// A mount's job that closes a frame torn at 24 and appends a reset, with 255 erases first, 255 bytes to close and 255 to append.
/// Past the list's sixteen block 0 is erased. The fifth byte to close and those after it are at offset 0.
#[test]
fn the_longest_mends() {
    let library = Library::linked();
    for blocks in 2..=16 {
        let size = largest(blocks);
        let mut image = [&HEADER[..], &[8, 0, 2, 0, 1, 5, 0, 0xFE, 20]].concat();
        image.resize(usize::from(blocks) * size, 0xFF);
        let (answer, mut record) = library.mount(&image, blocks);
        assert_eq!((answer, record[0]), (Answer::MORE, *STAGES.end()));
        // the blocks to erase, their number, the length to append, the bytes to close, by their places in the record
        let plan = &mut record[JOB];
        assert_eq!((plan[32], plan[34], &plan[35..43]), (5, 4, &[25, 0, 26, 0, 27, 0, 43, 0][..]));
        plan[..16].fill(1);
        (plan[16], plan[32], plan[34]) = (255, 255, 255);
        record[0] = 2;
        assert_eq!(
            library.run(&mut image, blocks, &mut record, 65_536),
            (Answer::DONE, 3 * 255),
            "{blocks} blocks"
        );
        assert_eq!((image[0], &image[24..28], image[43]), (0, &[0xFF, 0, 0, 0][..], 0));
        let Head::Idle(idle) = library.head(&record) else { panic!("idle") };
        assert_eq!((idle.block, idle.end, idle.pending), (0, 44 + 255, [0; 4]));
    }
}

/// A job under another image of its length: the same bounds hold.
#[test]
fn a_job_under_another_image() {
    let library = Library::linked();
    let mut rng = Rng::new(4);
    for blocks in 2..=16 {
        let length = 256 * usize::from(blocks);
        let real = Twin::formatted_of(blocks, length);
        for _ in 0..40 {
            let mut record = library.mount(real.image(), blocks).1;
            let put = message::put(1, b"x");
            assert_eq!(library.request(real.image(), blocks, &mut record, 1, &put, &mut []), Answer::MORE);
            run_forged(&library, &mut rng.bytes(length), blocks, &mut record);
        }
    }
}

/// The image with these bytes in block 0, the rest blank.
fn starting(start: &[u8], length: usize) -> Vec<u8> {
    let mut image = start.to_vec();
    image.resize(length, 0xFF);
    image
}

/// A format, an append and a mount that mends read nothing: under any other image of their length, library, model and plain go on alike, with the
/// bytes that are left. The record is then not the image's.
#[test]
fn jobs_that_read_nothing_go_on_under_another_image() {
    let mut rng = Rng::new(8);
    for blocks in 2..=16 {
        let length = 256 * usize::from(blocks);
        let erases = usize::from(blocks);
        let mut twin = Twin::of_blocks(blocks, &vec![0xFF; length]);
        assert_eq!(twin.call(&Call::Format).answer, Answer::MORE);
        twin.swap_image(&rng.bytes(length));
        assert_eq!(twin.finish(), (Answer::DONE, erases + 10));
        assert_eq!(twin.image(), starting(b"\x10\0\x01\x4A\xFE\xFF\xFF\xFF\xFC", length));

        assert_eq!(twin.call(&Call::Format).answer, Answer::MORE);
        // the erases, byte 8, bytes 0 and 1
        assert_eq!(twin.call(&Call::Run(erases + 3)).answer, Answer::MORE);
        twin.swap_image(&vec![0xFF; length]);
        assert_eq!(twin.finish(), (Answer::DONE, 7));
        assert_eq!(twin.image(), starting(b"\xFF\xFF\x01\x4A\xFE\xFF\xFF\xFF\xFC", length));
        assert_eq!(twin.ask(0, &message::log()), Answer::STALE);

        let mut twin = Twin::formatted_of(blocks, length);
        assert_eq!(twin.ask(2, &message::put(5, b"AB")), Answer::MORE);
        assert_eq!(twin.call(&Call::Run(3)).answer, Answer::MORE);
        twin.swap_image(&vec![0xFF; length]);
        assert_eq!(twin.finish(), (Answer::DONE, 7));
        assert_eq!(twin.image(), starting(&[&[0xFF; 19][..], b"\0\x02\x05\0AB\xFE"].concat(), length));
        assert_eq!(twin.ask(2, &message::commit()), Answer::STALE);

        let torn = starting(&[&HEADER[..], b"\x08\0\x02\0\x01\x05\0\xFE\x08\0\x02"].concat(), length);
        let mut twin = Twin::of_blocks(blocks, &torn);
        assert_eq!(twin.call(&Call::Mount).answer, Answer::MORE);
        assert_eq!(twin.step(), Answer::MORE);
        twin.swap_image(&vec![0xFF; length]);
        // the kind's high byte, the finish byte and the reset
        assert_eq!(twin.finish(), (Answer::DONE, 2 + 5));
        let left = [&[0xFF; 27][..], b"\0\xFF\xFF\xFF\xFE\x05\0\x07\0\xFE"].concat();
        assert_eq!(twin.image(), starting(&left, length));
        assert_eq!(twin.ask(2, &message::commit()), Answer::STALE);
    }
}
