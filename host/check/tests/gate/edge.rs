//! The edge to C: buffers of wrong sizes, forged records in no job, nothing kept between calls.

use check::rng::Rng;
use library::{Library, PLACES, RECORD_SIZE, Record, UNCOUNTED, UNTOLD};
use store::{Answer, Head, Store, Stretch, Told, message};

const LENGTH: usize = 512;

fn formatted(library: &Library) -> (Vec<u8>, Record) {
    let mut image = vec![0xFF; LENGTH];
    let (answer, mut record) = library.format(&image, 2);
    assert_eq!(answer, Answer::MORE);
    finish(library, &mut image, &mut record);
    (image, record)
}

fn finish(library: &Library, image: &mut [u8], record: &mut Record) {
    while library.step(image, 2, record) == Answer::MORE {}
    assert!(matches!(library.head(record), Head::Idle(_)));
}

#[test]
fn record_buffers_of_another_size() {
    let library = Library::linked();
    let (mut image, _) = formatted(&library);
    let before = image.clone();
    for size in [0, 1, 6, RECORD_SIZE - 1, RECORD_SIZE + 1, 4096] {
        let mut record = vec![1; size];
        let mut reply = [7; 14];
        let answers = [
            library.mount_into(&image, 2, &mut record),
            library.format_into(&image, 2, &mut record),
            library.request_on(&image, 2, &mut record, 0, &message::log(), &mut reply),
            library.step_on(&mut image, 2, &mut record),
            library.read_on(&image, 2, &record, 0, &message::read(1)).0,
        ];
        assert_eq!(answers, [Answer::WRONG_RECORD; 5]);
        assert_eq!(library.next_of(LENGTH, 2, &record), (Answer::WRONG_RECORD, UNTOLD));
        assert_eq!(library.made_on(&image, 2, &mut record), Answer::WRONG_RECORD);
        assert_eq!(library.run_on(&mut image, 2, &mut record, 9), (Answer::WRONG_RECORD, UNCOUNTED));
        assert_eq!((record, reply, &image), (vec![1; size], [7; 14], &before));
    }
}

/// The calls that go on with a job, on a record that has none.
fn no_steps(library: &Library, image: &mut [u8], record: &mut Record) {
    assert_eq!(library.next_of(image.len(), 2, record), (Answer::DONE, Told::default()));
    assert_eq!(library.made_on(image, 2, record), Answer::DONE);
    assert_eq!(library.step(image, 2, record), Answer::DONE);
    for most in [0, 9] {
        assert_eq!(library.run(image, 2, record, most), (Answer::DONE, 0));
    }
}

/// Any first byte from 9 on reads as unmounted, and whatever else the record holds then stays as it is.
#[test]
fn records_of_no_phase() {
    let library = Library::linked();
    let (mut image, _) = formatted(&library);
    let mut rng = Rng::new(1);
    for phase in (9..=255).chain([0]) {
        let mut record: Record = rng.bytes(RECORD_SIZE).try_into().expect("a record's bytes");
        record[0] = phase;
        let (kept, before) = (record, image.clone());
        assert_eq!(library.request(&image, 2, &mut record, 0, &message::log(), &mut [0; 14]), Answer::NO_STORE);
        assert_eq!(library.read(&image, 2, &record, 0, &message::read(1)), (Answer::NO_STORE, Stretch::default()));
        no_steps(&library, &mut image, &mut record);
        assert!(record == kept && image == before, "phase {phase}");
    }
}

/// An idle record's bytes up to its last place decide, whatever the others are.
#[test]
fn idle_records_with_other_bytes_set() {
    let library = Library::linked();
    let (mut image, tidy) = formatted(&library);
    let mut rng = Rng::new(2);
    for _ in 0..100 {
        let mut record: Record = rng.bytes(RECORD_SIZE).try_into().expect("a record's bytes");
        record[..PLACES.end].copy_from_slice(&tidy[..PLACES.end]);
        let kept = record;
        no_steps(&library, &mut image, &mut record);
        assert_eq!(library.request(&image, 2, &mut record, 0, &message::read(1), &mut []), Answer::NO_OBJECT);
        assert!(record == kept);
        assert_eq!(library.request(&image, 2, &mut record, 2, &message::put(5, b"AB"), &mut []), Answer::MORE);
        let mut copy = image.clone();
        finish(&library, &mut copy, &mut record);
        assert_eq!(copy[16..26], [0x0A, 0, 1, 0, 2, 5, 0, 0x41, 0x42, 0xFE]);
    }
}

/// Two boards served in turns do as each does alone.
#[test]
fn nothing_is_kept_between_calls() {
    let library = Library::linked();
    let message = |board: usize, id: u8| message::put(id, &[board as u8; 30]);
    let serve = |boards: &mut [(Vec<u8>, Record)], number: usize, id: u8| {
        let (image, record) = &mut boards[number];
        library.request(image, 2, record, id % 4, &message(number, id), &mut [])
    };
    let mut together = [formatted(&library), formatted(&library)];
    let mut apart = [formatted(&library), formatted(&library)];
    for id in 0..5 {
        assert_eq!(serve(&mut together, 0, id), Answer::MORE);
        assert_eq!(serve(&mut together, 1, id), Answer::MORE);
        for _ in 0..38 {
            together.iter_mut().for_each(|(image, record)| assert!(!library.step(image, 2, record).refused()));
        }
        for number in [0, 1] {
            assert_eq!(serve(&mut apart, number, id), Answer::MORE);
            let (image, record) = &mut apart[number];
            finish(&library, image, record);
        }
    }
    assert!(together == apart);
}
