//! The longest value, the most blocks, the record's layout and the fields' numbers: what the library does, what the header
//! says and what this wrapper knows are one.

use library::{EDITION, JOB, LONGEST, Library, PENDING, PLACES, RECORD_SIZE, Record, VALUE_LIMIT};
use std::fs;
use store::{Answer, Field, Head, Idle, Store, message, places};

const HEADER: &str = concat!(env!("CARGO_MANIFEST_DIR"), "/../../include/grommetide.h");

fn header() -> String {
    fs::read_to_string(HEADER).expect("the header")
}

/// The number that the header defines this name as.
fn defined(name: &str) -> usize {
    let header = header();
    let words = header.lines().map(|line| line.split_whitespace().collect::<Vec<_>>());
    let mut numbers = words.filter_map(|words| match words[..] {
        ["#define", defined, number, ..] if defined == name => Some(number.parse().expect("a number")),
        _ => None,
    });
    numbers.next().expect(name)
}

/// An image of so many blocks of 512 bytes, formatted, and its record.
fn formatted(library: &Library, blocks: u8) -> (Vec<u8>, Record) {
    let mut image = vec![0xFF; usize::from(blocks) * 512];
    let (answer, mut record) = library.format(&image, blocks);
    assert_eq!(answer, Answer::MORE);
    while library.step(&mut image, blocks, &mut record) == Answer::MORE {}
    (image, record)
}

/// What the library answers to a put of a value of this size, and the record after it.
fn put(size: usize) -> (Answer, Record) {
    let library = Library::linked();
    let (image, mut record) = formatted(&library, 2);
    let answer = library.request(&image, 2, &mut record, 2, &message::put(5, &vec![0xA7; size]), &mut []);
    (answer, record)
}

/// `Library::linked` holds `RECORD_SIZE` to what the library itself says.
#[test]
fn the_header_and_the_wrapper_say_the_same() {
    Library::linked();
    assert_eq!(defined("GROMMETIDE_RECORD_BYTES"), RECORD_SIZE);
    assert_eq!(defined("GROMMETIDE_VALUE_MAX"), VALUE_LIMIT);
}

/// The names that the header's enumerations give numbers to, in its order.
fn enumerated() -> Vec<(String, u8)> {
    let header = header();
    let words = header.lines().map(|line| line.split_whitespace().collect::<Vec<_>>());
    let found = words.filter_map(|words| match words[..] {
        [name, "=", number, ..] => Some((name.strip_prefix("GROMMETIDE_")?.to_lowercase(), number)),
        _ => None,
    });
    found.map(|(name, number)| (name, number.trim_end_matches(',').parse().expect("a number"))).collect()
}

/// The header's enumeration has the fields that the wrapper knows, by the same numbers, and no others.
#[test]
fn the_fields_have_the_headers_numbers() {
    let stated: Vec<_> = enumerated()
        .iter()
        .filter_map(|(name, number)| Some((name.strip_prefix("field_")?.to_owned(), *number)))
        .collect();
    assert_eq!(stated, Field::ALL.map(|field| (field.to_string(), field as u8)));
    assert_eq!(Field::ALL.map(|field| Field::numbered(field as u8)), Field::ALL.map(Some));
    assert_eq!([0, 10, 255].map(Field::numbered), [None; 3]);
}

/// The header's answers are those of the laws `wire/Header: AnswersExact` and `edge/Header: NumbersExact`, line by line.
#[test]
fn the_answers_have_the_laws_numbers() {
    let refusals = [
        ("malformed", 1),
        ("no_store", 2),
        ("foreign", 3),
        ("image_length", 4),
        ("busy", 5),
        ("worn", 6),
        ("no_room", 7),
        ("no_object", 8),
        ("short_reply", 9),
        ("host_range", 10),
        ("stale", 11),
        ("host_full", 12),
        ("pending", 16),
    ];
    let others = [("program", 252), ("erase", 253), ("wrong_record", 254), ("more", 255)];
    let stated = enumerated();
    let answers = stated
        .iter()
        .map(|(name, number)| (name.as_str(), *number))
        .filter(|(name, _)| !name.starts_with("field_"));
    assert_eq!(answers.collect::<Vec<_>>(), [&[("done", 0)], &refusals[..], &others[..]].concat());
}

#[test]
fn the_library_takes_two_blocks_up_to_the_headers_number() {
    let (library, most) = (Library::linked(), defined("GROMMETIDE_BLOCKS_MAX"));
    for blocks in 0..=u8::MAX {
        let (answer, _) = library.format(&vec![0xFF; usize::from(blocks) * 256], blocks);
        let allowed = (2..=most).contains(&usize::from(blocks));
        assert_eq!(answer, if allowed { Answer::MORE } else { Answer::IMAGE_LENGTH }, "{blocks} blocks");
    }
}

/// The bytes that anyone may know are where the header says, of edition 1 after a format, and there are zeros after them.
#[test]
fn idle_records_are_what_the_header_says() {
    let library = Library::linked();
    for blocks in 2..=16 {
        let (image, record) = formatted(&library, blocks);
        let (length, pending, places) = (image.len(), [0; 4], places([]));
        let idle = Idle { length, block: 0, end: 16, blocks, edition: 1, pending, places };
        assert_eq!((library.head(&record), record), (Head::Idle(idle), library.idle(idle)));
        let last = ((image.len() - 1) as u16).to_le_bytes();
        assert_eq!(record[..7], [1, last[0], last[1], 0, 16, 0, blocks]);
        assert_eq!((&record[PENDING], record[EDITION]), (&[0; 8][..], 1));
        assert_eq!(record[EDITION + 1..], [0; RECORD_SIZE - EDITION - 1]);
    }
    let header = header();
    for line in [
        "3      current block,",
        "4-5    where the current block's frames end,",
        "6      number of blocks",
        "7-14   pending bytes of hosts 0 to 3, two bytes each",
        "15     edition of the current block, 1 or 2",
        "16-527 places of objects 0 to 255, two bytes each",
    ] {
        assert!(header.contains(&format!(" *     {line}")), "{line}");
    }
}

/// Three objects, the first behind the header; frames of 248, 6 and 52 bytes are in front of the others.
#[test]
fn places_are_where_the_header_says() {
    let library = Library::linked();
    let (mut image, mut record) = formatted(&library, 2);
    let (commit, puts) =
        (message::commit(), [(0, 240), (7, 44), (255, 0)].map(|(id, size)| message::put(id, &vec![7; size])));
    for message in [&puts[0], &commit, &puts[1], &puts[2], &commit] {
        assert_eq!(library.request(&image, 2, &mut record, 1, message, &mut []), Answer::MORE);
        while library.step(&mut image, 2, &mut record) == Answer::MORE {}
    }
    let mut expected = [0; PLACES.end - PLACES.start];
    for (id, place) in [(0, 16_u16), (7, 16 + 248 + 6), (255, 16 + 248 + 6 + 52)] {
        expected[2 * id..2 * id + 2].copy_from_slice(&place.to_le_bytes());
    }
    assert_eq!(record[PLACES], expected);
    assert_eq!(record[PLACES.end..], [0; RECORD_SIZE - PLACES.end]);
    assert_eq!(library.mount(&image, 2), (Answer::DONE, record));
}

/// Each host's pending bytes, low byte first: puts of 240 and 100 bytes make 248 and 108, a delete 8. A mount drops them.
#[test]
fn pending_bytes_are_where_the_header_says() {
    let library = Library::linked();
    let (mut image, mut record) = formatted(&library, 2);
    let (longest, long, delete) = (message::put(5, &[7; 240]), message::put(5, &[7; 100]), message::delete(5));
    for (host, message) in [(3, &longest), (1, &delete), (1, &delete), (0, &long), (3, &delete)] {
        assert_eq!(library.request(&image, 2, &mut record, host, message, &mut []), Answer::MORE);
        while library.step(&mut image, 2, &mut record) == Answer::MORE {}
    }
    assert_eq!(record[PENDING], [108, 0, 16, 0, 0, 0, 0, 1]);
    assert_eq!(record[EDITION + 1..], [0; RECORD_SIZE - EDITION - 1]);
    let (_, mut mounted) = library.mount(&image, 2);
    while library.step(&mut image, 2, &mut mounted) == Answer::MORE {}
    assert_eq!(mounted[PENDING], [0; 8]);
    assert_eq!(library.unmounted(), [0; RECORD_SIZE]);
    // a refused mount gives back an unmounted record, zeros throughout
    assert_eq!(library.mount(&[0xFF; 512], 2), (Answer::NO_STORE, library.unmounted()));
}

#[test]
fn the_library_takes_values_up_to_the_limit() {
    for size in 0..=VALUE_LIMIT {
        assert_eq!(put(size).0, Answer::MORE, "{size} bytes");
    }
    for size in VALUE_LIMIT + 1..=VALUE_LIMIT + 100 {
        assert_eq!(put(size).0, Answer::MALFORMED, "{size} bytes");
    }
}

/// The layout in the header: two frames of the longest value end the record, and a put that is accepted is the second. Of
/// edition 1 it has four bytes less.
#[test]
fn frames_in_hand_are_where_the_header_says() {
    let frame = [&[8 + VALUE_LIMIT as u8, 0, 1, 0, 2, 5, 0][..], &[0xA7; VALUE_LIMIT], &[0xFE]].concat();
    let second = JOB.end + LONGEST;
    assert_eq!(RECORD_SIZE, second + LONGEST);
    assert_eq!(put(VALUE_LIMIT).1[second..second + frame.len()], frame);
    let own = format!("{}-{} the library's own", PLACES.end, RECORD_SIZE - 1);
    let job = format!("{}-{} the job", JOB.start, JOB.end - 1);
    let frames = format!("{}-{} and {second}-{} frames in hand", JOB.end, second - 1, RECORD_SIZE - 1);
    let header = header();
    let line = header.lines().find(|line| line.contains("frames in hand")).expect("the layout");
    for text in [own, job, frames] {
        assert!(line.contains(&text), "{text} is not in {line}");
    }
}
