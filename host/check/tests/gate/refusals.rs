//! Each refusal of document 01's table, and that an earlier one goes before a later one.

use check::pending::of_block;
use check::twin::{Call, Outcome, Twin, UNWRITTEN};
use store::{Answer, Head, Idle, Stretch, message};

const LENGTH: usize = 512;

fn formatted() -> Twin {
    Twin::formatted(LENGTH)
}

/// A store whose block has this creation time.
pub fn formatted_at(time: u32) -> Twin {
    let mut twin = formatted();
    let mut image = twin.image().to_vec();
    image[4..8].copy_from_slice(&(!time).to_le_bytes());
    twin.swap_image(&image);
    twin
}

fn in_a_job() -> Twin {
    let mut twin = formatted();
    assert_eq!(twin.ask(0, &message::put(1, b"x")), Answer::MORE);
    twin
}

/// A record of nothing settled or pending.
fn record(length: usize, block: u8, end: u16) -> Idle {
    Idle { length, block, end, blocks: 2, edition: 1, pending: [0; 4], places: [0; 256] }
}

/// A record that the image does not bear out.
fn misplaced() -> Twin {
    let mut twin = formatted();
    twin.forge(record(LENGTH, 0, 17));
    twin
}

const MALFORMED: [u8; 4] = [5, 0, 3, 1];

/// The refusal of a request, which must leave image, record and reply as they are.
fn refusal(twin: &mut Twin, host: u8, message: &[u8], reply: usize) -> Answer {
    let (image, head) = (twin.image().to_vec(), twin.head());
    let outcome = twin.call(&Call::Request { host, message: message.to_vec(), reply });
    assert!(outcome.answer.refused(), "accepted");
    assert_eq!(outcome.reply, vec![UNWRITTEN; reply]);
    assert_eq!((twin.image(), twin.head()), (&image[..], head));
    outcome.answer
}

fn read(twin: &mut Twin, host: u8, message: &[u8]) -> (Answer, Stretch) {
    let Outcome { answer, stretch, .. } = twin.call(&Call::Read { host, message: message.to_vec() });
    (answer, stretch)
}

#[test]
fn image_length_goes_before_all_else() {
    let mut twin = in_a_job();
    twin.swap_image(&[0xFF; 511]);
    assert_eq!(refusal(&mut twin, 4, &MALFORMED, 0), Answer::IMAGE_LENGTH);
    assert_eq!(read(&mut twin, 4, &MALFORMED), (Answer::IMAGE_LENGTH, Stretch::default()));
}

#[test]
fn host_goes_before_job_and_record() {
    for host in [4, 5, 127, 128, 255] {
        for mut twin in [in_a_job(), Twin::blank(LENGTH), misplaced(), formatted()] {
            assert_eq!(refusal(&mut twin, host, &MALFORMED, 0), Answer::HOST_RANGE);
            assert_eq!(read(&mut twin, host, &message::read(1)), (Answer::HOST_RANGE, Stretch::default()));
        }
    }
}

#[test]
fn a_job_in_hand() {
    for message in [message::put(2, b"y"), message::read(1), message::log(), message::commit(), MALFORMED.to_vec()]
    {
        let mut twin = in_a_job();
        assert_eq!(refusal(&mut twin, 1, &message, 0), Answer::BUSY);
        assert_eq!(read(&mut twin, 1, &message), (Answer::BUSY, Stretch::default()));
        assert_eq!(twin.finish(), (Answer::DONE, 9));
    }
}

#[test]
fn unmounted() {
    for message in [message::put(2, b"y"), message::read(1), message::log(), message::commit(), MALFORMED.to_vec()]
    {
        let mut twin = formatted();
        twin.unmount();
        assert_eq!(refusal(&mut twin, 1, &message, 0), Answer::NO_STORE);
        assert_eq!(read(&mut twin, 1, &message), (Answer::NO_STORE, Stretch::default()));
    }
}

#[test]
fn a_record_that_is_not_the_images_goes_before_the_message() {
    let messages = [message::put(2, b"y"), message::log(), message::commit(), MALFORMED.to_vec()];
    let wrong = [
        record(768, 0, 16),
        record(511, 0, 16),
        record(LENGTH, 1, 16),
        record(LENGTH, 2, 16),
        record(LENGTH, 255, 16),
        record(LENGTH, 0, 0),
        record(LENGTH, 0, 15),
        record(LENGTH, 0, 17),
        record(LENGTH, 0, 256),
        record(LENGTH, 0, 257),
        record(LENGTH, 0, 65_535),
    ];
    for idle in wrong {
        for message in &messages {
            let mut twin = formatted();
            twin.forge(idle);
            assert_eq!(refusal(&mut twin, 1, message, 0), Answer::STALE);
            assert_eq!(read(&mut twin, 1, message), (Answer::MALFORMED, Stretch::default()));
        }
    }
}

/// A formatted image with these bytes changed gets 11 under the record that was right for it.
fn changed(changes: &[(usize, u8)]) -> Answer {
    let mut twin = formatted();
    let mut image = twin.image().to_vec();
    for (at, byte) in changes {
        image[*at] = *byte;
    }
    twin.swap_image(&image);
    refusal(&mut twin, 0, &message::commit(), 0)
}

#[test]
fn an_image_that_is_not_the_records() {
    assert_eq!(changed(&[(256 + 255, 0xFE)]), Answer::STALE);
    assert_eq!(changed(&[(256 + 8, 0xFE)]), Answer::STALE);
    assert_eq!(changed(&[(16, 0x06)]), Answer::STALE);
    assert_eq!(changed(&[(200, 0x00)]), Answer::STALE);
    assert_eq!(changed(&[(9, 0x7F)]), Answer::STALE);
    assert_eq!(changed(&[(8, 0xFE)]), Answer::STALE);
    assert_eq!(changed(&[(4, 0xFF)]), Answer::STALE);
    let commit: Vec<(usize, u8)> = (16..).zip([6, 0, 3, 0, 0, 0xFE]).collect();
    assert_eq!(changed(&commit), Answer::STALE);
}

/// No store leaves more pending than commits have room for: C + 6·open is 253 with one host's changes in the
/// first image, 259 with two hosts' in the second.
#[test]
fn an_image_without_room_for_the_commits() {
    for (second_host, expected) in [(0, Answer::MORE), (1, Answer::STALE)] {
        let mut image = formatted().image().to_vec();
        let put = |host: u8, size: usize| {
            [vec![8 + size as u8, 0, 1, 0, host, 1, 0], vec![0; size], vec![0xFE]].concat()
        };
        let frames = [put(0, 64), put(0, 64), put(second_host, 64), put(0, 7)].concat();
        image[16..16 + frames.len()].copy_from_slice(&frames);
        let mut twin = Twin::new(&image);
        let pending = of_block(&image[..LENGTH / 2]);
        twin.forge(Idle { pending, ..record(LENGTH, 0, 16 + frames.len() as u16) });
        assert_eq!(twin.ask(0, &message::commit()), expected);
    }
}

/// Too short for length and kind, or of another length than they say.
fn wrong_lengths() -> Vec<Vec<u8>> {
    let mut wrapped = message::message(message::COMMIT, &[0; 65_536]);
    wrapped[0..2].copy_from_slice(&[4, 0]);
    vec![
        vec![],
        vec![4],
        vec![4, 0],
        vec![4, 0, 3],
        MALFORMED.to_vec(),
        vec![3, 0, 3, 1],
        vec![4, 1, 3, 1],
        vec![4, 0, 3, 2],
        wrapped,
    ]
}

/// Of no kind that there is, or with a body that does not fit the kind.
fn wrong_bodies() -> Vec<Vec<u8>> {
    let with = |kind: u16, body: &[u8]| message::message(kind, body);
    let put = |size: usize| message::put(1, &vec![0; size]);
    vec![
        with(0x0100, &[]),
        with(0x0107, &[]),
        with(0x0301, &[]),
        with(message::PUT, &[]),
        with(message::PUT, &[1]),
        with(message::PUT, &[0, 1]),
        put(241),
        put(242),
        with(message::DELETE, &[1]),
        with(message::DELETE, &[0, 1]),
        with(message::DELETE, &[1, 0, 0]),
        with(message::COMMIT, &[0]),
        with(message::COMMIT, &[0; 256]),
        with(message::ABORT, &[0]),
        with(message::READ, &[1]),
        with(message::READ, &[1, 1]),
        with(message::READ, &[1, 0, 0]),
        with(message::LOG, &[]),
        with(message::LOG, &[0]),
        with(message::LOG, &[2]),
        with(message::LOG, &[1, 0]),
    ]
}

#[test]
fn malformed() {
    for message in [wrong_lengths(), wrong_bodies()].concat() {
        assert_eq!(refusal(&mut formatted(), 0, &message, 0), Answer::MALFORMED, "{message:?}");
        assert_eq!(read(&mut formatted(), 0, &message), (Answer::MALFORMED, Stretch::default()));
    }
}

#[test]
fn read_of_what_is_no_read() {
    for message in [message::put(1, b"x"), message::delete(1), message::commit(), message::abort(), message::log()]
    {
        assert_eq!(read(&mut formatted(), 0, &message), (Answer::MALFORMED, Stretch::default()));
    }
}

#[test]
fn no_such_object() {
    let mut twin = formatted();
    assert_eq!(twin.serve(0, &message::put(1, b"x")), (Answer::DONE, 9));
    assert_eq!(refusal(&mut twin, 0, &message::read(1), 0), Answer::NO_OBJECT);
    assert_eq!(read(&mut twin, 0, &message::read(1)), (Answer::NO_OBJECT, Stretch::default()));
}

#[test]
fn short_reply() {
    for reply in 0..14 {
        assert_eq!(refusal(&mut formatted(), 0, &message::log(), reply), Answer::SHORT_REPLY);
    }
    let outcome = formatted().call(&Call::Request { host: 0, message: message::log(), reply: 16 });
    assert_eq!(outcome.answer, Answer::DONE);
    assert_eq!(outcome.reply[..4], [14, 0, 1, 2]);
    assert_eq!(outcome.reply[14..], [UNWRITTEN; 2]);
}

/// Fills the journal with a put that is aborted again and again, until a frame of 72 bytes no longer fits.
pub fn nearly_full(twin: &mut Twin) {
    while twin.idle().is_some_and(|idle| usize::from(idle.end) + 72 <= LENGTH / 2) {
        assert_eq!(twin.serve(0, &message::put(1, &[1; 40])), (Answer::DONE, 48));
        assert_eq!(twin.serve(0, &message::abort()), (Answer::DONE, 6));
    }
}

#[test]
fn a_transfer_at_the_last_time() {
    let mut twin = formatted_at(u32::MAX);
    nearly_full(&mut twin);
    assert_eq!(refusal(&mut twin, 0, &message::put(1, &[7; 64]), 0), Answer::WORN);
    for id in [1, 2] {
        assert_eq!(twin.serve(0, &message::put(id, &[])), (Answer::DONE, 8));
    }
    let pending = [16, 0, 0, 0];
    assert_eq!(twin.head(), Head::Idle(Idle { pending, ..record(LENGTH, 0, 248) }));
    assert_eq!(twin.serve(0, &message::commit()), (Answer::DONE, 6));
    assert_eq!(refusal(&mut twin, 0, &message::delete(1), 0), Answer::WORN);
    assert_eq!(refusal(&mut twin, 0, &message::put(1, &[7; 64]), 0), Answer::WORN);
    assert_eq!(twin.ask(0, &message::commit()), Answer::DONE);
}

/// Host 0 settles two values of 64 bytes and has a third pending: C is 16 + 2 * 71 + 72 = 230, and frames end at 244.
fn full_at_244(twin: &mut Twin) {
    for message in [message::put(1, &[1; 64]), message::put(2, &[2; 64])] {
        assert_eq!(twin.serve(0, &message), (Answer::DONE, 72));
        assert_eq!(twin.serve(0, &message::commit()), (Answer::DONE, 6));
    }
    assert_eq!(twin.serve(0, &message::put(3, &[3; 64])), (Answer::DONE, 72));
}

#[test]
fn room_goes_before_the_last_time() {
    let mut twin = formatted_at(u32::MAX);
    full_at_244(&mut twin);
    assert_eq!(refusal(&mut twin, 2, &message::put(4, &[7; 64]), 0), Answer::NO_ROOM);
}

#[test]
fn one_before_the_last_time_a_transfer_is_made() {
    let mut twin = formatted_at(u32::MAX - 1);
    nearly_full(&mut twin);
    assert_eq!(twin.serve(0, &message::put(1, &[7; 64])), (Answer::DONE, 11 + 72));
    assert_eq!(twin.log()[4..8], [0xFF; 4]);
    assert_eq!(twin.image()[256 + 4..256 + 8], [0; 4]);
}

pub fn mount_of(first: &[u8], second: &[u8]) -> Answer {
    let mut twin = Twin::new(&[first, second].concat());
    let answer = twin.call(&Call::Mount).answer;
    assert_eq!(twin.head() == Head::Unmounted, answer.refused());
    answer
}

#[test]
fn mount_without_a_store_and_with_a_foreign_block() {
    let blank = [0xFF; 256];
    let valid = formatted().image()[..256].to_vec();
    let newer = formatted_at(2).image()[..256].to_vec();
    let mut in_progress = [0u8; 256];
    in_progress[8] = 0xFE;
    let mut foreign = blank;
    foreign[255] = 0xFE;
    for [first, second] in [[blank, blank], [blank, in_progress], [in_progress, in_progress]] {
        assert_eq!(mount_of(&first, &second), Answer::NO_STORE);
        assert_eq!(mount_of(&second, &first), Answer::NO_STORE);
    }
    for other in [blank, in_progress, foreign] {
        assert_eq!(mount_of(&foreign, &other), Answer::FOREIGN);
        assert_eq!(mount_of(&other, &foreign), Answer::FOREIGN);
    }
    assert_eq!(mount_of(&valid, &foreign), Answer::MORE);
    assert_eq!(mount_of(&foreign, &valid), Answer::MORE);
    assert_eq!(mount_of(&valid, &valid), Answer::FOREIGN);
    assert_eq!(mount_of(&valid, &blank), Answer::DONE);
    assert_eq!(mount_of(&valid, &in_progress), Answer::MORE);
    assert_eq!(mount_of(&valid, &newer), Answer::MORE);
}

#[test]
fn steps_check_only_the_length() {
    let mut twin = in_a_job();
    let image = twin.image().to_vec();
    for other in [0, 1, 256, 511, 513, 768, 65_536] {
        twin.swap_image(&vec![0xFF; other]);
        assert_eq!(twin.step(), Answer::STALE);
        assert!(twin.busy());
        assert_eq!(twin.image(), vec![0xFF; other]);
    }
    twin.swap_image(&image);
    assert_eq!(twin.finish(), (Answer::DONE, 9));
    for length in [0, 511, 512] {
        twin.swap_image(&vec![0; length]);
        assert_eq!(twin.step(), Answer::DONE);
        assert_eq!(twin.image(), vec![0; length]);
    }
}
