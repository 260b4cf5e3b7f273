//! Document 01's bench rows: S = 256, each value as the table has it; rows f and g as document 02's K11 has them, i to m as
//! its K7 has them.

use check::twin::{Call, Outcome, Twin, UNWRITTEN};
use store::{Answer, Head, Idle, Stretch, hex, message, places};

const S: usize = 256;

fn bytes(text: &str) -> Vec<u8> {
    hex::parse(text).expect("hex")
}

fn done(steps: usize) -> (Answer, usize) {
    (Answer::DONE, steps)
}

fn after_a() -> Twin {
    Twin::formatted(2 * S)
}

fn after_b() -> Twin {
    let mut twin = after_a();
    assert_eq!(twin.serve(2, &bytes("08 00 01 01 05 00 41 42")), done(10));
    twin
}

fn after_c() -> Twin {
    let mut twin = after_b();
    assert_eq!(twin.serve(2, &bytes("04 00 03 01")), done(6));
    twin
}

/// Row i, the value of id 3 with `last` bytes.
fn after_puts(last: usize) -> Twin {
    let mut twin = after_a();
    for (id, size) in [(1, 64), (2, 64), (3, last)] {
        assert_eq!(twin.serve(0, &message::put(id, &vec![id; size])), done(8 + size));
        assert_eq!(twin.serve(0, &message::commit()), done(6));
    }
    twin
}

/// Where row i's puts of 72 bytes stand, with a commit after each.
const PUTS_OF_I: [(u8, u16); 3] = [(1, 16), (2, 94), (3, 172)];

fn after_i() -> Twin {
    after_puts(64)
}

/// Row l up to its delete.
fn before_l() -> Twin {
    let mut twin = after_i();
    assert_eq!(twin.serve(0, &message::commit()), done(0));
    twin
}

fn empty_put_to_4() -> Vec<u8> {
    message::put(4, &[])
}

/// Nothing is pending, and nothing settled.
fn idle(block: u8, end: u16) -> Head {
    pending(block, end, [0; 4], &[])
}

fn pending(block: u8, end: u16, pending: [u16; 4], settled: &[(u8, u16)]) -> Head {
    let places = places(settled.iter().copied());
    Head::Idle(Idle { length: 2 * S, block, end, blocks: 2, edition: 1, pending, places })
}

/// A block that begins with these bytes and is 0xFF after them.
fn block(start: &str) -> Vec<u8> {
    let mut block = bytes(start);
    block.resize(S, 0xFF);
    block
}

/// Power cut and mount: answer and steps.
fn cut_and_mount(twin: &mut Twin) -> (Answer, usize) {
    let image = twin.image().to_vec();
    twin.load(&image);
    twin.whole(&Call::Mount)
}

const EMPTY: &str = "10 00 01 4A FE FF FF FF FC";
const WITH_B: &str = "10 00 01 4A FE FF FF FF FC FF FF FF FF FF FF FF 0A 00 01 00 02 05 00 41 42 FE";
const WITH_C: &str =
    "10 00 01 4A FE FF FF FF FC FF FF FF FF FF FF FF 0A 00 01 00 02 05 00 41 42 FE 06 00 03 00 02 FE";

#[test]
fn a_format() {
    let mut twin = Twin::blank(2 * S);
    assert_eq!(twin.call(&Call::Format).answer, Answer::MORE);
    for _ in 0..11 {
        assert_eq!(twin.step(), Answer::MORE);
    }
    assert_eq!(twin.step(), Answer::DONE);
    assert_eq!(twin.image(), [block(EMPTY), block("")].concat());
    assert_eq!(twin.head(), idle(0, 16));
}

#[test]
fn b_put() {
    let twin = after_b();
    assert_eq!(twin.image(), [block(WITH_B), block("")].concat());
    assert_eq!(twin.head(), pending(0, 26, [0, 0, 10, 0], &[]));
}

#[test]
fn c_commit() {
    let twin = after_c();
    assert_eq!(twin.image(), [block(WITH_C), block("")].concat());
    assert_eq!(twin.head(), pending(0, 32, [0; 4], &[(5, 16)]));
}

#[test]
fn d_read() {
    let mut twin = after_c();
    let message = bytes("06 00 05 01 05 00");
    let Outcome { answer, stretch, .. } = twin.call(&Call::Read { host: 1, message: message.clone() });
    assert_eq!((answer, stretch), (Answer::DONE, Stretch { at: 23, len: 2 }));
    assert_eq!(twin.ask(1, &message), Answer::DONE);
}

#[test]
fn e_log() {
    let mut twin = after_c();
    let call = Call::Request { host: 3, message: bytes("05 00 06 01 01"), reply: 14 };
    let outcome = twin.call(&call);
    assert_eq!(outcome.answer, Answer::DONE);
    assert_eq!(outcome.reply, bytes("0E 00 01 02 01 00 00 00 01 00 19 00 00 01"));
}

#[test]
fn f_cut_with_a_put_pending() {
    let mut twin = after_b();
    assert_eq!(cut_and_mount(&mut twin), done(5));
    assert_eq!(twin.image(), [block(&format!("{WITH_B} 05 00 07 00 FE")), block("")].concat());
    assert_eq!(twin.head(), idle(0, 31));
    assert_eq!(twin.log()[4..10], [1, 0, 0, 0, 0, 0]);
    assert_eq!(twin.ids(), []);
}

#[test]
fn g_cut_before_the_finish_byte() {
    let mut twin = after_b();
    assert_eq!(twin.ask(2, &message::commit()), Answer::MORE);
    for _ in 0..5 {
        assert_eq!(twin.step(), Answer::MORE);
    }
    assert_eq!(cut_and_mount(&mut twin), done(7));
    let mended = format!("{WITH_B} 06 00 00 00 02 FE 05 00 07 00 FE");
    assert_eq!(twin.image(), [block(&mended), block("")].concat());
    assert_eq!(twin.head(), idle(0, 37));
    assert_eq!(twin.ids(), []);
}

#[test]
fn h_cut_after_the_finish_byte() {
    let mut twin = after_c();
    assert_eq!(cut_and_mount(&mut twin), done(0));
    assert_eq!(twin.ids(), [5]);
    assert_eq!(twin.value(5), Some(b"AB".to_vec()));
}

/// C is 16 and three settled frames of 71 bytes, 229; the puts and commits end at 250. Deletes fit at C = 229, with a transfer,
/// and at 237 (251), not at 245 (259).
#[test]
fn i_three_long_values() {
    let mut twin = after_i();
    assert_eq!(twin.head(), pending(0, 250, [0; 4], &PUTS_OF_I));
    assert_eq!(twin.log()[8..], [3, 0, 229, 0, 0, 1]);
    assert_eq!(twin.serve(0, &message::delete(9)), done(229 - 5 + 8));
    assert_eq!(twin.serve(0, &message::delete(9)), done(8));
    assert_eq!(twin.ask(0, &message::delete(9)), Answer::NO_ROOM);
}

/// Why each put gets a commit: the second would make 144 bytes of 128.
#[test]
fn i_without_commits() {
    let mut twin = after_a();
    assert_eq!(twin.serve(0, &message::put(1, &[1; 64])), done(72));
    assert_eq!(twin.ask(0, &message::put(2, &[2; 64])), Answer::HOST_FULL);
    assert_eq!(twin.head(), pending(0, 88, [72, 0, 0, 0], &[]));
}

#[test]
fn j_no_room() {
    assert_eq!(after_i().ask(0, &empty_put_to_4()), Answer::NO_ROOM);
}

/// 229 + 8 + 6 + 14 is 257.
#[test]
fn k_no_room_by_one_byte() {
    let mut twin = after_i();
    assert_eq!(twin.serve(0, &message::commit()), done(0));
    assert_eq!(twin.ask(0, &empty_put_to_4()), Answer::NO_ROOM);

    let mut twin = after_puts(63);
    assert_eq!(twin.serve(0, &message::commit()), done(0));
    assert_eq!(twin.ask(0, &empty_put_to_4()), Answer::MORE);
}

#[test]
fn l_delete_with_a_transfer() {
    let mut twin = before_l();
    assert_eq!(twin.head(), pending(0, 250, [0; 4], &PUTS_OF_I));
    assert_eq!(twin.serve(0, &message::delete(1)), done(232));
    assert_eq!(twin.head(), pending(1, 237, [8, 0, 0, 0], &[(1, 16), (2, 87), (3, 158)]));
    assert_eq!(twin.serve(0, &message::commit()), done(6));
    assert_eq!(twin.serve(0, &empty_put_to_4()), done(8));
    assert_eq!(twin.head(), pending(1, 251, [8, 0, 0, 0], &[(2, 87), (3, 158)]));

    let settled = |id: u8| [vec![0x47, 0, 5, 0, id, 0], vec![id; 64], vec![0xFE]].concat();
    let header = bytes("10 00 01 4A FD FF FF FF FC FF FF FF FF FF FF FF");
    let changes = bytes("08 00 02 00 00 01 00 FE 06 00 03 00 00 FE 08 00 01 00 00 04 00 FE");
    let mut written = [header, settled(1), settled(2), settled(3), changes].concat();
    written.resize(S, 0xFF);
    assert_eq!(twin.image(), [block(""), written].concat());
}

#[test]
fn m_cut_before_and_after_the_new_block_counts() {
    for cut in [222, 223] {
        let mut twin = before_l();
        assert_eq!(twin.ask(0, &message::delete(1)), Answer::MORE);
        for _ in 0..cut {
            assert_eq!(twin.step(), Answer::MORE);
        }
        assert_eq!(cut_and_mount(&mut twin), done(1));
        assert_eq!(twin.ids(), [1, 2, 3]);
    }
}

#[test]
fn n_wrong_length() {
    assert_eq!(after_a().ask(0, &bytes("05 00 03 01")), Answer::MALFORMED);
}

#[test]
fn o_limits() {
    let put =
        |id: u16, size: usize| message::message(message::PUT, &[&id.to_le_bytes()[..], &vec![7; size]].concat());
    let answer = |host: u8, message: &[u8]| after_a().ask(host, message);
    assert_eq!(answer(0, &put(255, 2)), Answer::MORE);
    assert_eq!(answer(0, &put(256, 2)), Answer::MALFORMED);
    assert_eq!(answer(3, &put(1, 2)), Answer::MORE);
    assert_eq!(answer(4, &put(1, 2)), Answer::HOST_RANGE);
    // at S = 256 the longest value is more than half a block
    assert_eq!(answer(0, &put(1, 240)), Answer::HOST_FULL);
    assert_eq!(answer(0, &put(1, 241)), Answer::MALFORMED);
}

/// The row's value cases as K2 has them, on 1,024 bytes: a frame of 248 bytes from 16 on.
#[test]
fn o_value_limits() {
    let value: Vec<u8> = (0..240).collect();
    let mut twin = Twin::formatted(1_024);
    assert_eq!(twin.ask(0, &message::put(9, &value)), Answer::MORE);
    assert_eq!(twin.finish(), done(248));
    let (pending, places) = ([248, 0, 0, 0], [0; 256]);
    let idle = Idle { length: 1_024, block: 0, end: 264, blocks: 2, edition: 1, pending, places };
    assert_eq!(twin.head(), Head::Idle(idle));
    let frame = [&bytes("F8 00 01 00 00 09 00")[..], &value, &[0xFE]].concat();
    assert_eq!(twin.image()[16..264], frame);

    let (image, head) = (twin.image().to_vec(), twin.head());
    let message = message::put(9, &[7; 241]);
    assert_eq!(message[..2], [0xF7, 0]);
    let outcome = twin.call(&Call::Request { host: 0, message, reply: 14 });
    assert_eq!(outcome.answer, Answer::MALFORMED);
    assert_eq!(outcome.reply, [UNWRITTEN; 14]);
    assert_eq!((twin.image(), twin.head()), (&image[..], head));
}

#[test]
fn p_image_lengths() {
    for length in [512, 768, 65_536] {
        assert_eq!(Twin::blank(length).call(&Call::Format).answer, Answer::MORE);
        assert_eq!(Twin::blank(length).call(&Call::Mount).answer, Answer::NO_STORE);
    }
    for length in [0, 1, 256, 511, 513, 640, 65_535, 65_537, 65_792, 131_072] {
        for call in [Call::Format, Call::Mount] {
            let mut twin = Twin::blank(length);
            assert_eq!(twin.call(&call).answer, Answer::IMAGE_LENGTH);
            assert_eq!(twin.head(), Head::Unmounted);
        }
    }
}
