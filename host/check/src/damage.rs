//! Images that a store left, that one might have left, and that none did; and idle records forged for them.

use crate::blocks;
use crate::edition;
use crate::generate::{self, Manner, Wish};
use crate::mend::Due;
use crate::pending;
use crate::places;
use crate::raise;
use crate::rng::Rng;
use crate::side::Modelled;
use crate::twin::{Call, Twin};
use model::block::{self, Block, Journal};
use model::cut;
use model::edition::{Edition, crc};
use model::frame::{self, Host, Id, VALUE_LIMIT};
use store::{Answer, Drive, Idle, Store, message};

/// Tries one image: mounts it, then asks under forged records.
pub fn try_image<M: Modelled, L: Drive, P: Store>(twin: &mut Twin<M, L, P>, rng: &mut Rng, image: &[u8]) {
    twin.load(image);
    mount(twin, image);
    for id in 0..IDS as u8 {
        twin.call(&Call::Read { host: 0, message: message::read(id) });
    }
    ask(twin, rng);
    for idle in forged(rng, image, twin.blocks) {
        twin.load(image);
        twin.forge(idle);
        if twin.ask(0, &message::log()) == Answer::DONE {
            pending::mislead(twin, rng, idle);
            edition::mislead(twin, rng, idle);
            let old = places::any(rng, image, &idle);
            places::mislead(twin, rng, idle, &old);
        }
        read_by_places(twin, rng, idle);
        ask(twin, rng);
        ask(twin, rng);
    }
    if rng.once_in(3) {
        cut_erases(twin, rng, image);
    }
}

/// Reads under a forged record: where its length and number of blocks are the image's, each is told by the place.
fn read_by_places<M: Modelled, L: Drive, P: Store>(twin: &mut Twin<M, L, P>, rng: &mut Rng, idle: Idle) {
    if (idle.length, idle.blocks) == (twin.image().len(), twin.blocks) {
        for id in 0..IDS as u8 {
            places::look_for(twin, rng, &idle, id);
        }
    } else {
        let outcome = twin.call(&Call::Read { host: 0, message: message::read(rng.below(IDS) as u8) });
        assert_eq!(outcome.answer, Answer::STALE, "read under {idle:?}");
    }
}

/// A mount does what the image asks for, in as many steps.
fn mount<M: Modelled, L: Drive, P: Store>(twin: &mut Twin<M, L, P>, image: &[u8]) {
    let (due, (answer, steps)) = (Due::of(image, twin.blocks), twin.whole(&Call::Mount));
    match (answer, due) {
        (Answer::DONE, Some(due)) => {
            let ends = twin.idle().map(|idle| (usize::from(idle.block), usize::from(idle.end)));
            assert_eq!((steps, ends), (due.steps(), Some(due.rest(twin.blocks))), "a mount does something else");
            assert!(steps > 0 || twin.image() == image, "no steps, yet the image changed");
            twin.tally.count_mend(Some(due.mending.name()));
        }
        (Answer::WORN, Some(due)) => assert!(due.worn()),
        _ => assert!([Answer::FOREIGN, Answer::NO_STORE].contains(&answer), "mount answered {answer}"),
    }
}

/// Loses power inside each erase of a mount and of a format, then mounts. In an image that no store left, and after a cut
/// inside a format's erase, a mount may find anything.
fn cut_erases<M: Modelled, L: Drive, P: Store>(twin: &mut Twin<M, L, P>, rng: &mut Rng, image: &[u8]) {
    for call in [Call::Mount, Call::Format] {
        for whole in [0, 1, rng.below(usize::from(twin.blocks))] {
            twin.load(image);
            twin.call(&call);
            to_erase(twin);
            for _ in 0..whole {
                twin.step();
                to_erase(twin);
            }
            if let Some(block) = twin.erases_next() {
                let mask = raise::mask(rng, twin.block(block));
                twin.cut_erase(&mask);
                twin.whole(&Call::Mount);
            }
        }
    }
}

/// Makes the steps before the job's next erase.
fn to_erase<M: Modelled, L: Drive, P: Store>(twin: &mut Twin<M, L, P>) {
    while twin.busy() && twin.erases_next().is_none() {
        twin.step();
    }
}

/// Some request or read, with all its steps.
fn ask<M: Modelled, L: Drive, P: Store>(twin: &mut Twin<M, L, P>, rng: &mut Rng) {
    let manner = Manner::new(rng, twin.size());
    let host = generate::host(rng);
    let wish = manner.wish(rng);
    let odd = rng.once_in(10);
    let message = if odd { generate::odd_message(&manner, rng) } else { wish.message() };
    if matches!(wish, Wish::Read(_)) {
        twin.call(&Call::Read { host, message: message.clone() });
    }
    let reply = rng.pick(&[0, 13, 14, 17]);
    let (answer, steps) = twin.whole(&Call::Request { host, message, reply });
    if !answer.refused() {
        let size = twin.size();
        // an odd message may be a well-formed one of another kind
        let most = if matches!(wish, Wish::Put(..)) && !odd { size - 25 } else { size - 5 };
        assert!(steps <= most, "{steps} steps, {wish:?}, odd: {odd}");
    }
}

/// Idle records for this image: the true ones of some blocks, and some that are not.
fn forged(rng: &mut Rng, image: &[u8], blocks: u8) -> Vec<Idle> {
    let (length, cut) = (image.len(), cut(image, blocks));
    let size = cut[0].len();
    let newest = (0..cut.len()).max_by_key(|block| block::read(cut[*block]).time()).expect("a block");
    let mut records = Vec::new();
    for block in [newest, rng.below(cut.len())] {
        let (end, edition) = match block::read(cut[block]) {
            Block::Valid(journal) => (journal.end, journal.edition.number()),
            _ => (16, 1),
        };
        let near = rng.pick(&[end - 1, end + 1, end + 6, 0, 16, size, size + 1, 65_535]);
        let (pending, places) = (pending::of_block(cut[block]), places::of_block(cut[block]));
        let right = Idle { length, block: block as u8, end: end as u16, blocks, edition, pending, places };
        records.extend([right, Idle { end: near.min(65_535) as u16, ..right }]);
        if rng.once_in(4) {
            records.push(Idle { length: rng.pick(&[length - 1, size, 1, 65_536]), ..right });
            records.push(Idle { block: rng.pick(&[right.block + blocks, blocks, 255]), ..right });
            records.push(Idle { blocks: blocks::other(rng, blocks), ..right });
            records.push(Idle { pending: pending::other(rng, pending), ..right });
            records.push(Idle { edition: edition::other(rng, edition), ..right });
        }
        records.push(Idle { places: places::any(rng, image, &right), ..right });
    }
    records
}

/// An image of so many blocks, each of some kind and most of them blank, then some damage.
pub fn image(rng: &mut Rng, blocks: u8, length: usize) -> Vec<u8> {
    let (number, size) = (usize::from(blocks), length / usize::from(blocks));
    let mut parts = vec![vec![0xFF; size]; number];
    let blank = rng.pick(&[1, 2, 8]);
    for part in &mut parts {
        if rng.once_in(blank) {
            *part = some_block(rng, size);
        }
    }
    parts[rng.below(number)] = some_block(rng, size);
    if rng.once_in(20) {
        parts[rng.below(number)] = parts[rng.below(number)].clone();
    }
    let mut image = parts.concat();
    for _ in 0..rng.pick(&[0, 0, 0, 0, 0, 1, 1, 2]) {
        harm(rng, &mut image, size);
    }
    image
}

fn some_block(rng: &mut Rng, size: usize) -> Vec<u8> {
    match rng.below(12) {
        0 => vec![0xFF; size],
        1 => rng.bytes(size),
        2 => {
            let mut block = if rng.once_in(2) { rng.bytes(size) } else { written_block(rng, size) };
            block[block::STATE] = block::IN_PROGRESS;
            block
        }
        _ => written_block(rng, size),
    }
}

/// What is left free of a block before its last frames.
const SPARE: usize = 80;
/// The ids that are put and deleted: those below this.
const IDS: usize = 6;

/// Header, settled frames, other frames, and a tail: blank, torn, or bytes of no kind.
fn written_block(rng: &mut Rng, size: usize) -> Vec<u8> {
    let some = 1 + rng.below(1_000) as u32;
    let time = rng.pick(&[some, some, 1, 2, 3, 0x0102_0304, u32::MAX - 1, u32::MAX, u32::MAX]);
    let edition = rng.pick(&Edition::ALL);
    // now and then frames of the other edition
    let label = if rng.once_in(30) { rng.pick(&Edition::ALL) } else { edition };
    let mut block = label.label().to_vec();
    block.extend((!time).to_le_bytes());
    block.push(block::VALID);
    block.resize(block::HEADER, 0xFF);
    let limit = rng.pick(&[16, 60, size / 2, size, size]);
    // In a small block one of the longest values leaves no room for anything else.
    let longest = rng.pick(&[30, 64, if size < 512 { 64 } else { VALUE_LIMIT }, VALUE_LIMIT]);
    let settled_until = rng.below(limit.min(size - SPARE));
    let mut id = 0;
    while block.len() < settled_until && id < 256 {
        let most = longest.min(size - edition.settled() - block.len());
        block.extend(settled_frame(rng, edition, id as u8, most));
        id += 1 + rng.below(3);
    }
    while block.len() + SPARE < limit {
        let most = longest.min(limit - edition.change() - block.len());
        block.extend(journal_frame(rng, edition, most));
    }
    let most =
        if rng.once_in(4) { longest } else { longest.min((size - block.len()).saturating_sub(edition.change())) };
    tail(rng, edition, &mut block, size, most);
    block.resize(size, 0xFF);
    block
}

/// A value of at most so many bytes.
fn value(rng: &mut Rng, most: usize) -> Vec<u8> {
    let some = rng.pick(&[0, 1, 2, 10, 30, most.saturating_sub(1), most]);
    let length = if rng.once_in(2) { rng.below(most + 1) } else { some.min(most) };
    generate::value(rng, length)
}

fn settled_frame(rng: &mut Rng, edition: Edition, id: u8, most: usize) -> Vec<u8> {
    frame::settled(edition, Id(id), &value(rng, most))
}

fn journal_frame(rng: &mut Rng, edition: Edition, most: usize) -> Vec<u8> {
    let host = Host(rng.below(4) as u8);
    let id = Id(rng.below(IDS) as u8);
    match rng.below(24) {
        0..=8 => frame::put(edition, host, id, &value(rng, most)),
        9..=11 => frame::delete(edition, host, id),
        12..=16 => frame::commit(edition, host),
        17..=18 => frame::abort(edition, host),
        19 => frame::reset(edition),
        20..=22 => closed_frame(rng, edition, most),
        _ if rng.once_in(10) => settled_frame(rng, edition, id.0, most),
        _ => frame::delete(edition, host, id),
    }
}

/// A closed frame: one that was torn, or one that no store wrote, of any body, and now and then of a length that none has.
fn closed_frame(rng: &mut Rng, edition: Edition, most: usize) -> Vec<u8> {
    let put = frame::put(edition, Host(1), Id(2), &value(rng, most));
    let short = [frame::reset(edition), frame::commit(edition, Host(3)), frame::delete(edition, Host(0), Id(1))];
    let torn = if rng.once_in(2) { &put } else { &short[rng.below(3)] };
    let mut bytes = if rng.once_in(2) { closing(rng, torn) } else { rng.bytes(torn.len()) };
    if rng.once_in(20) {
        bytes.resize(edition.settled(), 0xFF);
    }
    let length = bytes.len();
    bytes[..4].copy_from_slice(&[length as u8, 0, 0, 0]);
    bytes[length - 1] = frame::FINISH;
    bytes
}

/// A frame that was torn, and closed up to some step or by bytes that no closing leaves.
fn closing(rng: &mut Rng, frame: &[u8]) -> Vec<u8> {
    let mut bytes = frame[..1 + rng.below(frame.len() - 1)].to_vec();
    bytes.resize(frame.len(), 0xFF);
    bytes[1..1 + rng.below(4)].fill(0);
    match rng.below(8) {
        0 => bytes[4..frame.len() - 1].fill(rng.byte()),
        1 => bytes[3] = rng.pick(&[0xFF, 0xFE, 0x01]),
        2 => bytes[0] = rng.pick(&[4, 5, 6, 7, 8, 9, 10, 11, 12, 249, 253]),
        3 => bytes[frame.len() - 1] = rng.pick(&[0xFE, 0xFC]),
        _ => {}
    }
    bytes
}

/// The last frame, in part or whole, has a value of at most so many bytes.
fn tail(rng: &mut Rng, edition: Edition, block: &mut Vec<u8>, size: usize, most: usize) {
    let last = journal_frame(rng, edition, most);
    match rng.below(12) {
        0..=1 => block.extend(&last[..rng.below(last.len())]),
        10..=11 => {
            block.extend(closing(rng, &last));
            block.truncate(size);
        }
        2 => {
            let mut torn = last[..rng.below(last.len())].to_vec();
            if let Some(byte) = torn.last_mut() {
                *byte = rng.byte();
            }
            block.extend(torn);
        }
        3 => {
            block.resize(size - rng.below(10).min(size - block.len()), 0xFF);
            block.extend(&last);
            block.truncate(size);
        }
        4 => fill_to(rng, edition, block, size),
        _ => {}
    }
}

/// Frames up to the block's very end or so far that a reset just fits, or one byte more.
fn fill_to(rng: &mut Rng, edition: Edition, block: &mut Vec<u8>, size: usize) {
    let host = Host(rng.below(4) as u8);
    while size - block.len() > VALUE_LIMIT + 2 * edition.change() {
        block.extend(frame::put(edition, host, Id(1), &[0xFF; VALUE_LIMIT]));
        block.extend(frame::commit(edition, host));
    }
    let rest = (size - block.len()).saturating_sub(rng.pick(&[0, 0, edition.reset()]));
    if rest >= edition.change() {
        let value = (rest - edition.change() + rng.below(2)).min(VALUE_LIMIT);
        block.extend(frame::put(edition, host, Id(2), &vec![0xFE; value]));
        block.truncate(size);
    }
}

/// One act of damage to a block of this size, where it is likely to matter.
pub fn harm(rng: &mut Rng, image: &mut [u8], size: usize) {
    let base = rng.below(image.len() / size) * size;
    let at = base + place(rng, &image[base..base + size]);
    match rng.below(8) {
        0 => image[at] ^= 1 << rng.below(8),
        1 => image[at] &= rng.byte(),
        2 => image[at] |= rng.byte(),
        3 => image[at] = image[at].wrapping_add(rng.pick(&[1, 255])),
        4 => {
            image[at] =
                rng.pick(&[0x00, 0x01, 0x04, 0x05, 0x06, 0x07, 0x08, 0x09, 0xF7, 0xF8, 0xF9, 0xFC, 0xFE, 0xFF])
        }
        5 => image[at..base + size].fill(0xFF),
        6 => image[base + block::TIME..base + block::STATE]
            .copy_from_slice(&(!rng.pick(&[0, u32::MAX])).to_le_bytes()),
        _ => image[at] = rng.byte(),
    }
    if rng.once_in(3) {
        reseal(&mut image[base..base + size], at - base);
    }
}

/// Makes the CRC right of the frame that this place is in, if it has one.
fn reseal(block: &mut [u8], place: usize) {
    let mut at = block::HEADER;
    while let Some([low, high, ..]) = block.get(at..)
        && block::edition(block) == Some(Edition::Second)
    {
        let length = usize::from(u16::from_le_bytes([*low, *high]));
        if length < Edition::Second.mark() || at + length > block.len() {
            return;
        }
        if (at..at + length).contains(&place) {
            let sum = crc(&block[at..at + length - 5]).to_le_bytes();
            block[at + length - 5..at + length - 1].copy_from_slice(&sum);
        }
        at += length;
    }
}

/// A place in a block: of the header, of a frame's fields, or any.
fn place(rng: &mut Rng, block: &[u8]) -> usize {
    match block::read(block) {
        _ if rng.once_in(4) => rng.below(16),
        Block::Valid(Journal { frames, .. }) if !frames.is_empty() && !rng.once_in(5) => {
            let place = frames[rng.below(frames.len())].place.clone();
            // the finish byte, with a CRC before it or the value's end; or a field
            let end = place.end - 1 - rng.below(2) * rng.below(5);
            if rng.once_in(3) { end } else { place.start + rng.below(7) }.min(block.len() - 1)
        }
        _ => rng.below(block.len()),
    }
}
