//! K4: power lost inside an erase of a transfer or mount. Each bit of the block is then as it was or 1.

use check::book::{Lists, Objects, found};
use check::cuts::newest;
use check::damage;
use check::raise::{mask, zeros};
use check::rng::Rng;
use check::twin::{Call, Twin};
use model::block::{self, Block};
use model::block_of;
use store::{Answer, Head, Idle, message};

const LENGTH: usize = 512;
const S: usize = LENGTH / 2;
/// Where the state byte stands, and the inverted time.
const STATE: usize = 8;
const TIME: std::ops::Range<usize> = 4..8;

/// An image before an erase, and what a mount must find after a cut inside it.
pub struct Scene {
    image: Vec<u8>,
    /// The block to be erased.
    block: usize,
    objects: Objects,
    /// The time of the block that stays.
    time: u32,
    /// Steps of the mount after its erase: a reset or a transfer if the block that stays is dirty.
    rest: usize,
    /// Whether it is a transfer.
    moves: bool,
}

/// A transfer of the settled objects, U - 5, and a reset.
const TRANSFER: usize = 30;
const RESET: usize = 5;

impl Scene {
    fn now(twin: &Twin, time: u32, rest: usize) -> Scene {
        let block = twin.erases_next().expect("the next step is an erase");
        let objects = [(7, b"seven".to_vec()), (9, vec![])].into();
        Scene { image: twin.image().to_vec(), block, objects, time, rest, moves: rest == TRANSFER }
    }

    fn erased(&self) -> &[u8] {
        block_of(&self.image, 2, self.block)
    }

    pub fn raised(&self, mask: &[u8]) -> Vec<u8> {
        let mut image = self.image.clone();
        for (byte, bits) in image[self.block * S..][..S].iter_mut().zip(mask) {
            *byte |= bits;
        }
        image
    }

    /// Mounts what the cut left: the block is erased unless it is blank, and the block that stays counts.
    fn mount(&self, twin: &mut Twin, mask: &[u8]) {
        let image = self.raised(mask);
        assert_eq!(newest(&image, 2), Some(self.time), "the block that was being erased looks newer");
        twin.load(&image);
        let blank = block_of(&image, 2, self.block).iter().all(|byte| *byte == 0xFF);
        let steps = usize::from(!blank) + self.rest;
        assert_eq!(twin.call(&Call::Mount).answer, if steps == 0 { Answer::DONE } else { Answer::MORE });
        if !blank {
            assert_eq!(twin.erases_next(), Some(self.block));
        }
        assert_eq!(twin.finish(), (Answer::DONE, steps));
        self.judge(twin);
    }

    fn judge(&self, twin: &mut Twin) {
        let Idle { block, .. } = twin.idle().expect("idle");
        assert_eq!(usize::from(block) == self.block, self.moves);
        assert_eq!(newest(twin.image(), 2), Some(self.time + u32::from(self.moves)));
        assert_eq!(block_of(twin.image(), 2, 1 - usize::from(block)), [0xFF; S]);
        assert_eq!(found(block_of(twin.image(), 2, usize::from(block))), (self.objects.clone(), Lists::default()));
        for (id, value) in &self.objects {
            assert_eq!(twin.value(*id).as_ref(), Some(value));
        }
    }
}

fn serve(twin: &mut Twin, host: u8, message: &[u8]) {
    assert_eq!(twin.serve(host, message).0, Answer::DONE);
}

fn steps(twin: &mut Twin, count: usize) {
    for _ in 0..count {
        assert_eq!(twin.step(), Answer::MORE);
    }
}

/// Objects 7 and 9 settled in block 0, U being 16 + 12 + 7, then aborted puts and one that is pending. Frames end at
/// 43 + 3 * 54 + 35 + 14 = 254, where no reset fits. Its time is this one.
fn pending(time: u32) -> Twin {
    let mut twin = Twin::formatted(LENGTH);
    let mut image = twin.image().to_vec();
    image[TIME].copy_from_slice(&(!time).to_le_bytes());
    twin.swap_image(&image);
    serve(&mut twin, 1, &message::put(7, b"seven"));
    serve(&mut twin, 1, &message::put(9, &[]));
    serve(&mut twin, 1, &message::commit());
    for size in [40, 40, 40, 21] {
        serve(&mut twin, 0, &message::put(1, &vec![0xFF; size]));
        serve(&mut twin, 0, &message::abort());
    }
    serve(&mut twin, 2, &message::put(7, b"\x06\x00\x03\x00\x02\xFE"));
    assert_eq!(twin.idle().map(|idle| idle.end), Some(254));
    twin
}

/// A mount's transfer of 30 steps, up to the erase of block 0.
pub fn mount_transfer(time: u32) -> Scene {
    let mut twin = pending(time);
    assert_eq!(twin.call(&Call::Mount).answer, Answer::MORE);
    steps(&mut twin, 29);
    Scene::now(&twin, time + 1, 0)
}

/// The same, but for a second mount that is to erase block 0 before anything else.
fn mount_older(time: u32) -> Scene {
    let mut twin = Twin::new(&mount_transfer(time).image);
    assert_eq!(twin.call(&Call::Mount).answer, Answer::MORE);
    Scene::now(&twin, time + 1, 0)
}

/// A mount's transfer cut after 20 steps: the next mount is to erase block 1, then makes the transfer.
fn mount_in_progress(time: u32) -> Scene {
    let mut twin = pending(time);
    assert_eq!(twin.call(&Call::Mount).answer, Answer::MORE);
    steps(&mut twin, 20);
    assert_eq!(twin.call(&Call::Mount).answer, Answer::MORE);
    Scene::now(&twin, time, TRANSFER)
}

/// A put that needs a transfer, pending frames included. The mount after the cut drops them by a reset.
fn put_transfer(time: u32) -> Scene {
    let mut twin = pending(time);
    assert_eq!(twin.ask(0, &message::put(1, &[2; 64])), Answer::MORE);
    // C is U and the pending put of 14 bytes; its transfer has C - 5 steps, of which the erase is the last.
    steps(&mut twin, 35 + 14 - 6);
    Scene::now(&twin, time + 1, RESET)
}

fn scenes(time: u32) -> [Scene; 4] {
    [mount_transfer(time), mount_older(time), mount_in_progress(time), put_transfer(time)]
}

/// One bit raised, and all but one.
#[test]
fn every_single_bit() {
    let mut twin = Twin::blank(LENGTH);
    for scene in [1, 0x0FFF, u32::MAX - 2].into_iter().flat_map(scenes) {
        assert!(zeros(scene.erased()).count() > 100);
        for (at, bit) in zeros(scene.erased()) {
            for all in [0x00, 0xFF] {
                let mut mask = [all; S];
                mask[at] ^= bit;
                scene.mount(&mut twin, &mask);
            }
        }
    }
    assert_eq!(twin.tally.of("mount", Answer::FOREIGN), 0);
}

/// None, all, the header, everything but the header; a first or a last part of each length.
#[test]
fn whole_parts() {
    let mut twin = Twin::blank(LENGTH);
    for scene in scenes(1) {
        for cut in 0..=S {
            for (front, back) in [(0x00, 0xFF), (0xFF, 0x00)] {
                scene.mount(&mut twin, &[vec![front; cut], vec![back; S - cut]].concat());
            }
        }
    }
}

/// Each header byte with any of its bits raised.
#[test]
fn every_value_of_a_header_byte() {
    let mut twin = Twin::blank(LENGTH);
    for scene in scenes(0x0FFF) {
        for at in 0..16 {
            for bits in 0..=255 {
                let mut mask = [0; S];
                mask[at] = bits;
                scene.mount(&mut twin, &mask);
            }
        }
    }
}

/// Time 0x0FFF has twelve zeros in its bytes and the state byte two: all their combinations. The block that stays has
/// 0x1000, of which none is left in the old time.
#[test]
fn every_combination_of_time_and_state() {
    let (scene, mut twin) = (mount_transfer(0x0FFF), Twin::blank(LENGTH));
    assert_eq!(scene.time, 0x1000);
    let mut seen = [0; 4];
    for bits in 0..1u32 << 14 {
        let (time, state) = (bits & 0x0FFF, (bits >> 12) as u8);
        let mut mask = [0; S];
        mask[TIME].copy_from_slice(&time.to_le_bytes());
        mask[STATE] = state;
        let read = block::read(block_of(&scene.raised(&mask), 2, scene.block));
        let expected = match (state, 0x0FFF & !time) {
            (0, 0) => (None, 0),
            (0, left) => (Some(left), 1),
            (2, _) => (None, 2),
            _ => (None, 3),
        };
        let kind = match read {
            Block::Blank => panic!("its frames are still there"),
            Block::Foreign => {
                if state == 0 {
                    0
                } else {
                    3
                }
            }
            Block::Valid(_) => 1,
            Block::InProgress => 2,
        };
        assert_eq!((read.time(), kind), expected, "{bits:#06x}");
        seen[kind] += 1;
        scene.mount(&mut twin, &mask);
    }
    assert_eq!(seen, [1, 0x0FFF, 0x1000, 0x2000]);
}

/// Three cuts, each inside the erase that the mount after the last one begins with: six bits, each raised by the first,
/// the second, the third or none.
#[test]
fn cuts_in_the_mounts_after_them() {
    for scene in scenes(3) {
        let mut twin = Twin::blank(LENGTH);
        // the state byte, the time, and the first frame's length, kind and last byte
        let places = [(8, 0x01), (8, 0x02), (4, 0x01), (4, 0x02), (16, 0x01), (27, 0x01)];
        for chain in 0..1usize << 12 {
            let mut masks = [[0; S]; 4];
            for (number, (at, bit)) in places.into_iter().enumerate() {
                masks[chain >> (2 * number) & 3][at] |= bit;
            }
            twin.load(&scene.image);
            for mask in &masks[..3] {
                assert_eq!(twin.call(&Call::Mount).answer, Answer::MORE);
                assert_eq!(twin.erases_next(), Some(scene.block));
                twin.cut_erase(mask);
                assert_eq!(twin.head(), Head::Unmounted);
                assert_eq!(newest(twin.image(), 2), Some(scene.time));
            }
            assert_eq!(twin.whole(&Call::Mount), (Answer::DONE, 1 + scene.rest));
            scene.judge(&mut twin);
        }
    }
}

/// Twenty cuts one after the other, with masks of every kind; in between the mount's erase is sometimes made.
#[test]
fn cuts_again_and_again() {
    let mut rng = Rng::new(4);
    for scene in [1, 0x0102_0304, u32::MAX - 2].into_iter().flat_map(scenes) {
        let mut twin = Twin::blank(LENGTH);
        for _ in 0..200 {
            twin.load(&scene.image);
            for _ in 0..20 {
                assert!(!twin.call(&Call::Mount).answer.refused());
                match twin.erases_next() {
                    Some(block) if block == scene.block && !rng.once_in(10) => {
                        let mask = mask(&mut rng, block_of(twin.image(), 2, block));
                        twin.cut_erase(&mask);
                    }
                    _ => break,
                }
            }
            assert!(!twin.call(&Call::Mount).answer.refused());
            assert_eq!(twin.finish().0, Answer::DONE);
            scene.judge(&mut twin);
        }
    }
}

/// The paper's sentence, of any valid block, also one that no store wrote: its inverted time only gains ones.
#[test]
fn a_half_erased_block_never_looks_newer() {
    let mut rng = Rng::new(5);
    let (mut still_valid, mut older) = (0, 0);
    for _ in 0..4_000 {
        let image = damage::image(&mut rng, 2, LENGTH);
        for block in [block_of(&image, 2, 0), block_of(&image, 2, 1)] {
            let Some(time) = block::read(block).time() else { continue };
            for _ in 0..10 {
                let mask = mask(&mut rng, block);
                let raised: Vec<u8> = block.iter().zip(mask).map(|(byte, bits)| byte | bits).collect();
                if let Some(left) = block::read(&raised).time() {
                    assert_eq!(left & !time, 0, "{time:#x} became {left:#x}");
                    still_valid += 1;
                    older += u32::from(left < time);
                }
            }
        }
    }
    assert!(still_valid > 1_000 && older > 100, "{still_valid} still valid, {older} of them older");
}

/// The old block's value has changed under it, and it is still valid: the block that stays has the true one.
#[test]
fn a_changed_value_in_a_half_erased_block() {
    let scene = mount_transfer(1);
    let mut mask = [0; S];
    mask[16 + 7..16 + 12].fill(0x08);
    let image = scene.raised(&mask);
    let Block::Valid(old) = block::read(block_of(&image, 2, 0)) else { panic!("the old block is still valid") };
    assert_eq!((old.time, &image[16 + 7..16 + 12]), (1, &b"{m~mn"[..]));
    scene.mount(&mut Twin::blank(LENGTH), &mask);
}

/// The block that stays has the last time. Clean it is mounted, and with a put pending that a reset drops. With a put pending up
/// to its end, which no store leaves beside a block that was being erased, a transfer would be needed: 6, and the old block
/// stays as the cut left it.
#[test]
fn cuts_at_the_last_time() {
    let (clean, dirty) = (mount_transfer(u32::MAX - 1), put_transfer(u32::MAX - 1));
    let mut stuck = mount_transfer(u32::MAX - 1);
    let last = [&[(S - 35) as u8, 0, 1, 0, 1, 7, 0][..], &[0; S - 35 - 8], &[0xFE]].concat();
    stuck.image[S + 35..].copy_from_slice(&last);
    let mut twin = Twin::blank(LENGTH);
    for (at, bit) in zeros(clean.erased()) {
        let mut mask = [0; S];
        mask[at] = bit;
        clean.mount(&mut twin, &mask);
        dirty.mount(&mut twin, &mask);
        let image = stuck.raised(&mask);
        twin.load(&image);
        assert_eq!(twin.call(&Call::Mount).answer, Answer::WORN);
        assert_eq!((twin.image(), twin.head()), (&image[..], Head::Unmounted));
    }
}

/// Outside a run: of a block that no store wrote, all zeros, a cut erase can leave anything, a newer valid block too.
#[test]
fn a_foreign_block_that_no_store_wrote() {
    let (stays, newer) = (mount_transfer(1).image, mount_transfer(8).image);
    let mut twin = Twin::new(&[&[0; S], &stays[S..]].concat());
    assert_eq!(twin.call(&Call::Mount).answer, Answer::MORE);
    assert_eq!(twin.erases_next(), Some(0));
    twin.cut_erase(&newer[S..]);
    assert_eq!(twin.image(), [&newer[S..], &stays[S..]].concat());
    assert_eq!(twin.whole(&Call::Mount), (Answer::DONE, 1));
    assert_eq!(twin.idle().map(|idle| idle.block), Some(0));
}
