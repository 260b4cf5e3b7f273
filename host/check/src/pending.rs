//! What each host has pending, as the record says it (K7).

use crate::places;
use crate::rng::Rng;
use crate::side::Modelled;
use crate::twin::{Call, Twin, UNWRITTEN};
use model::block::{self, Block};
use model::frame::Host;
use store::{Answer, Drive, Idle, Store, message};

/// The bytes of each host's pending frames in a block; none in one that is not valid.
pub fn of_block(bytes: &[u8]) -> [u16; 4] {
    let Block::Valid(journal) = block::read(bytes) else { return [0; 4] };
    let replay = block::replay(&journal);
    [0, 1, 2, 3].map(|host| replay.pending_bytes(Host(host)) as u16)
}

/// Other bytes than these: of one host, or of two whose sum stays.
pub fn other(rng: &mut Rng, right: [u16; 4]) -> [u16; 4] {
    let (host, second) = (rng.below(4), rng.below(4));
    let mut other = right;
    if rng.once_in(4) {
        other.swap(host, second);
    }
    if other == right {
        let near = [1, 2, 8, 255, 256, 0x8000, 0_u16.wrapping_sub(1), right[host].wrapping_neg()];
        other[host] = right[host].wrapping_add(rng.pick(&near));
    }
    if other == right {
        other[host] ^= 1;
    }
    other
}

/// A call under this record, which is right but for its pending bytes, is refused with 11 and changes nothing.
pub fn mislead<M: Modelled, L: Drive, P: Store>(twin: &mut Twin<M, L, P>, rng: &mut Rng, right: Idle) {
    let wrong = Idle { pending: other(rng, right.pending), ..right };
    refused(twin, rng, right, wrong);
    twin.tally.pending += 1;
}

/// A call under the wrong record is refused with 11 and changes nothing; a read goes by its place alone (K8), and with a
/// message of another kind it gets 1. Then the right record is back.
pub fn refused<M: Modelled, L: Drive, P: Store>(
    twin: &mut Twin<M, L, P>,
    rng: &mut Rng,
    right: Idle,
    wrong: Idle,
) {
    let (image, host, id) = (twin.image().to_vec(), rng.below(4) as u8, rng.byte());
    let short = rng.pick(&[message::commit, message::abort, message::convert, Vec::new])();
    let message = rng.pick(&[&short, &message::put(id, b"x"), &message::delete(id)]).clone();
    let call = match rng.below(4) {
        0 => Call::Read { host, message },
        1 => Call::Request { host, message: message::log(), reply: 20 },
        _ => Call::Request { host, message, reply: 20 },
    };
    twin.forge(wrong);
    let outcome = twin.call(&call);
    let refusal = if matches!(call, Call::Read { .. }) { Answer::MALFORMED } else { Answer::STALE };
    assert_eq!(outcome.answer, refusal, "{call} under {wrong:?}");
    assert!(outcome.reply.iter().all(|byte| *byte == UNWRITTEN), "the reply was written to");
    assert_eq!((twin.idle(), twin.image()), (Some(wrong), &image[..]));
    places::look(twin, rng, &wrong);
    twin.forge(right);
}
