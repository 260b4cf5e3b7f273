//! The edition that a record says (K9).

use crate::pending;
use crate::rng::Rng;
use crate::side::Modelled;
use crate::twin::Twin;
use store::{Drive, Idle, Store};

/// Another number than this: the other edition, or one that there is not.
pub fn other(rng: &mut Rng, edition: u8) -> u8 {
    loop {
        let other = if rng.once_in(8) { rng.byte() } else { rng.pick(&[0, 1, 1, 2, 2, 3, 4, 7, 255]) };
        if other != edition {
            return other;
        }
    }
}

/// A call under this record, which is right but for its edition, is refused with 11 and changes nothing.
pub fn mislead<M: Modelled, L: Drive, P: Store>(twin: &mut Twin<M, L, P>, rng: &mut Rng, right: Idle) {
    let wrong = Idle { edition: other(rng, right.edition), ..right };
    pending::refused(twin, rng, right, wrong);
    twin.tally.editions += 1;
}
