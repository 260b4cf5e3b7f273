//! Refusal 6 of a mount: a transfer is due at the last time. Since K11 that is only where something is pending and the reset
//! does not fit.

use super::refusals::{formatted_at, mount_of, nearly_full};
use check::twin::{Call, Twin};
use store::{Answer, Head, message};

/// A store at the last time with so many deletes pending, which end at 232 + 8 for each: with three of them no reset fits.
fn at_the_last_time(deletes: usize) -> Twin {
    let mut twin = formatted_at(u32::MAX);
    nearly_full(&mut twin);
    for _ in 0..deletes {
        assert_eq!(twin.serve(1, &message::delete(1)), (Answer::DONE, 8));
    }
    twin
}

/// A transfer is due where the reset does not fit, and only there it is 6.
#[test]
fn mount_at_the_last_time() {
    for (deletes, reset) in [(0, 0), (1, 5), (2, 5)] {
        let mut twin = at_the_last_time(deletes);
        assert_eq!(twin.whole(&Call::Mount), (Answer::DONE, reset));
        let idle = twin.idle().expect("idle");
        assert_eq!((idle.block, usize::from(idle.end)), (0, 232 + 8 * deletes + reset));
    }
    let mut twin = at_the_last_time(3);
    let image = twin.image().to_vec();
    assert_eq!(twin.call(&Call::Mount).answer, Answer::WORN);
    assert_eq!((twin.image(), twin.head()), (&image[..], Head::Unmounted));
    assert_eq!(twin.whole(&Call::Format), (Answer::DONE, 12));
}

/// The other block would have to be erased: 6 comes first and nothing is.
#[test]
fn mount_at_the_last_time_erases_nothing() {
    let mut image = at_the_last_time(3).image().to_vec();
    image[256 + 8] = 0xFE;
    let mut twin = Twin::new(&image);
    assert_eq!(twin.call(&Call::Mount).answer, Answer::WORN);
    assert_eq!((twin.image(), twin.head()), (&image[..], Head::Unmounted));
}

/// A foreign block beside the valid one does not make it 3 (K4), so it is 6, and nothing is erased.
#[test]
fn mount_at_the_last_time_beside_a_foreign_block() {
    for (deletes, expected) in [(0, (Answer::DONE, 1)), (2, (Answer::DONE, 1 + 5)), (3, (Answer::WORN, 0))] {
        let mut image = at_the_last_time(deletes).image().to_vec();
        image[256..].fill(0);
        let mut twin = Twin::new(&image);
        assert_eq!(twin.whole(&Call::Mount), expected);
        assert!(expected.0 == Answer::DONE || (twin.image(), twin.head()) == (&image[..], Head::Unmounted));
    }
}

/// Two valid blocks of the last time, one of which would need a transfer: 3 goes before 6.
#[test]
fn equal_times_go_before_the_last_time() {
    let block = formatted_at(u32::MAX).image()[..256].to_vec();
    let stuck = at_the_last_time(3).image()[..256].to_vec();
    assert_eq!(mount_of(&block, &stuck), Answer::FOREIGN);
    assert_eq!(mount_of(&stuck, &block), Answer::FOREIGN);
    assert_eq!(mount_of(&stuck, &stuck), Answer::FOREIGN);
}
