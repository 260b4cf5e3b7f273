//! Ticket 3: power lost inside the erase of the old block, a half of the flash.

use super::power_cuts::{before_the_changes, changes, judge, tell_objects};
use super::{BLOCKS, Checked, SIZE, serve};
use crate::board::Board;
use crate::picture::picture;
use crate::say::grouped;
use std::io::{self, Write};
use store::{Answer, Store};

pub fn tell<S: Store>(store: &S, checked: &mut Checked, out: &mut impl Write) -> io::Result<()> {
    writeln!(out, "TICKET 3: power is lost inside an erase\n")?;
    writeln!(out, "What used to happen: the old half was left half erased, each bit as it was or")?;
    writeln!(out, "1, and the board refused to start.\n")?;
    let image = before_the_erase(store);
    writeln!(out, "The settings as in ticket 2, hosts 1 and 3 in the middle of their changes. The")?;
    writeln!(out, "third put does not fit, so that all has moved to half 1, and half 0 is about to")?;
    writeln!(out, "be erased:\n\n{}", picture(&image, BLOCKS))?;

    let mut board = half_erased(store, &image, &[0x0F, 0xF0, 0xFF, 0x00, 0xFF]);
    writeln!(out, "Power is lost inside that erase, and half 0 is left like this, say:\n")?;
    writeln!(out, "{}", picture(&board.image, BLOCKS))?;
    let steps = restart(&mut board);
    assert_eq!(steps, 1 + 5);
    writeln!(out, "The next restart takes half 1, which is newer, erases half 0 again and drops")?;
    writeln!(out, "what is pending by a reset:\n")?;
    writeln!(out, "{}", picture(&board.image, BLOCKS))?;
    tell_objects(&mut board, checked, out)?;
    every_bit(store, &image, checked, out)
}

/// Half 0 with two changes pending has been moved to half 1, for a third; its erase is the next step.
fn before_the_erase<S: Store>(store: &S) -> Vec<u8> {
    let mut board = before_the_changes(store);
    let [first, second, (host, third), ..] = changes();
    for (host, message) in [first, second] {
        serve(&mut board, host, &message);
    }
    assert_eq!(board.request(host, &third, &mut []), Answer::MORE);
    while board.erases_next().is_none() {
        assert_eq!(board.step(), Answer::MORE);
    }
    assert_eq!(board.erases_next(), Some(0..SIZE));
    board.image
}

/// The restart's erase begins and is cut, with these bits raised.
fn half_erased<'s, S: Store>(store: &'s S, image: &[u8], mask: &[u8]) -> Board<'s, S> {
    let mut board = Board::new(store, image.to_vec(), BLOCKS);
    assert_eq!(board.mount(), Answer::MORE);
    assert!(board.cut_erase(mask));
    board
}

fn restart<S: Store>(board: &mut Board<S>) -> usize {
    assert!(!board.mount().refused());
    let (answer, steps) = board.run();
    assert_eq!(answer, Answer::DONE);
    steps
}

/// Each bit that the erase sets is set alone, then all but it. The restart after that is cut inside its own erase too.
fn every_bit<S: Store>(store: &S, image: &[u8], checked: &mut Checked, out: &mut impl Write) -> io::Result<()> {
    let (mut bits, mut found, mut half_changes) = (0, 0, 0);
    for (at, bit) in (0..SIZE).flat_map(|at| (0..8).map(move |bit| (at, 1 << bit))) {
        if image[at] & bit != 0 {
            continue;
        }
        bits += 1;
        for all in [0x00, 0xFF] {
            let mut mask = [all; SIZE];
            mask[at] ^= bit;
            let mut first = half_erased(store, image, &mask);
            let mut second = half_erased(store, &first.image, &[0x55]);
            for board in [&mut first, &mut second] {
                restart(board);
                checked.lost_erases += 1;
                match judge(board, 0, checked) {
                    Some(_) => found += 1,
                    None => half_changes += 1,
                }
            }
        }
    }
    writeln!(out, "The erase sets {} bits. Each was set alone, then all but that one, and the", grouped(bits))?;
    writeln!(out, "store restarted. Each restart lost power inside its own erase too, and a")?;
    writeln!(out, "second was made:\n")?;
    writeln!(out, "  {:>6}  the old settings, whole", grouped(found))?;
    writeln!(out, "  {:>6}  half a change\n", grouped(half_changes))
}
