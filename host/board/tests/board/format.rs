//! Power lost in a format. The sector behind the store says so.

use crate::*;
use board::chip::{BLOCK, FLAG, UNDER_WAY};

/// What a format that was cut inside its last erase may leave: a block that reads as valid, with other values.
#[test]
fn cut_inside_its_last_erase() {
    let mut put = PUT;
    put[7] |= 0x10;
    let chip = chip("half", &[(0, &HEADER), (16, &put), (26, &COMMIT), (FLAG, UNDER_WAY)]);
    let mut machine = start(&chip, &["Power was lost in a format. Formatting again.", FORMATTED]);
    assert_eq!(machine.answer("list"), ["0 done"]);
    machine.cut();
    assert_eq!(chip.bytes()[FLAG..FLAG + BLOCK], [0xFF; BLOCK]);
    start(&chip, &[MOUNTED]).cut();
}

/// It is foreign or not blank: the same.
#[test]
fn cut_at_other_places() {
    let again = "Power was lost in a format. Formatting again.";
    let progress = [0x10, 0x00, 0x01, 0x4A, 0xFE, 0xFF, 0xFF, 0xFF, 0xFE];
    for (name, at, bytes) in [("foreign", BLOCK, &HEADER[..4]), ("progress", 0, &progress), ("blank", 0, &[])] {
        let chip = chip(&format!("cut-{name}"), &[(at, bytes), (FLAG, UNDER_WAY)]);
        start(&chip, &[again, FORMATTED]).cut();
        start(&chip, &[MOUNTED]).cut();
    }
}

/// Up to the last byte of the flag the format had not begun; once one bit of it is raised the format had ended; and other
/// bytes behind the store say nothing.
#[test]
fn not_under_way() {
    let mut raised = UNDER_WAY.to_vec();
    raised[3] |= 0x80;
    for (name, flag) in [("begun", &UNDER_WAY[..7]), ("raised", &raised), ("other", b"boot log")] {
        let chip = chip(&format!("flag-{name}"), &[(0, &HEADER), (16, &PUT), (26, &COMMIT), (FLAG, flag)]);
        let mut machine = start(&chip, &[MOUNTED]);
        check(&mut machine, &[("get 5", "0 done: \"on\""), ("format yes", FORMATTED), ("get 5", NO_OBJECT)]);
        machine.cut();
        assert_eq!(chip.bytes()[FLAG..FLAG + BLOCK], [0xFF; BLOCK], "{name}");
        start(&chip, &[MOUNTED]).cut();
    }
}
