//! The story, and what it counted.

use super::{HEADER, run, unhex};

fn story() -> String {
    let (status, story, errors) = run(&["demo"], b"");
    assert_eq!((status, &errors[..]), (0, ""));
    story
}

#[test]
fn says_what_it_checked() {
    // Ticket 1: 65,536 lengths less the right one; a commit has 6 steps.
    //
    // Ticket 2: before the changes the journal ends at 216 of 256 and U = 55. The changes take 14 steps (put of 6
    // bytes), 13 (put of 5), 15 (put of 7) after a transfer of C - 5 = 77, 8 (delete), 6 and 6: 139, so 140 cuts.
    // Restarts of those restarts, one more than a restart has steps. Before the first step and after the last it has
    // none. A frame cut after 1, 2, 3 or more bytes is closed in 4, 3, 3 or 2, and a reset of 5 drops what is pending.
    // Of n bytes before the last these are 10 + 2 * (n - 3) steps, and 5 * n if something is pending, as it is from the
    // first put's end on: 30 in that put (n = 13), 28 + 60 in the second (12), 32 + 70 in the third (14), 18 + 35 in
    // the delete (7), 14 + 25 in either commit (5). Behind each put, the delete and the first commit there are 5, behind
    // steps 1 to 76 of the transfer 1 + 5, where the other half is to be erased first, behind its last 5.
    // 30 + 88 + 102 + 53 + 39 + 39 + 5 * 5 + 76 * 6 + 5 = 837, and 140 more are 977.
    //
    // Ticket 3: each bit of the old half that is 0, alone and all but it, and two restarts.
    //
    // Reads: 2, then 4 before the changes, 4 after each of the two cuts that are shown, 4 after each of 140 + 977 + 5,196
    // restarts.
    assert_eq!(4 * zeros_of_the_old_half(), 5_196);
    let counted = [
        "Checked, and counted on the way:",
        "",
        "  65,535  bad lengths refused without a trace",
        "       6  steps of a commit, with a bad request before each",
        "     140  restarts after power cuts",
        "     977  restarts after cuts in those restarts",
        "   5,196  restarts after power was lost inside an erase",
        "  25,266  reads",
        "       0  half changes found",
        "",
    ];
    assert!(story().ends_with(&counted.join("\n")), "{}", story());
}

/// The half that ticket 3 erases, by document 01: header of time 1; host 0 puts 1, 2 and 4, and 4 eight times more, with
/// a commit after each; host 1 puts 1, host 3 puts 3.
fn zeros_of_the_old_half() -> u32 {
    let put =
        |host: u8, id: u8, value: &[u8]| [&[8 + value.len() as u8, 0, 1, 0, host, id, 0], value, &[0xFE]].concat();
    let commit = vec![6, 0, 3, 0, 0, 0xFE];
    let again = [put(0, 4, b"solid"), commit.clone()].concat().repeat(8);
    let puts = [put(0, 1, b"low 20"), put(0, 2, b"high 80"), put(0, 4, b"solid"), commit];
    let half = [unhex(HEADER), puts.concat(), again, put(1, 1, b"low 35"), put(3, 3, b"blink")].concat();
    assert_eq!(half.len(), 243);
    half.iter().map(|byte| byte.count_zeros()).sum()
}

#[test]
fn what_was_found_after_the_cuts() {
    // Old until the last of the 127 + 6 steps that end in host 1's commit; both after the last step of all.
    let found = [
        "     133  the old settings, whole",
        "       6  host 1's change whole, nothing of host 3's",
        "       1  both changes, whole",
        "       0  half a change",
    ];
    assert!(story().contains(&found.join("\n")), "{}", story());
}

#[test]
fn values_after_the_restart_and_what_used_to_happen() {
    let story = story();
    let (first, second) = story.split_once("TICKET 2").expect("two tickets");
    assert!(first.contains("TICKET 1") && first.contains("What used to happen: "));
    assert!(first.contains("Host 3 reads both objects: 5 = \"AB\", 6 = \"CD\".\n"));
    assert!(second.contains("What used to happen: "));
    let (_, restart) = second.split_once("A restart mounts what it finds, in 6 steps:\n").expect("a restart");
    let values = [
        "Then host 0 reads 1 = \"low 20\", 2 = \"high 80\", 3 not there, 4 = \"solid\":",
        "the old settings, whole.",
    ];
    assert!(restart.contains(&values.join("\n")), "{restart}");
}

#[test]
fn power_lost_inside_an_erase() {
    let story = story();
    let (_, third) = story.split_once("TICKET 3: power is lost inside an erase\n").expect("three tickets");
    assert!(third.contains("What used to happen: "));
    let values = [
        "Then host 0 reads 1 = \"low 20\", 2 = \"high 80\", 3 not there, 4 = \"solid\":",
        "the old settings, whole.",
    ];
    assert!(third.contains(&values.join("\n")), "{third}");
    assert!(third.contains("The erase sets 1,299 bits. "), "{third}");
    assert!(third.contains("   5,196  the old settings, whole\n       0  half a change\n"), "{third}");
}

#[test]
fn eighty_columns_and_no_blank_rows() {
    for line in story().lines() {
        assert!(line.len() <= 80, "{line}");
        assert!(!line.contains(&".".repeat(64)), "{line}");
    }
    assert!(story().contains("    256  256 bytes blank\n"));
}
