//! Ticket 2: power cuts in the middle of two hosts' changes.

use super::{BLOCKS, Checked, SIZE, formatted, found, read, serve};
use crate::board::Board;
use crate::picture::picture;
use std::io::{self, Write};
use store::{Answer, Store, message};

/// Objects 1 to 4, as a restart finds them.
type Objects = [Option<Vec<u8>>; 4];

/// What a restart may find, and what it is called.
const STATES: [(&str, [Option<&str>; 4]); 3] = [
    ("the old settings, whole", [Some("low 20"), Some("high 80"), None, Some("solid")]),
    ("host 1's change whole, nothing of host 3's", [Some("low 35"), Some("high 95"), None, Some("solid")]),
    ("both changes, whole", [Some("low 35"), Some("high 95"), Some("blink"), None]),
];

/// An image that a power cut may leave, and which of the states a restart must find in it.
struct Cut {
    image: Vec<u8>,
    state: usize,
}

pub fn tell<S: Store>(store: &S, checked: &mut Checked, out: &mut impl Write) -> io::Result<()> {
    writeln!(out, "TICKET 2: power drops in the middle of two hosts' changes\n")?;
    writeln!(out, "What used to happen: the board came back with half of one host's change and")?;
    writeln!(out, "half of another's: a new low limit beside the old high one.\n")?;
    let mut board = before_the_changes(store);
    let old = objects(&mut board, checked);
    assert_eq!(whole(&old), Some(0));
    writeln!(out, "Settled: {}.\nThe journal is nearly full:\n", listed(&old))?;
    writeln!(out, "{}", picture(&board.image, BLOCKS))?;
    writeln!(out, "Host 1 puts 1 = \"low 35\" and 2 = \"high 95\", which belong together. Host 3 puts")?;
    writeln!(out, "3 = \"blink\" and deletes 4. They take turns; then host 1 commits, then host 3.")?;

    let cuts = every_cut(&mut board);
    writeln!(out, "That takes {} steps. The power is cut before the first and after each.\n", cuts.len() - 1)?;
    one_cut(store, &cuts, checked, out)?;
    every_restart(store, &cuts, checked, out)
}

/// Objects 1, 2 and 4 settled, and a journal so full that the third change needs a transfer.
pub fn before_the_changes<S: Store>(store: &S) -> Board<'_, S> {
    let mut board = formatted(store);
    for (id, text) in [(1, "low 20"), (2, "high 80"), (4, "solid")] {
        serve(&mut board, 0, &message::put(id, text.as_bytes()));
    }
    serve(&mut board, 0, &message::commit());
    for _ in 0..8 {
        serve(&mut board, 0, &message::put(4, b"solid"));
        serve(&mut board, 0, &message::commit());
    }
    board
}

/// The changes of hosts 1 and 3, in turns. Each host's two belong together.
pub fn changes() -> [(u8, Vec<u8>); 6] {
    [
        (1, message::put(1, b"low 35")),
        (3, message::put(3, b"blink")),
        (1, message::put(2, b"high 95")),
        (3, message::delete(4)),
        (1, message::commit()),
        (3, message::commit()),
    ]
}

/// Every image on the way through the changes, before the first step and after each.
fn every_cut<S: Store>(board: &mut Board<S>) -> Vec<Cut> {
    let mut state = 0;
    let mut cuts = vec![Cut { image: board.image.clone(), state }];
    for (host, message) in changes() {
        let mut answer = board.request(host, &message, &mut []);
        while answer == Answer::MORE {
            answer = board.step();
            if answer == Answer::DONE && message == message::commit() {
                state += 1;
            }
            cuts.push(Cut { image: board.image.clone(), state });
        }
        assert_eq!(answer, Answer::DONE);
    }
    cuts
}

/// A cut in the middle of the transfer, with pictures.
fn one_cut<S: Store>(store: &S, cuts: &[Cut], checked: &mut Checked, out: &mut impl Write) -> io::Result<()> {
    let torn = cuts.iter().position(|cut| cut.image[SIZE] != 0xFF).expect("a transfer") + 30;
    writeln!(out, "After step {torn}, say, the transfer to the other half is under way:\n")?;
    writeln!(out, "{}", picture(&cuts[torn].image, BLOCKS))?;
    let mut after = Board::new(store, cuts[torn].image.clone(), BLOCKS);
    assert_eq!(after.mount(), Answer::MORE);
    let (answer, steps) = after.run();
    assert_eq!(answer, Answer::DONE);
    writeln!(out, "A restart mounts what it finds, in {steps} steps:\n\n{}", picture(&after.image, BLOCKS))?;
    tell_objects(&mut after, checked, out)
}

/// What host 0 reads, and which state that is.
pub fn tell_objects<S: Store>(
    board: &mut Board<S>,
    checked: &mut Checked,
    out: &mut impl Write,
) -> io::Result<()> {
    let found = objects(board, checked);
    let state = whole(&found).map_or("half a change", |state| STATES[state].0);
    writeln!(out, "Then host 0 reads {}:\n{state}.\n", listed(&found))
}

fn every_restart<S: Store>(
    store: &S,
    cuts: &[Cut],
    checked: &mut Checked,
    out: &mut impl Write,
) -> io::Result<()> {
    let mut tally = [0; STATES.len()];
    let mut half_changes = 0;
    for cut in cuts {
        match recover(store, cut, checked) {
            Some(state) => tally[state] += 1,
            None => half_changes += 1,
        }
    }
    writeln!(out, "The store was restarted after each of these {} cuts. Each restart was cut in", cuts.len())?;
    writeln!(out, "its turn, before its first step and after each, and a second restart made.")?;
    writeln!(out, "That changed nothing of what was found:\n")?;
    for ((name, _), number) in STATES.iter().zip(tally) {
        writeln!(out, "  {number:>6}  {name}")?;
    }
    writeln!(out, "  {half_changes:>6}  half a change\n")
}

/// Restarts after the cut, and again after cutting the restart at each of its steps. The state found, if whole.
fn recover<S: Store>(store: &S, cut: &Cut, checked: &mut Checked) -> Option<usize> {
    checked.cuts += 1;
    let mut board = Board::new(store, cut.image.clone(), BLOCKS);
    let mut answer = board.mount();
    loop {
        checked.nested += 1;
        let mut again = Board::new(store, board.image.clone(), BLOCKS);
        assert!(!again.mount().refused());
        assert_eq!(again.run().0, Answer::DONE);
        judge(&mut again, cut.state, checked);
        if answer == Answer::DONE {
            return judge(&mut board, cut.state, checked);
        }
        assert_eq!(answer, Answer::MORE);
        answer = board.step();
    }
}

/// The state that a restart found: the expected one, or none if it is not whole, which is counted.
pub fn judge<S: Store>(board: &mut Board<S>, expected: usize, checked: &mut Checked) -> Option<usize> {
    let state = whole(&objects(board, checked));
    match state {
        Some(state) => assert_eq!(state, expected),
        None => checked.half_changes += 1,
    }
    state
}

fn objects<S: Store>(board: &mut Board<S>, checked: &mut Checked) -> Objects {
    let objects = [1, 2, 3, 4].map(|id| read(board, 0, id, checked));
    let mut page = [0; message::PAGE];
    assert_eq!(board.request(0, &message::log(), &mut page), Answer::DONE);
    assert_eq!(usize::from(page[8]), objects.iter().flatten().count());
    objects
}

/// Which of the states these objects are.
fn whole(objects: &Objects) -> Option<usize> {
    let texts = objects.each_ref().map(|object| object.as_deref());
    STATES.iter().position(|(_, state)| state.map(|text| text.map(str::as_bytes)) == texts)
}

fn listed(objects: &Objects) -> String {
    let listed: Vec<String> = (1..).zip(objects).map(|(id, object)| found(id, object)).collect();
    listed.join(", ")
}
