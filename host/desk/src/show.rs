//! A returned board: its picture, its blocks, what they hold, and what a mount would say.

use crate::board::Board;
use crate::picture::{LEGEND, rows};
use crate::say::{self, count, grouped};
use crate::survey::{Side, owner, sides};
use model::block::{Block, Journal, Replay, replay};
use model::frame::{Body, Frame, Host};
use std::io::{self, Write};
use std::ops::Range;
use store::{Answer, Fault, Head, Store};

/// Columns that a value may take before it goes on in the next line.
const WIDTH: usize = 48;

/// What is shown only if asked for.
#[derive(Clone, Copy)]
pub struct Wanted {
    pub journal: bool,
}

pub struct Report<'a> {
    image: &'a [u8],
    blocks: u8,
    sides: Vec<Side<'a>>,
    /// What mount answers, the steps it then takes, and the block that is current after them.
    answer: Answer,
    steps: usize,
    current: Option<u8>,
    /// Where the image broke, if mount answers 3.
    fault: Option<Fault>,
}

impl<'a> Report<'a> {
    pub fn new<S: Store>(store: &S, image: &'a [u8], blocks: u8) -> Report<'a> {
        let mut board = Board::new(store, image.to_vec(), blocks);
        let (answer, fault) = (board.mount(), board.fault());
        let (_, steps) = board.run();
        let current = match board.head() {
            Head::Idle(idle) => Some(idle.block),
            _ => None,
        };
        let sides = if answer == Answer::IMAGE_LENGTH { Vec::new() } else { sides(image, blocks) };
        Report { image, blocks, sides, answer, steps, current, fault }
    }

    /// Whether there is a store: mount does not refuse.
    pub fn store(&self) -> bool {
        !self.answer.refused()
    }

    pub fn write(&self, name: &str, length: &str, wanted: Wanted, out: &mut impl Write) -> io::Result<()> {
        if self.answer == Answer::IMAGE_LENGTH {
            writeln!(out, "{name}: {length}\n")?;
            return self.mount(out);
        }
        let size = grouped(self.image.len() / usize::from(self.blocks));
        writeln!(out, "{name}: {length}, {} of {size}\n\n{LEGEND}", say::blocks(self.blocks))?;
        for side in &self.sides {
            writeln!(out, "{}{}: {}\n{}", side.name(), self.role(side), side.state(), rows(side))?;
        }
        for (side, found) in self.listed() {
            if wanted.journal {
                journal(side, found, out)?;
            }
            let replay = replay(found);
            settled(side, &replay, out)?;
            pending(side, &replay, out)?;
        }
        self.mount(out)
    }

    /// What a valid block is beside the others, where a mount can tell.
    fn role(&self, side: &Side) -> &'static str {
        match side.time() {
            None => "",
            _ if self.answer == Answer::FOREIGN => "",
            time if time == self.newest() => ", current",
            _ => ", older",
        }
    }

    /// The blocks whose objects are listed: the newest valid one, or all that are equally new.
    fn listed(&self) -> impl Iterator<Item = (&Side<'a>, &Journal)> {
        let newest = self.newest();
        let valid = self.sides.iter().filter_map(|side| Some((side, side.journal()?)));
        valid.filter(move |(_, journal)| Some(journal.time) == newest)
    }

    /// What a mount refused with 3 says, in words.
    fn broken(&self, Fault { block, field, place }: Fault) -> String {
        let name = self.sides[block].name();
        if self.newest().is_none() {
            return format!("{name}: {}", say::fault(field, place, &place.to_string()));
        }
        let other = if self.blocks == 2 { "the other half" } else { "another block" };
        format!("{name}: the time at byte {place} is {other}'s too")
    }

    /// What another refusal means for a board, and what helps.
    fn meaning(&self) -> Option<&'static str> {
        Some(match (self.answer, self.blocks) {
            (Answer::NO_STORE, 2) => "No half is valid. A format makes an empty store.",
            (Answer::NO_STORE, _) => "No block is valid. A format makes an empty store.",
            (Answer::IMAGE_LENGTH, 2) => "It must be a multiple of 256 from 512 to 65,536.",
            (Answer::IMAGE_LENGTH, _) => {
                "It must be 2 to 16 blocks of one size, a\nmultiple of 128 from 256 up, and 65,536 bytes at most."
            }
            (Answer::WORN, _) => {
                "A transfer is needed, and the time cannot rise.\nOnly a format helps, and it loses all objects."
            }
            _ => return None,
        })
    }

    /// What a mount does with what is torn or pending in the current block.
    fn mended(&self) -> String {
        let Some((side, journal)) = self.listed().next() else { return String::new() };
        let pending = !replay(journal).pending.is_empty();
        let done = match (journal.torn, pending) {
            _ if self.current.map(usize::from) != Some(side.number) => {
                return "There is no room to drop what is pending, so it moves what is settled.\n".to_string();
            }
            (true, true) => "It closes the torn frame and drops what is pending",
            (true, false) => "It closes the torn frame",
            (false, true) => "It drops what is pending",
            (false, false) => return String::new(),
        };
        format!("{done}, in {} itself.\n", side.name())
    }

    /// What a mount does to the foreign blocks.
    fn erased(&self) -> &'static str {
        match self.sides.iter().filter(|side| side.block == Block::Foreign).count() {
            0 => "",
            _ if self.blocks == 2 => "Its first step erases the foreign half.\n",
            1 => "It erases the foreign block.\n",
            _ => "It erases the foreign blocks.\n",
        }
    }

    fn newest(&self) -> Option<u32> {
        self.sides.iter().filter_map(Side::time).max()
    }

    fn mount(&self, out: &mut impl Write) -> io::Result<()> {
        if let Some(fault) = self.fault {
            writeln!(out, "mount answers 3, foreign.\n{}.", self.broken(fault))?;
            return writeln!(out, "Only a format helps, and it loses all objects.");
        }
        if let Some(meaning) = self.meaning() {
            return writeln!(out, "mount answers {}. {meaning}", say::named(self.answer).replacen(' ', ", ", 1));
        }
        match self.answer {
            Answer::DONE => writeln!(out, "mount answers 0, done, without a step.")?,
            _ => {
                let steps = count(self.steps, "step");
                writeln!(out, "mount answers more (255 in C), and 0, done, after {steps}.")?;
            }
        }
        let name = if self.blocks == 2 { "Half" } else { "Block" };
        let current = self.current.map(|block| format!("{name} {block} is then current.\n"));
        write!(out, "{}{}{}", self.erased(), self.mended(), current.unwrap_or_default())
    }
}

fn settled(side: &Side, replay: &Replay, out: &mut impl Write) -> io::Result<()> {
    let (objects, used, size) = (count(replay.objects().count(), "object"), replay.used(), side.bytes.len());
    writeln!(out, "Settled in {}: {objects}; {used} of {size} bytes used", side.name())?;
    if replay.objects().next().is_some() {
        writeln!(out, "   id     at  bytes  value")?;
    }
    for (id, place) in replay.objects() {
        let (at, value) = (side.base + place.start, &side.bytes[place]);
        wrapped(&format!("  {:>3}  {at:>5}  {:>5}  ", id.0, value.len()), &say::value(value), out)?;
    }
    writeln!(out)
}

fn pending(side: &Side, replay: &Replay, out: &mut impl Write) -> io::Result<()> {
    let changes = count(replay.pending.len(), "change");
    let fate = if replay.pending.is_empty() { "" } else { ", which a mount drops" };
    writeln!(out, "Pending in {}: {changes}{fate}", side.name())?;
    for host in (0..=3).map(Host) {
        let mut label = format!("host {}", host.0);
        for frame in replay.pending.iter().filter(|frame| owner(frame) == Some(host)) {
            change(&format!("  {label:6}  "), side, frame, out)?;
            label.clear();
        }
        if label.is_empty() {
            let (bytes, half) = (replay.pending_bytes(host), side.bytes.len() / 2);
            writeln!(out, "          {bytes} of {half} bytes used")?;
        }
    }
    writeln!(out)
}

/// The whole frames of a valid block, as they were written.
fn journal(side: &Side, journal: &Journal, out: &mut impl Write) -> io::Result<()> {
    writeln!(out, "Journal of {}: {}", side.name(), count(journal.frames.len(), "frame"))?;
    for frame in &journal.frames {
        let host = owner(frame).map_or(String::new(), |host| format!("host {}", host.0));
        change(&format!("  {:>5}  {host:6}  ", side.base + frame.place.start), side, frame, out)?;
    }
    writeln!(out)
}

fn change(label: &str, side: &Side, frame: &Frame, out: &mut impl Write) -> io::Result<()> {
    let value = |place: &Range<usize>| say::value(&side.bytes[place.clone()]);
    match &frame.body {
        Body::Put(_, id, place) => wrapped(&format!("{label}put {} = ", id.0), &value(place), out),
        Body::Settled(id, place) => wrapped(&format!("{label}settled {} = ", id.0), &value(place), out),
        Body::Delete(_, id) => writeln!(out, "{label}delete {}", id.0),
        Body::Commit(_) => writeln!(out, "{label}commit"),
        Body::Abort(_) => writeln!(out, "{label}abort"),
        Body::Closed => writeln!(out, "{label}closed, {}", count(frame.place.len(), "byte")),
        Body::Reset => writeln!(out, "{label}reset"),
    }
}

/// A value behind its label, in as many lines as it needs.
fn wrapped(label: &str, value: &str, out: &mut impl Write) -> io::Result<()> {
    let mut label = label.to_string();
    for line in value.as_bytes().chunks(WIDTH) {
        writeln!(out, "{label}{}", String::from_utf8_lossy(line))?;
        label = " ".repeat(label.len());
    }
    Ok(())
}
