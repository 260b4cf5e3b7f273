//! What a mount does to the current block (K11), told from where power was lost: a torn frame is closed in place and a reset
//! drops what is pending, or, where that reset would not fit, the settled objects are transferred.

use crate::book::{Lengths, lengths};
use model::block::{self, Block, Journal};
use model::cut;
use model::edition::Edition;
use model::frame::closed_samples;

/// What the current block holds, as far as it matters to a mount.
#[derive(Clone, Copy, PartialEq, Eq, Debug, Default)]
pub struct Dirt {
    /// Where its whole frames end.
    pub end: usize,
    /// The length of a torn frame behind them, 0 for none, and how many of its bytes change when it is closed.
    pub torn: usize,
    pub closes: usize,
    pub pending: bool,
}

/// What a mount does after its erases.
#[derive(Clone, Copy, PartialEq, Eq, Debug)]
pub struct Mending {
    pub closes: usize,
    /// The length of the reset; 0 for none.
    pub reset: usize,
    /// What is transferred instead, settled frames with their header; 0 if nothing is.
    pub moves: usize,
    /// Where frames end after it.
    pub end: usize,
}

/// A job, as far as it matters where it is cut.
#[derive(Clone, Copy, Default)]
pub enum Plan {
    #[default]
    None,
    Format,
    /// A transfer of so many bytes, 0 for none, then a frame.
    Append {
        moves: usize,
        frame: usize,
    },
    Mount {
        erases: usize,
        mending: Mending,
    },
}

impl Dirt {
    /// Nothing is torn.
    pub fn up_to(end: usize, pending: bool) -> Dirt {
        Dirt { end, torn: 0, closes: 0, pending }
    }

    /// As the current block of an image has it, if there is one.
    pub fn of(image: &[u8], blocks: u8) -> Option<Dirt> {
        let (number, journal) = current(image, blocks)?;
        let pending = !block::replay(&journal).pending.is_empty();
        let dirt = Dirt::up_to(journal.end, pending);
        if !journal.torn {
            return Some(dirt);
        }
        let tail = &cut(image, blocks)[number][journal.end..];
        let closes = 1 + tail[1..4].iter().filter(|byte| **byte != 0).count();
        Some(Dirt { torn: usize::from(tail[0]), closes, ..dirt })
    }

    /// With so many bytes of a frame behind it. Closing it changes its finish byte, its kind's low byte, and those bytes of
    /// length and kind that were not programmed, which else are 0.
    fn begun(self, frame: usize, made: usize) -> Dirt {
        let closes = match made {
            0 => return self,
            1 => 4,
            2 | 3 => 3,
            _ => 2,
        };
        Dirt { torn: frame, closes, ..self }
    }

    /// What a mount makes of it in a block of this size with so many bytes of settled frames and header.
    pub fn mending(self, size: usize, lengths: Lengths, used: usize) -> Mending {
        let reset = if self.pending { lengths.reset } else { 0 };
        let end = self.end + self.torn + reset;
        if end > size {
            Mending { closes: 0, reset: 0, moves: used, end: used }
        } else {
            Mending { closes: self.closes, reset, moves: 0, end }
        }
    }

    /// What a cut after so many steps of the job leaves of it.
    pub fn cut(self, plan: Plan, made: usize) -> Dirt {
        match plan {
            Plan::None | Plan::Format => self,
            Plan::Append { moves, .. } if moves > 0 && !valid(moves, made) => self,
            Plan::Append { moves: 0, frame } => self.begun(frame, made),
            Plan::Append { moves, frame } => {
                Dirt::up_to(moves, self.pending).begun(frame, made.saturating_sub(steps(moves)))
            }
            Plan::Mount { erases, mending } => self.mended(mending, made.saturating_sub(erases)),
        }
    }

    fn mended(self, Mending { closes, reset, moves, .. }: Mending, made: usize) -> Dirt {
        if moves > 0 {
            if valid(moves, made) { Dirt::up_to(moves, false) } else { self }
        } else if made < closes {
            Dirt { closes: closes - made, ..self }
        } else {
            Dirt::up_to(self.end + self.torn, self.pending).begun(reset, made - closes)
        }
    }
}

impl Plan {
    /// Whether a mount or request has an erase to make.
    pub fn erases(self) -> bool {
        match self {
            Plan::None | Plan::Format => false,
            Plan::Append { moves, .. } => moves > 0,
            Plan::Mount { erases, mending } => erases + mending.moves > 0,
        }
    }

    /// What a cut after so many steps of a mount falls into, apart from its erases and before its last step.
    pub fn cut_in(self, made: usize) -> Option<&'static str> {
        let Plan::Mount { erases, mending: Mending { closes, reset, moves, .. } } = self else { return None };
        match made.saturating_sub(erases) {
            0 => None,
            _ if moves > 0 => Some("cut in a transfer"),
            made if made < closes => Some("cut in closing"),
            made if made == closes => Some("cut before a reset"),
            made if made < closes + reset => Some("cut in a reset"),
            _ => None,
        }
    }
}

/// The steps of a transfer of so many bytes.
fn steps(moves: usize) -> usize {
    moves.saturating_sub(5)
}

/// Whether so many steps of a transfer have made the new block valid: the last but one does.
fn valid(moves: usize, made: usize) -> bool {
    made + 1 >= steps(moves)
}

impl Mending {
    pub fn steps(self) -> usize {
        steps(self.moves) + self.closes + self.reset
    }

    pub fn name(self) -> &'static str {
        match self {
            Mending { moves: 1.., .. } => "moved",
            Mending { closes: 0, reset: 0, .. } => "clean",
            Mending { closes: 0, .. } => "reset",
            Mending { reset: 0, .. } => "closed",
            _ => "closed and reset",
        }
    }
}

/// What a mount of an image is to do.
pub struct Due {
    /// The current block and its time.
    pub block: usize,
    pub time: u32,
    pub erases: usize,
    pub mending: Mending,
}

impl Due {
    /// As the image has it, if there is a current block.
    pub fn of(image: &[u8], blocks: u8) -> Option<Due> {
        let (block, journal) = current(image, blocks)?;
        let dirt = Dirt::of(image, blocks)?;
        let (lengths, used) = (lengths(journal.edition.number()), block::replay(&journal).used());
        let mending = dirt.mending(image.len() / usize::from(blocks), lengths, used);
        Some(Due { block, time: journal.time, erases: erases(image, blocks, block), mending })
    }

    pub fn steps(&self) -> usize {
        self.erases + self.mending.steps()
    }

    /// The block that is current after it, of so many, and where its frames end.
    pub fn rest(&self, blocks: u8) -> (usize, usize) {
        let block = if self.mending.moves > 0 { (self.block + 1) % usize::from(blocks) } else { self.block };
        (block, self.mending.end)
    }

    /// Whether it is refused with 6.
    pub fn worn(&self) -> bool {
        self.mending.moves > 0 && self.time == u32::MAX
    }
}

/// The newest valid block and its number.
pub fn current(image: &[u8], blocks: u8) -> Option<(usize, Journal)> {
    let journal = |(number, bytes)| match block::read(bytes) {
        Block::Valid(journal) => Some((number, journal)),
        _ => None,
    };
    cut(image, blocks).into_iter().enumerate().filter_map(journal).max_by_key(|(_, journal)| journal.time)
}

/// How many blocks a mount erases: the others that are not blank.
pub fn erases(image: &[u8], blocks: u8, current: usize) -> usize {
    let others = cut(image, blocks).into_iter().enumerate().filter(|(number, _)| *number != current);
    others.filter(|(_, bytes)| !block::blank(bytes)).count()
}

/// Closed frames from where a block's frames end, up to where no reset fits.
pub fn stuff(block: &mut [u8], mut end: usize, edition: Edition) {
    let samples = closed_samples(edition);
    while let Some(closed) = samples.iter().rfind(|closed| end + closed.len() <= block.len()) {
        block[end..end + closed.len()].copy_from_slice(closed);
        end += closed.len();
    }
}
