//! What a test that ends with a difference prints: lines for `desk replay`.

use crate::call::Call;
use std::fmt;
use store::{Head, Idle, hex};

/// What a call was given.
pub struct Setting {
    pub image: Vec<u8>,
    pub blocks: u8,
    pub head: Head,
}

/// The lines that put it in place.
impl fmt::Display for Setting {
    fn fmt(&self, f: &mut fmt::Formatter) -> fmt::Result {
        writeln!(f, "image {} {}", hex::show(&self.image), self.blocks)?;
        match self.head {
            Head::Idle(Idle { length, block, end, blocks, edition, pending: [a, b, c, d], places }) => {
                let edition = format_args!("edition={edition}");
                write!(f, "idle {length} {block} {end} blocks={blocks} {edition} pending={a},{b},{c},{d}")?;
                for (id, place) in places.into_iter().enumerate().filter(|(_, place)| *place != 0) {
                    write!(f, " place={id}:{place}")?;
                }
                writeln!(f)
            }
            _ => Ok(()),
        }
    }
}

/// Where a job began, its call, and the steps made since.
pub struct Begun {
    pub setting: Setting,
    pub call: Call,
    pub steps: usize,
}

impl fmt::Display for Begun {
    fn fmt(&self, f: &mut fmt::Formatter) -> fmt::Result {
        writeln!(f, "{}{}", self.setting, self.call)?;
        if self.steps > 0 { writeln!(f, "step {}", self.steps) } else { Ok(()) }
    }
}
