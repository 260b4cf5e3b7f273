//! Where a block broke (K5): what a mount refused with 3 has to say.

use std::fmt;

/// A field of a block's header or of a frame, with its number in include/grommetide.h.
#[derive(Clone, Copy, PartialEq, Eq, PartialOrd, Ord, Hash, Debug)]
pub enum Field {
    Length = 1,
    Kind = 2,
    Host = 3,
    Id = 4,
    Finish = 5,
    Time = 6,
    State = 7,
    Rest = 8,
    Crc = 9,
}

impl Field {
    pub const ALL: [Field; 9] = [
        Field::Length,
        Field::Kind,
        Field::Host,
        Field::Id,
        Field::Finish,
        Field::Time,
        Field::State,
        Field::Rest,
        Field::Crc,
    ];

    pub fn numbered(number: u8) -> Option<Field> {
        Field::ALL.into_iter().find(|field| *field as u8 == number)
    }
}

impl fmt::Display for Field {
    fn fmt(&self, f: &mut fmt::Formatter) -> fmt::Result {
        f.write_str(match self {
            Field::Length => "length",
            Field::Kind => "kind",
            Field::Host => "host",
            Field::Id => "id",
            Field::Finish => "finish",
            Field::Time => "time",
            Field::State => "state",
            Field::Rest => "rest",
            Field::Crc => "crc",
        })
    }
}

/// The first bad field of a block; its place is where it starts in the block.
#[derive(Clone, Copy, PartialEq, Eq, Debug)]
pub struct Fault {
    pub block: usize,
    pub field: Field,
    pub place: usize,
}

/// As `desk replay` prints it.
impl fmt::Display for Fault {
    fn fmt(&self, f: &mut fmt::Formatter) -> fmt::Result {
        write!(f, "half={} fault={} place={}", self.block, self.field, self.place)
    }
}
