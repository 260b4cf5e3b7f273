//! K12's counts over a run of requests and steps, and the inequalities that must hold of them after each call.

/// The fields of the theorem `Endures`; `each-block` says two things.
#[derive(Clone, Copy, PartialEq, Eq, PartialOrd, Ord, Debug)]
pub enum Bound {
    /// (E - 1)·(S + 1 - M) is at most B + R.
    Strong,
    /// (E - 1)·(S/2 + 1) is at most 2B, if each C at a transfer was at most S/2.
    Doubled,
    /// (E - 1)·(S/2 - L + 1) is at most B, if also S/2 is at least L: the customer's.
    Asked,
    /// 6·E is at most B, in edition 2 10·E.
    Always,
    /// N·(e - 1)·(S/2 - L + 1) is at most B for a block erased e times, where `Asked` is said.
    EachBlock,
    /// N·(e - 1) + 1 is at most E for a block erased e times, e at least 1.
    InTurn,
}

impl Bound {
    pub const ALL: [Bound; 6] =
        [Bound::Strong, Bound::Doubled, Bound::Asked, Bound::Always, Bound::EachBlock, Bound::InTurn];
}

/// What stays the same in a run: N, S and the edition.
#[derive(Clone, Copy, PartialEq, Eq, Debug)]
pub struct Shape {
    pub blocks: u8,
    pub size: usize,
    pub edition: u8,
}

impl Shape {
    pub fn length(self) -> usize {
        usize::from(self.blocks) * self.size
    }

    /// How much longer a frame is than the message that asks for it.
    pub fn longer(self) -> usize {
        self.either(2, 6)
    }

    /// K12's L.
    pub fn longest(self) -> usize {
        self.either(248, 252)
    }

    /// The shortest frame that a request can ask for.
    pub fn shortest(self) -> usize {
        self.either(6, 10)
    }

    /// `Asked`'s bytes an erase, where it says something.
    pub fn asked(self) -> Option<usize> {
        (self.size / 2).checked_sub(self.longest()).map(|rest| rest + 1)
    }

    fn either(self, first: usize, second: usize) -> usize {
        if self.edition == 1 { first } else { second }
    }
}

/// What a call did that counts.
#[derive(Clone, Copy, Debug)]
pub enum Seen {
    /// A request was accepted and a job begun: its frame's bytes, and C at that moment.
    Begun {
        bytes: usize,
        claimed: usize,
    },
    /// A step: the blocks in which a bit rose, by number.
    Step {
        rose: u16,
    },
    Nothing,
}

#[derive(Clone, Debug)]
pub struct Count {
    shape: Shape,
    /// E, the steps after which some bit had risen.
    pub erases: usize,
    /// B, the bytes of the accepted frames.
    pub bytes: usize,
    /// R, those of the frames whose job made an erase, other than the first.
    pub causing: usize,
    /// M, the largest C of a job that made an erase.
    pub claimed: usize,
    /// e, by block.
    pub each: [usize; 16],
    /// The last accepted frame, its bytes until they are in R, and its C.
    last: (usize, usize),
}

impl Count {
    pub fn new(shape: Shape) -> Count {
        Count { shape, erases: 0, bytes: 0, causing: 0, claimed: 0, each: [0; 16], last: (0, 0) }
    }

    pub fn feed(&mut self, seen: Seen) {
        match seen {
            Seen::Begun { bytes, claimed } => {
                self.bytes += bytes;
                self.last = (bytes, claimed);
            }
            Seen::Step { rose } if rose != 0 => self.erased(rose),
            _ => {}
        }
    }

    fn erased(&mut self, rose: u16) {
        let bytes = std::mem::take(&mut self.last.0);
        if self.erases > 0 {
            self.causing += bytes;
        }
        self.erases += 1;
        self.claimed = self.claimed.max(self.last.1);
        for (block, erases) in self.each.iter_mut().enumerate() {
            *erases += usize::from(rose >> block & 1);
        }
    }

    /// Whether each C at a transfer was at most S/2.
    pub fn roomy(&self) -> bool {
        self.claimed <= self.shape.size / 2
    }

    pub fn holds(&self, bound: Bound) -> bool {
        let Shape { blocks, size, .. } = self.shape;
        let (blocks, later) = (usize::from(blocks), self.erases.saturating_sub(1));
        let most = self.each.iter().copied().max().unwrap_or(0);
        let asked = self.shape.asked().filter(|_| self.roomy());
        match bound {
            Bound::Strong => later * (size + 1 - self.claimed) <= self.bytes + self.causing,
            Bound::Doubled => !self.roomy() || later * (size / 2 + 1) <= 2 * self.bytes,
            Bound::Asked => asked.is_none_or(|asked| later * asked <= self.bytes),
            Bound::Always => self.shape.shortest() * self.erases <= self.bytes,
            Bound::EachBlock => asked.is_none_or(|asked| blocks * most.saturating_sub(1) * asked <= self.bytes),
            Bound::InTurn => most == 0 || blocks * (most - 1) < self.erases,
        }
    }
}

#[cfg(test)]
mod tests {
    use super::*;

    const SHAPE: Shape = Shape { blocks: 2, size: 512, edition: 1 };

    fn frame(count: &mut Count, bytes: usize, claimed: usize, block: usize) {
        count.feed(Seen::Begun { bytes, claimed });
        count.feed(Seen::Step { rose: 0 });
        count.feed(Seen::Step { rose: 1 << block });
        count.feed(Seen::Nothing);
    }

    fn broken(count: &Count) -> Vec<Bound> {
        Bound::ALL.into_iter().filter(|bound| !count.holds(*bound)).collect()
    }

    #[test]
    fn what_is_counted() {
        let mut count = Count::new(SHAPE);
        count.feed(Seen::Begun { bytes: 30, claimed: 400 });
        for (bytes, claimed, block) in [(8, 100, 0), (20, 256, 1), (6, 90, 0)] {
            frame(&mut count, bytes, claimed, block);
        }
        assert_eq!((count.erases, count.bytes, count.causing, count.claimed), (3, 64, 26, 256));
        assert_eq!(count.each[..3], [2, 1, 0]);
    }

    /// 512 + 1 - 256 is 257, S/2 - 248 + 1 is 9: each number is the last that holds, or the first that does not.
    #[test]
    fn where_each_begins_to_break() {
        let two = |first, second, claimed| {
            let mut count = Count::new(SHAPE);
            frame(&mut count, first, claimed, 0);
            frame(&mut count, second, claimed, 1);
            count
        };
        assert_eq!(broken(&two(129, 64, 256)), []);
        assert_eq!(broken(&two(128, 64, 256)), [Bound::Strong]);
        assert_eq!(broken(&two(120, 8, 256)), [Bound::Strong, Bound::Doubled]);
        assert_eq!(broken(&two(240, 8, 257)), []);
        assert_eq!(broken(&two(239, 8, 257)), [Bound::Strong]);
        assert_eq!(broken(&two(6, 6, 506)), []);
        assert_eq!(broken(&two(6, 5, 506)), [Bound::Always]);
        assert_eq!(broken(&two(3, 5, 256)), [Bound::Strong, Bound::Doubled, Bound::Asked, Bound::Always]);
    }

    #[test]
    fn blocks_out_of_turn() {
        let mut count = Count::new(SHAPE);
        for block in [0, 0] {
            frame(&mut count, 248, 16, block);
        }
        assert_eq!(broken(&count), [Bound::InTurn]);
        let mut count = Count::new(Shape { size: 1024, ..SHAPE });
        for block in [0, 0] {
            frame(&mut count, 248, 512, block);
        }
        assert_eq!(broken(&count), [Bound::EachBlock, Bound::InTurn]);
    }

    #[test]
    fn nothing_breaks_without_an_erase() {
        let mut count = Count::new(SHAPE);
        assert_eq!(broken(&count), []);
        count.feed(Seen::Begun { bytes: 6, claimed: 512 });
        assert_eq!(broken(&count), []);
    }
}
