//! The board record and the steps of a job, one for each call.

use crate::MOST;
use crate::journal::{
    BARE, COMMIT, DELETE, FINISH, HEADER, IN_PROGRESS, Journal, KEPT, LABEL, LONGEST, PUT, RESET, SETTLED,
};
use crate::journal::{STATE, TIME, VALID, finish, label, value_at};
use store::{Answer, Idle};

#[derive(Clone, Copy, PartialEq, Eq, Debug)]
pub enum Phase {
    Unmounted,
    Idle,
    /// Erasing the blocks that a mount or format erases first.
    Wipe,
    /// The new block's state byte and label.
    Open,
    Copy,
    /// Its time and state byte.
    Seal,
    /// Erasing the old block.
    Drop,
    /// Closing a torn frame.
    Close,
    Append,
}

/// In a job `block` is the block that is written to, and `end` where its next frame byte goes.
#[derive(Clone, PartialEq, Eq, Debug)]
pub struct Record {
    pub phase: Phase,
    pub length: u32,
    pub blocks: u8,
    pub block: u8,
    pub end: u16,
    /// In a job, the edition of the block that is written to.
    pub edition: u8,
    /// By host, the bytes of its pending frames; in a job, what they are when it ends.
    pub pending: [u16; 4],
    /// By id, the frame that its settled value stands in; in a transfer, from `id` on still in the old block.
    pub places: [u16; 256],
    /// The bytes of a block.
    size: u16,
    /// How many blocks are erased first, and which, in this order.
    wipes: u8,
    wipe: [u8; MOST],
    /// Whether a block is made, and whether the one before it is erased after.
    makes: bool,
    drops: bool,
    time: u32,
    /// How many bytes of a torn frame are programmed, and which, in this order: the last is its finish byte.
    closes: u8,
    close: [u16; 4],
    /// The next of `wipe` or `close`, the next write of Open or Seal, the next byte of `unit` or `frame`.
    index: u8,
    /// The edition of the block that is copied.
    source: u8,
    /// What is copied: settled values from `id` on, then the old block's changes from `from` to `until`, of each host from
    /// `since` on.
    id: u16,
    from: u16,
    until: u16,
    since: [u16; 4],
    /// The frame being copied, and the one to append; a length of 0 is none.
    unit: [u8; LONGEST],
    frame: [u8; LONGEST],
}

impl Record {
    pub const UNMOUNTED: Record = Record {
        phase: Phase::Unmounted,
        length: 0,
        blocks: 0,
        block: 0,
        end: 0,
        edition: 0,
        pending: [0; 4],
        places: [0; 256],
        size: 0,
        wipes: 0,
        wipe: [0; MOST],
        makes: false,
        drops: false,
        time: 0,
        closes: 0,
        close: [0; 4],
        index: 0,
        source: 0,
        id: 0,
        from: 0,
        until: 0,
        since: [0; 4],
        unit: [0; LONGEST],
        frame: [0; LONGEST],
    };

    /// An unmounted record names a block of an image.
    pub fn name(&mut self, length: usize, blocks: u8, block: u8, end: u16, edition: u8) {
        self.phase = Phase::Idle;
        self.length = length as u32;
        (self.blocks, self.block, self.end, self.edition) = (blocks, block, end, edition);
    }

    /// What the last job was is forgotten.
    pub fn clear(&mut self) {
        (self.wipes, self.closes, self.index) = (0, 0, 0);
        (self.makes, self.drops) = (false, false);
        self.frame[0] = 0;
    }

    /// What an idle record says.
    pub fn idle(&self) -> Idle {
        let Record { block, end, blocks, edition, pending, places, .. } = *self;
        Idle { length: self.length as usize, block, end, blocks, edition, pending, places }
    }

    /// Erases this block after those asked for before.
    pub fn wipe(&mut self, block: usize) {
        self.wipe[usize::from(self.wipes)] = block as u8;
        self.wipes += 1;
    }

    /// An empty block is made.
    pub fn make(&mut self, block: u8, time: u32, edition: u8) {
        (self.block, self.end, self.edition) = (block, HEADER as u16, edition);
        (self.makes, self.time) = (true, time);
        (self.id, self.from, self.until) = (256, 0, 0);
    }

    /// The journal, whose places the record has, goes over to the next block in this edition, with its pending frames or
    /// without.
    pub fn transfer(&mut self, journal: &Journal, edition: u8, pending: bool) {
        let next = self.block + 1;
        self.make(if next == self.blocks { 0 } else { next }, journal.time + 1, edition);
        self.source = journal.edition;
        self.drops = true;
        self.id = 0;
        self.until = journal.end as u16;
        self.from = if pending { HEADER as u16 } else { self.until };
        for host in 0..4 {
            self.since[host] = if journal.pending[host] > 0 { journal.since[host] } else { self.until };
        }
    }

    /// The frame that the journal's tail is torn from is closed, which leaves its end behind it: length, kind and finish byte,
    /// but for those bytes that are as they should be.
    pub fn close(&mut self, block: &[u8], journal: &Journal) {
        for place in [1, 2, 3, journal.torn - 1].map(|offset| journal.end + offset) {
            if block[place] != 0 {
                self.close[usize::from(self.closes)] = place as u16;
                self.closes += 1;
            }
        }
        self.end += journal.torn as u16;
    }

    /// A reset is written.
    pub fn reset(&mut self) {
        self.frame[..BARE].copy_from_slice(&[0, 0, RESET, 0]);
        finish(&mut self.frame, BARE, self.edition);
    }

    /// A frame is written: a change adds to what its host has pending, a commit or abort ends that.
    pub fn append(&mut self, head: &[u8], value: &[u8]) {
        let front = head.len() + value.len();
        self.frame[..head.len()].copy_from_slice(head);
        self.frame[head.len()..front].copy_from_slice(value);
        finish(&mut self.frame, front, self.edition);
        let pending = &mut self.pending[usize::from(head[4])];
        *pending = if head[2] <= DELETE { *pending + u16::from(self.frame[0]) } else { 0 };
    }

    /// The host's changes, from its first one on, are settled where they stand.
    pub fn settle(&mut self, block: &[u8], journal: &Journal, host: u8) {
        let mut at = usize::from(journal.since[usize::from(host)]);
        while at < journal.end {
            if matches!(block[at + 2], PUT | DELETE) && block[at + 4] == host {
                self.place(block[at + 2], block[at + 5], at as u16);
            }
            at += usize::from(block[at]);
        }
    }

    /// What a settled put or delete that stands there does to its id's place.
    fn place(&mut self, kind: u8, id: u8, at: u16) {
        self.places[usize::from(id)] = if kind == PUT { at } else { 0 };
    }

    /// Whether the frame to append settles the changes of this host.
    fn commits(&self, host: u8) -> bool {
        self.frame[0] != 0 && self.frame[2] == COMMIT && self.frame[4] == host
    }

    /// Takes up what was asked for above.
    pub fn begin(&mut self, image: &[u8]) -> Answer {
        self.phase = Phase::Wipe;
        self.size = (image.len() / usize::from(self.blocks)) as u16;
        if self.wipes == 0 {
            self.next_phase(image);
        }
        self.answer()
    }

    fn answer(&self) -> Answer {
        if self.phase == Phase::Idle { Answer::DONE } else { Answer::MORE }
    }

    /// The next phase that has a step to do.
    fn next_phase(&mut self, image: &[u8]) {
        self.index = 0;
        loop {
            let (next, due) = match self.phase {
                Phase::Wipe => (Phase::Open, self.makes),
                Phase::Open => (Phase::Copy, self.makes && self.load(image)),
                Phase::Copy => (Phase::Seal, self.makes),
                Phase::Seal => (Phase::Drop, self.drops),
                Phase::Drop => (Phase::Close, self.closes > 0),
                Phase::Close => (Phase::Append, self.frame[0] != 0),
                Phase::Append | Phase::Idle | Phase::Unmounted => (Phase::Idle, true),
            };
            self.phase = next;
            if due {
                return;
            }
        }
    }

    pub fn step(&mut self, image: &mut [u8], blocks: u8) -> Answer {
        if matches!(self.phase, Phase::Unmounted | Phase::Idle) {
            return Answer::DONE;
        }
        if (image.len(), blocks) != (self.length as usize, self.blocks) {
            return Answer::STALE;
        }
        if self.make_step(image) {
            self.next_phase(image);
        }
        self.answer()
    }

    /// Makes the step; says whether it was its phase's last.
    fn make_step(&mut self, image: &mut [u8]) -> bool {
        let index = usize::from(self.index);
        self.index += 1;
        match self.phase {
            Phase::Wipe => {
                self.erase(image, self.wipe[index]);
                index + 1 == usize::from(self.wipes)
            }
            Phase::Open => {
                let (at, byte) =
                    if index == 0 { (STATE, IN_PROGRESS) } else { (index - 1, label(self.edition)[index - 1]) };
                self.program(image, at, byte);
                index == LABEL
            }
            Phase::Copy => {
                self.program_next(image, self.unit[index]);
                index + 1 == usize::from(self.unit[0]) && !self.load(image)
            }
            Phase::Seal => {
                let time = (!self.time).to_le_bytes();
                let (at, byte) = if index < time.len() { (TIME + index, time[index]) } else { (STATE, VALID) };
                self.program(image, at, byte);
                index == time.len()
            }
            Phase::Drop => {
                self.erase(image, self.old());
                true
            }
            Phase::Close => {
                let last = index + 1 == usize::from(self.closes);
                self.program(image, usize::from(self.close[index]), if last { FINISH } else { 0 });
                last
            }
            _ => {
                self.program_next(image, self.frame[index]);
                index + 1 == usize::from(self.frame[0])
            }
        }
    }

    /// The block before the one that is written to, round to the last.
    fn old(&self) -> u8 {
        if self.block == 0 { self.blocks - 1 } else { self.block - 1 }
    }

    /// Where a block starts, and where it ends.
    fn bounds(&self, block: u8) -> (usize, usize) {
        let (size, number) = (usize::from(self.size), usize::from(block));
        (size * number, size * number + size)
    }

    fn erase(&self, image: &mut [u8], block: u8) {
        let (start, end) = self.bounds(block);
        image[start..end].fill(0xFF);
    }

    fn program(&self, image: &mut [u8], at: usize, byte: u8) {
        image[self.bounds(self.block).0 + at] &= byte;
    }

    fn program_next(&mut self, image: &mut [u8], byte: u8) {
        self.program(image, usize::from(self.end), byte);
        self.end += 1;
    }

    /// Takes the next frame to be copied into `unit`, if there is one. Its place is where it goes.
    fn load(&mut self, image: &[u8]) -> bool {
        let (start, end) = self.bounds(self.old());
        let old = &image[start..end];
        self.index = 0;
        while self.id < 256 {
            let (id, place) = (self.id as u8, self.places[usize::from(self.id)]);
            self.id += 1;
            if place != 0 {
                let (at, length) = value_at(old, usize::from(place), self.source);
                self.unit[..KEPT].copy_from_slice(&[0, 0, SETTLED, 0, id, 0]);
                self.unit[KEPT..KEPT + length].copy_from_slice(&old[at..at + length]);
                finish(&mut self.unit, KEPT + length, self.edition);
                self.places[usize::from(id)] = self.end;
                return true;
            }
        }
        while self.from < self.until {
            let at = usize::from(self.from);
            let (length, kind, host) = (usize::from(old[at]), old[at + 2], old[at + 4] & 3);
            self.from += length as u16;
            if matches!(kind, PUT | DELETE) && at >= usize::from(self.since[usize::from(host)]) {
                self.unit[..length].copy_from_slice(&old[at..at + length]);
                if self.commits(host) {
                    self.place(kind, old[at + 5], self.end);
                }
                return true;
            }
        }
        false
    }
}
