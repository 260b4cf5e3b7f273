//! What a mount of a run is held to (K11): where power was lost says what it has to do, mended or transferred.

use super::Run;
use crate::book::SECOND;
use crate::mend::{Dirt, Due, Plan, current, erases};
use crate::side::Modelled;
use crate::twin::Call;
use store::{Answer, Drive, Idle, Store, message};

impl<M: Modelled, L: Drive, P: Store> Run<M, L, P> {
    /// Power is lost, if a mount or format comes now; what that leaves in the current block.
    pub fn follow_cut(&mut self, call: &Call) {
        if matches!(call, Call::Mount | Call::Format) {
            let (plan, made) = (std::mem::take(&mut self.plan), self.job.1);
            self.dirt = self.dirt.cut(plan, made);
            self.twin.tally.count_mend(plan.cut_in(made));
        }
    }

    /// What a mount has to do now, by the book and by where power was lost; nothing where no block is valid.
    pub fn due_of_mount(&self, call: &Call) -> Option<Due> {
        if *call != Call::Mount {
            return None;
        }
        let (image, blocks) = (self.twin.image(), self.twin.blocks);
        let (block, journal) = current(image, blocks)?;
        assert_eq!(Dirt::of(image, blocks), Some(self.dirt), "power was lost and left something else");
        let (lengths, erases) = (self.lengths(), erases(image, blocks, block));
        let mending = self.dirt.mending(self.twin.size(), lengths, self.book.used(lengths));
        Some(Due { block, time: journal.time, erases, mending })
    }

    /// What the job that began will have done when it is cut. A mount is held to what it has to do.
    pub fn follow_plan(&mut self, call: &Call, answer: Answer, idle: Option<Idle>, due: Option<Due>) {
        match (call, due) {
            (Call::Mount, Some(due)) => {
                let expected = match due.steps() {
                    _ if due.worn() => Answer::WORN,
                    0 => Answer::DONE,
                    _ => Answer::MORE,
                };
                assert_eq!(answer, expected, "a mount of what a cut left: {:?}", self.dirt);
                if !answer.refused() {
                    self.twin.tally.count_mend(Some(due.mending.name()));
                    self.rest = Some(due.rest(self.twin.blocks));
                    self.plan = Plan::Mount { erases: due.erases, mending: due.mending };
                }
            }
            (Call::Format, _) => (self.plan, self.rest) = (Plan::Format, None),
            (Call::Request { message, .. }, _) if answer == Answer::MORE => {
                self.plan = self.plan_of(message, usize::from(idle.expect("idle").end));
            }
            _ => {}
        }
    }

    /// The plan of an accepted request, where frames end here.
    fn plan_of(&self, message: &[u8], end: usize) -> Plan {
        let lengths = self.lengths();
        let frame = match u16::from_le_bytes([message[2], message[3]]) {
            message::CONVERT => return Plan::Append { moves: self.book.used(SECOND), frame: 0 },
            message::PUT => lengths.change + message.len() - message::put(0, &[]).len(),
            message::DELETE => lengths.change,
            _ => lengths.mark,
        };
        let moves = if end + frame > self.twin.size() { self.book.claimed(lengths) } else { 0 };
        Plan::Append { moves, frame }
    }

    /// The board rests: a mount ends in the block and at the place where it was to.
    pub fn follow_rest(&mut self, idle: Idle) {
        let (block, end) = (usize::from(idle.block), usize::from(idle.end));
        if let Some(rest) = self.rest.take() {
            assert_eq!((block, end), rest, "a mount ends in another block or at another place");
        }
        self.dirt = Dirt::up_to(end, !self.book.settled());
        self.plan = Plan::None;
    }
}
