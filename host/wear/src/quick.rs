//! Whole jobs, a transfer seen by the record alone: for runs that are too long or too many to look at the image each time.

use crate::count::Shape;
use check::side::Side;
use check::twin::Call;
use store::{Answer, Head, Idle, Store};

pub struct Quick<T: Store> {
    pub side: Side<T>,
    pub shape: Shape,
}

/// C when it was accepted, and the block that was erased.
pub struct Transfer {
    pub claimed: usize,
    pub from: u8,
}

impl<T: Store> Quick<T> {
    fn idle(&self) -> Idle {
        match self.side.head() {
            Head::Idle(idle) => idle,
            other => panic!("{other:?} after whole jobs"),
        }
    }

    /// The frame's bytes, 0 if the request is refused or has none, and its transfer if there is one.
    pub fn serve(&mut self, host: u8, message: Vec<u8>) -> (usize, Option<Transfer>) {
        let (from, bytes) = (self.idle().block, message.len() + self.shape.longer());
        let answer = self.side.call(&Call::Request { host, message, reply: 0 }, self.shape.blocks).answer;
        if answer != Answer::MORE {
            return (0, None);
        }
        self.side.call(&Call::Run(usize::MAX), self.shape.blocks);
        let Idle { block, end, .. } = self.idle();
        (bytes, (block != from).then(|| Transfer { claimed: usize::from(end) - bytes, from }))
    }
}
