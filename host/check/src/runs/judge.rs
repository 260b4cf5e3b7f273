//! What a run is held to: the book, and what the book and document 01 tell beforehand.

use super::Run;
use crate::book::{Lengths, Lists, SECOND, found, lengths};
use crate::cuts::stuck;
use crate::damage;
use crate::generate::Wish;
use crate::places;
use crate::side::Modelled;
use crate::twin::{Call, Outcome, UNWRITTEN};
use model::frame::VALUE_LIMIT;
use store::{Answer, Drive, Head, Idle, Store, message};

impl<M: Modelled, L: Drive, P: Store> Run<M, L, P> {
    pub fn expected(&self, host: u8, wish: &Wish, reply: usize) -> (Answer, usize) {
        match self.twin.head() {
            _ if host > 3 => (Answer::HOST_RANGE, 0),
            Head::Job => (Answer::BUSY, 0),
            Head::Unmounted => (Answer::NO_STORE, 0),
            Head::Idle(idle) => self.expected_of_idle(idle, usize::from(host), wish, reply),
        }
    }

    fn expected_of_idle(&self, idle: Idle, host: usize, wish: &Wish, reply: usize) -> (Answer, usize) {
        let lengths = self.lengths();
        let (mark, change) = (lengths.mark, lengths.change);
        let taken = self.book.claimed(lengths) + mark * self.book.open(host);
        let (frame, room) = match wish {
            Wish::Read(id) if self.book.objects.contains_key(id) => return (Answer::DONE, 0),
            Wish::Read(_) => return (Answer::NO_OBJECT, 0),
            Wish::Log if reply < message::PAGE => return (Answer::SHORT_REPLY, 0),
            Wish::Log => return (Answer::DONE, 0),
            Wish::Commit | Wish::Abort if self.book.lists[host].is_empty() => return (Answer::DONE, 0),
            Wish::Commit | Wish::Abort => (mark, true),
            Wish::Convert => return self.expected_of_convert(),
            Wish::Put(_, value) if value.len() > VALUE_LIMIT => return (Answer::MALFORMED, 0),
            Wish::Put(_, value) => {
                let frame = change + value.len();
                (frame, taken + frame + lengths.reserve <= self.twin.size())
            }
            Wish::Delete(_) => (change, taken + change <= self.twin.size()),
        };
        if matches!(wish, Wish::Put(..) | Wish::Delete(_))
            && self.book.pending(host, lengths) + frame > self.twin.size() / 2
        {
            return (Answer::HOST_FULL, 0);
        }
        let transfer = usize::from(idle.end) + frame > self.twin.size();
        if !room {
            (Answer::NO_ROOM, 0)
        } else if transfer && self.newest() == Some(u32::MAX) {
            (Answer::WORN, 0)
        } else {
            (Answer::MORE, frame + if transfer { self.book.claimed(lengths) - 5 } else { 0 })
        }
    }

    /// K9: the settled objects go over to edition 2, unless they are there.
    fn expected_of_convert(&self) -> (Answer, usize) {
        let used = self.book.used(SECOND);
        if !self.book.settled() {
            (Answer::PENDING, 0)
        } else if used > self.twin.size() {
            (Answer::NO_ROOM, 0)
        } else if self.edition == 2 {
            (Answer::DONE, 0)
        } else if self.newest() == Some(u32::MAX) {
            (Answer::WORN, 0)
        } else {
            (Answer::MORE, used - 5)
        }
    }

    /// The log page holds the book's count and U; nothing else writes to the reply.
    pub fn check_reply(&self, wish: &Wish, outcome: &Outcome) {
        let mut expected = vec![UNWRITTEN; outcome.reply.len()];
        if *wish == Wish::Log && outcome.answer == Answer::DONE {
            let time = self.newest().expect("a valid block");
            let short = |number: usize| (number as u16).to_le_bytes();
            let numbers =
                [short(self.book.objects.len()), short(self.book.used(self.lengths())), short(self.twin.size())];
            let page = [&[14, 0, 1, 2][..], &time.to_le_bytes(), &numbers.concat()].concat();
            expected[..message::PAGE].copy_from_slice(&page);
        }
        assert_eq!(outcome.reply, expected, "another reply");
    }

    /// What holds of every run beyond the letter of demand 3: the store stays there.
    pub fn check_available(&mut self, call: &Call, answer: Answer, busy: bool) {
        match (call, answer) {
            (Call::Format, _) => assert_eq!(answer, Answer::MORE),
            (Call::Mount, Answer::NO_STORE) => assert!(self.format_open, "the store is gone"),
            (Call::Mount, Answer::WORN) => assert!(stuck(self.twin.image(), self.twin.blocks)),
            (Call::Mount, _) => assert!(!answer.refused(), "mount answered {answer}"),
            (Call::Step | Call::Run(_), _) => assert!(!answer.refused(), "a step got {answer}"),
            _ => assert!(
                ![Answer::IMAGE_LENGTH, Answer::FOREIGN, Answer::STALE].contains(&answer),
                "{call} got {answer}"
            ),
        }
        self.follow_format(call, answer, busy);
    }

    fn follow_format(&mut self, call: &Call, answer: Answer, busy: bool) {
        let ended = call.goes_on() && busy && answer == Answer::DONE;
        if *call == Call::Format || (*call == Call::Mount && busy) {
            self.wear.end();
        } else if self.format_open && ended {
            self.wear.start(self.twin.erases());
        }
        self.format_open = match call {
            Call::Format => true,
            Call::Mount => self.format_open && answer.refused(),
            _ => self.format_open && !ended,
        };
    }

    /// The job's steps are as many as document 01 says, a mount's those that it has to do.
    pub fn count_steps(&mut self, call: &Call, outcome: &Outcome, busy: bool, mount: Option<usize>) {
        match call {
            Call::Format => self.due = Some(usize::from(self.twin.blocks) + 10),
            Call::Mount => self.due = mount,
            Call::Request { .. } if outcome.answer == Answer::MORE => self.due = None,
            Call::Step | Call::Run(_) if busy => {
                self.due = self.due.map(|due| due.checked_sub(outcome.steps).expect("more steps than due"));
                let last = outcome.answer != Answer::MORE;
                assert!(!last || self.due.is_none_or(|due| due == 0), "fewer steps than due");
            }
            _ => {}
        }
    }

    pub fn lengths(&self) -> Lengths {
        lengths(self.edition)
    }

    /// A finished convert makes edition 2, a finished format edition 1. A convert that is cut has made edition 2 exactly if the
    /// time has risen. Nothing else changes the edition.
    pub fn follow_edition(&mut self, call: &Call, answer: Answer, busy: bool) {
        let (converts, ended) = (busy && self.job.0 == "convert", call.goes_on() && answer == Answer::DONE);
        self.convert_cut |= converts && matches!(call, Call::Mount | Call::Format);
        if ended && converts {
            self.edition = 2;
        } else if ended && busy && self.format_open {
            self.edition = 1;
        }
        if answer == Answer::MORE && call.job() == "convert" {
            self.convert_time = self.newest();
            self.tight = self.book.used(SECOND) + SECOND.reserve > self.twin.size();
        }
        let Some(idle) = self.twin.idle() else { return };
        if self.convert_cut && self.newest() > self.convert_time {
            self.edition = 2;
        }
        self.convert_cut = false;
        assert_eq!(idle.edition, self.edition, "another edition after {call}");
    }

    pub fn check_book(&mut self, idle: Idle) {
        let (objects, lists) = found(self.twin.block(usize::from(idle.block)));
        assert_eq!(objects, self.book.objects, "replay's objects are not the book's");
        assert_eq!(lists, self.book.lists, "replay's lists are not the book's");
        let lengths = self.lengths();
        let pending = [0, 1, 2, 3].map(|host| self.book.pending(host, lengths));
        assert_eq!(idle.pending.map(usize::from), pending, "the record's pending bytes are not the book's");
        assert!(pending.iter().all(|bytes| *bytes <= self.twin.size() / 2), "a host has more than half a block");
        self.check_places(idle);
        let tight = self.edition == 2 && self.tight;
        self.twin.tally.second += u64::from(self.edition == 2);
        self.twin.tally.tight += u64::from(tight);
        if lists == Lists::default() {
            let free = self.twin.size().checked_sub(self.book.used(lengths)).expect("U is at most S");
            assert!(tight || free >= lengths.reserve, "no room for a delete though nothing is pending");
        } else {
            assert!(!tight, "something is pending in a tight store");
        }
        if self.rng.once_in(10) {
            self.harm_a_copy();
        }
        if self.rng.once_in(100) {
            (0..=255).for_each(|id| self.check_read(id));
        } else {
            let held: Vec<u8> = self.book.objects.keys().copied().collect();
            let any = held.is_empty() || self.rng.once_in(2);
            let id = if any { self.manner.id(&mut self.rng) } else { self.rng.pick(&held) };
            self.check_read(id);
        }
    }

    /// The record's places are replay's, of exactly the book's objects; those from before a transfer are kept.
    fn check_places(&mut self, idle: Idle) {
        let replay = places::of_block(self.twin.block(usize::from(idle.block)));
        assert_eq!(idle.places, replay, "the record's places are not replay's");
        let placed = (0..=255).filter(|id| idle.places[usize::from(*id)] != 0);
        assert!(placed.eq(self.book.objects.keys().copied()), "places of other objects than the book's");
        if idle.block != self.last.0 {
            self.old = self.last.1;
        }
        self.last = (idle.block, idle.places);
    }

    /// A mount of the image with up to three bytes harmed is refused for the same fault by all; the run goes on with the image.
    fn harm_a_copy(&mut self) {
        let mut image = self.twin.image().to_vec();
        for _ in 0..=self.rng.below(3) {
            damage::harm(&mut self.rng, &mut image, self.twin.size());
        }
        self.twin.fault_of(&image);
    }

    fn check_read(&mut self, id: u8) {
        assert_eq!(self.twin.value(id).as_ref(), self.book.objects.get(&id), "read of {id}");
    }
}
