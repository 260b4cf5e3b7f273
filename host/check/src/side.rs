//! The stores that are compared.

use crate::call::{Call, Outcome, UNWRITTEN};
use library::Library;
use model::{Model, Record};
use plain::Plain;
use store::{Answer, Head, Idle, Store, Stretch};

/// Model, library and plain, or others in their places: tests of the comparison itself put wrong ones there. The library is
/// there twice: by step and run, and driven.
pub struct Stores<M, L, P> {
    pub model: M,
    pub library: L,
    pub driven: L,
    pub plain: P,
}

impl Stores<Model, Library, Plain> {
    pub fn real() -> Stores<Model, Library, Plain> {
        Stores { model: Model, library: Library::linked(), driven: Library::linked(), plain: Plain }
    }
}

impl Stores<Model, Model, Plain> {
    /// Model and plain alone, with the model in the library's place: for a request that the library has not got yet.
    pub fn apart() -> Stores<Model, Model, Plain> {
        Stores { model: Model, library: Model, driven: Model, plain: Plain }
    }
}

/// What may stand in the model's place: the comparison looks into its jobs.
pub trait Modelled: Store<Record = Record> {}

impl<M: Store<Record = Record>> Modelled for M {}

/// One store with its own copy of the image.
pub struct Side<S: Store> {
    pub store: S,
    pub image: Vec<u8>,
    pub record: S::Record,
}

impl<S: Store> Side<S> {
    pub fn new(store: S, image: &[u8]) -> Side<S> {
        Side { record: store.unmounted(), image: image.to_vec(), store }
    }

    pub fn load(&mut self, image: &[u8]) {
        self.image.clear();
        self.image.extend_from_slice(image);
        self.record = self.store.unmounted();
    }

    pub fn forge(&mut self, idle: Idle) {
        self.record = self.store.idle(idle);
    }

    pub fn unmount(&mut self) {
        self.record = self.store.unmounted();
    }

    pub fn head(&self) -> Head {
        self.store.head(&self.record)
    }

    /// Makes the call. Mount and format take no record; the other calls leave it as it is unless a job begins in it or a
    /// step of its job is made.
    pub fn call(&mut self, call: &Call, blocks: u8) -> Outcome {
        let mut outcome =
            Outcome { answer: Answer::DONE, steps: 0, reply: Vec::new(), stretch: Stretch::default() };
        let (image, before) = (&mut self.image, self.record.clone());
        let record = &mut self.record;
        match call {
            Call::Mount => (outcome.answer, *record) = self.store.mount(image, blocks),
            Call::Format => (outcome.answer, *record) = self.store.format(image, blocks),
            Call::Step => {
                let busy = self.store.head(record) == Head::Job;
                outcome.answer = self.store.step(image, blocks, record);
                outcome.steps = usize::from(busy && !outcome.answer.refused());
            }
            Call::Run(most) => (outcome.answer, outcome.steps) = self.store.run(image, blocks, record, *most),
            Call::Request { host, message, reply } => {
                outcome.reply = vec![UNWRITTEN; *reply];
                outcome.answer = self.store.request(image, blocks, record, *host, message, &mut outcome.reply);
            }
            Call::Read { host, message } => {
                (outcome.answer, outcome.stretch) = self.store.read(image, blocks, record, *host, message);
            }
        }
        let kept = match call {
            Call::Mount | Call::Format => false,
            Call::Step | Call::Run(_) => outcome.steps == 0,
            Call::Request { .. } => outcome.answer != Answer::MORE,
            Call::Read { .. } => true,
        };
        assert!(!kept || self.record == before, "{call} answered {} and changed the record", outcome.answer);
        outcome
    }

    /// Makes the call and says how this side then differs from the model, if it does.
    pub fn difference(
        &mut self,
        call: &Call,
        blocks: u8,
        expected: &Outcome,
        head: Head,
        image: &[u8],
    ) -> Option<String> {
        let outcome = self.call(call, blocks);
        if outcome != *expected {
            Some(format!("gave {outcome:?}, the model {expected:?}"))
        } else if self.head() != head {
            Some(format!("has a record that says {:?}, the model's {head:?}", self.head()))
        } else if self.image != image {
            Some("has an image that differs from the model's".to_string())
        } else {
            None
        }
    }
}
