//! The model with some calls replaced: wrong stores for the tests that must tell them from right ones.

use check::side::Stores;
use model::job::{Step, Work, begin};
use model::{Model, Record};
use store::{Answer, Drive, Fault, Field, Head, Idle, Store, Stretch, Told};

pub type Begun = (Answer, Record);
type Said = (Answer, Option<Fault>);
type Found = (Answer, Stretch);
type Ask = fn(&[u8], u8, &mut Record, u8, &[u8], &mut [u8]) -> Answer;

#[derive(Clone, Copy)]
pub struct Altered {
    pub mount: fn(&[u8], u8) -> Begun,
    /// What is said of an image that the mount refuses with 3, and of any other.
    pub fault: fn(&[u8], u8, Answer) -> Said,
    pub format: fn(&[u8], u8) -> Begun,
    pub request: Ask,
    pub step: fn(&mut [u8], u8, &mut Record) -> Answer,
    pub read: fn(&[u8], u8, &Record, u8, &[u8]) -> Found,
    pub idle: fn(Idle) -> Record,
    pub told: fn(usize, u8, &Record) -> (Answer, Told),
    pub made: fn(&[u8], u8, &mut Record) -> Answer,
}

pub const RIGHT: Altered = Altered {
    mount: |image, blocks| Model.mount(image, blocks),
    fault: |image, blocks, mount| match mount {
        Answer::FOREIGN => (mount, Some(first_fault(image, blocks))),
        refusal if refusal.refused() => (refusal, None),
        _ => (Answer::DONE, None),
    },
    format: |image, blocks| Model.format(image, blocks),
    request: |image, blocks, record, host, message, reply| {
        Model.request(image, blocks, record, host, message, reply)
    },
    step: |image, blocks, record| Model.step(image, blocks, record),
    read: |image, blocks, record, host, message| Model.read(image, blocks, record, host, message),
    idle: Record::Idle,
    told: |length, blocks, record| Model.told(length, blocks, record),
    made: |image, blocks, record| Model.made(image, blocks, record),
};

/// A mount that is wrong to refuse with 3 has to name something.
fn first_fault(image: &[u8], blocks: u8) -> Fault {
    Model.fault(image, blocks).1.unwrap_or(Fault { block: 0, field: Field::Time, place: 4 })
}

/// All steps of a job, and the idle record after them.
pub fn steps(record: &Record) -> Option<(Vec<Step>, Idle)> {
    let Record::Job(job) = record else { return None };
    let (mut job, mut steps) = (job.clone(), Vec::new());
    loop {
        steps.push(job.next());
        if let Some(idle) = job.advance() {
            return Some((steps, idle));
        }
    }
}

/// A job of these steps.
pub fn job(steps: impl IntoIterator<Item = Step>, idle: Idle) -> Record {
    let work = steps.into_iter().map(|step| match step {
        Step::Erase { at, len } => Work::Erase { at, len },
        Step::Program { at, byte } => Work::program(at, [byte]),
    });
    begin(work.collect(), idle)
}

impl Altered {
    /// The same wrong store in all places: then only what is known beforehand can tell.
    pub fn everywhere(self) -> Stores<Altered, Altered, Altered> {
        Stores { model: self, library: self, driven: self, plain: self }
    }
}

impl Store for Altered {
    type Record = Record;

    fn mount(&self, image: &[u8], blocks: u8) -> Begun {
        (self.mount)(image, blocks)
    }

    fn fault(&self, image: &[u8], blocks: u8) -> Said {
        (self.fault)(image, blocks, (self.mount)(image, blocks).0)
    }

    fn format(&self, image: &[u8], blocks: u8) -> Begun {
        (self.format)(image, blocks)
    }

    fn request(
        &self,
        image: &[u8],
        blocks: u8,
        record: &mut Record,
        host: u8,
        message: &[u8],
        reply: &mut [u8],
    ) -> Answer {
        (self.request)(image, blocks, record, host, message, reply)
    }

    fn step(&self, image: &mut [u8], blocks: u8, record: &mut Record) -> Answer {
        (self.step)(image, blocks, record)
    }

    fn read(&self, image: &[u8], blocks: u8, record: &Record, host: u8, message: &[u8]) -> Found {
        (self.read)(image, blocks, record, host, message)
    }

    fn unmounted(&self) -> Record {
        Record::Unmounted
    }

    fn idle(&self, idle: Idle) -> Record {
        (self.idle)(idle)
    }

    fn head(&self, record: &Record) -> Head {
        Model.head(record)
    }
}

impl Drive for Altered {
    fn told(&self, length: usize, blocks: u8, record: &Record) -> (Answer, Told) {
        (self.told)(length, blocks, record)
    }

    fn made(&self, image: &[u8], blocks: u8, record: &mut Record) -> Answer {
        (self.made)(image, blocks, record)
    }
}
