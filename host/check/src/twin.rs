//! The model, the library and the plain program, given the same calls: whatever anyone can see of them must agree. The
//! library is there twice: by `step` and `run`, and by `next`, a flash step that is done here, and `made`.

pub use crate::call::{Call, Outcome, UNWRITTEN};
use crate::fault;
use crate::nor::Nor;
use crate::script::{Begun, Setting};
use crate::side::{Modelled, Side, Stores};
use crate::tally::Tally;
use library::{Driven, Library};
use model::job::{Job, Step};
use model::{Model, Record, block_of};
use plain::Plain;
use store::{Answer, Drive, Fault, Head, Idle, Store, Told, message};

pub struct Twin<M: Modelled = Model, L: Drive = Library, P: Store = Plain> {
    model: Side<M>,
    library: Side<L>,
    driven: Side<Driven<L>>,
    plain: Side<P>,
    nor: Nor,
    /// How many blocks each call is told.
    pub blocks: u8,
    /// How the job in hand began.
    job: Option<Begun>,
    pub tally: Tally,
}

impl Twin {
    /// An image of two blocks with an unmounted record.
    pub fn new(image: &[u8]) -> Twin {
        Twin::of_blocks(2, image)
    }

    pub fn of_blocks(blocks: u8, image: &[u8]) -> Twin {
        Twin::among(Stores::real(), blocks, image)
    }

    pub fn blank(length: usize) -> Twin {
        Twin::new(&vec![0xFF; length])
    }

    /// A blank image, formatted.
    pub fn formatted(length: usize) -> Twin {
        Twin::formatted_of(2, length)
    }

    pub fn formatted_of(blocks: u8, length: usize) -> Twin {
        Twin::formatted_among(Stores::real(), blocks, length)
    }
}

impl<M: Modelled, L: Drive, P: Store> Twin<M, L, P> {
    pub fn among(Stores { model, library, driven, plain }: Stores<M, L, P>, blocks: u8, image: &[u8]) -> Self {
        Twin {
            model: Side::new(model, image),
            library: Side::new(library, image),
            driven: Side::new(Driven(driven), image),
            plain: Side::new(plain, image),
            nor: Nor::new(image),
            blocks,
            job: None,
            tally: Tally::default(),
        }
    }

    pub fn formatted_among(stores: Stores<M, L, P>, blocks: u8, length: usize) -> Self {
        let mut twin = Twin::among(stores, blocks, &vec![0xFF; length]);
        assert_eq!(twin.whole(&Call::Format), (Answer::DONE, usize::from(blocks) + 10));
        twin
    }

    /// Another image with an unmounted record, as after a power cut.
    pub fn load(&mut self, image: &[u8]) {
        self.model.load(image);
        self.library.load(image);
        self.driven.load(image);
        self.plain.load(image);
        self.nor.load(image);
        self.job = None;
    }

    pub fn forge(&mut self, idle: Idle) {
        self.model.forge(idle);
        self.library.forge(idle);
        self.driven.forge(idle);
        self.plain.forge(idle);
    }

    pub fn unmount(&mut self) {
        self.model.unmount();
        self.library.unmount();
        self.driven.unmount();
        self.plain.unmount();
    }

    /// Replaces the image under whatever record there is.
    pub fn swap_image(&mut self, image: &[u8]) {
        self.model.image = image.to_vec();
        self.library.image = image.to_vec();
        self.driven.image = image.to_vec();
        self.plain.image = image.to_vec();
        self.nor.load(image);
    }

    pub fn image(&self) -> &[u8] {
        self.nor.bytes()
    }

    /// The bytes of a block, by the number that calls are told.
    pub fn block(&self, block: usize) -> &[u8] {
        block_of(self.image(), self.blocks, block)
    }

    /// How often each block has been erased so far.
    pub fn erases(&self) -> [usize; 16] {
        self.nor.erases
    }

    pub fn size(&self) -> usize {
        self.image().len() / usize::from(self.blocks)
    }

    pub fn head(&self) -> Head {
        self.model.head()
    }

    pub fn idle(&self) -> Option<Idle> {
        match self.head() {
            Head::Idle(idle) => Some(idle),
            _ => None,
        }
    }

    pub fn busy(&self) -> bool {
        self.head() == Head::Job
    }

    /// How many steps the job in hand has left.
    pub fn steps_left(&self) -> usize {
        match &self.model.record {
            Record::Job(job) => job.steps(),
            _ => 0,
        }
    }

    /// The block that the next step erases, if it does.
    pub fn erases_next(&self) -> Option<usize> {
        match &self.model.record {
            Record::Job(job) => match job.next() {
                Step::Erase { at, len } => Some(at / len),
                Step::Program { .. } => None,
            },
            _ => None,
        }
    }

    /// Power is lost inside the erase that comes next: these bits of the block are then 1, the others as they were.
    pub fn cut_erase(&mut self, mask: &[u8]) {
        let block = self.erases_next().expect("the next step is an erase");
        assert_eq!(mask.len(), self.size());
        self.nor.raise(block * mask.len(), mask);
        let image = self.image().to_vec();
        self.load(&image);
    }

    pub fn call(&mut self, call: &Call) -> Outcome {
        let before = self.head();
        self.compare_told(call, before);
        match call {
            Call::Step => self.step_on_nor(),
            Call::Run(most) => self.run_on_nor(*most),
            _ => {}
        }
        let outcome = self.model.call(call, self.blocks);
        if self.nor.bytes() != self.model.image {
            self.fail("the model's image is not what its steps make", before, call);
        }
        self.compare(call, &outcome, before);
        self.tally.count(call, &outcome);
        if *call == Call::Mount {
            self.compare_fault(outcome.answer);
        }
        self.remember(call, before, &outcome);
        outcome
    }

    /// What is next, by the model's job.
    fn next(&self) -> (Answer, Told) {
        Model.told(self.nor.bytes().len(), self.blocks, &self.model.record)
    }

    fn compare_told(&self, call: &Call, before: Head) {
        let told = self.library.store.told(self.nor.bytes().len(), self.blocks, &self.library.record);
        if told != self.next() {
            self.fail(&format!("the library tells {told:?}, the model {:?}", self.next()), before, call);
        }
    }

    /// Whether a step of this job may be made on the image that calls are given.
    fn is_on(&self, job: &Job) -> bool {
        job.is_on(self.nor.bytes().len(), self.blocks)
    }

    fn step_on_nor(&mut self) {
        match &self.model.record {
            Record::Job(job) if self.is_on(job) => self.nor.make(job.next()),
            _ => {}
        }
    }

    fn run_on_nor(&mut self, most: usize) {
        let Record::Job(job) = &self.model.record else { return };
        if self.is_on(job) {
            let mut job = job.clone();
            for _ in 0..most {
                self.nor.make(job.next());
                if job.advance().is_some() {
                    break;
                }
            }
        }
    }

    fn compare(&mut self, call: &Call, expected: &Outcome, before: Head) {
        let (head, image) = (self.head(), self.nor.bytes());
        let plain = self
            .plain
            .difference(call, self.blocks, expected, head, image)
            .map(|what| format!("the plain program {what}"));
        let library = self
            .library
            .difference(call, self.blocks, expected, head, image)
            .map(|what| format!("the library {what}"));
        let driven = self
            .driven
            .difference(call, self.blocks, expected, head, image)
            .map(|what| format!("the library driven {what}"));
        let parted = (self.driven.record != self.library.record)
            .then(|| "the library driven has another record than by steps".to_string());
        let untidy =
            (!tidy(&self.library)).then(|| "the library's record has bytes set that it does not use".to_string());
        if let Some(difference) = library.or(untidy).or(driven).or(parted).or(plain) {
            self.fail(&difference, before, call);
        }
    }

    /// Whatever a mount answers, whoever asks where the image broke is told the same.
    fn compare_fault(&mut self, mount: Answer) {
        let (answer, _) = self.fault();
        assert_eq!(answer, if mount.refused() { mount } else { Answer::DONE }, "mount answered {mount}");
    }

    /// Why a mount of the image as it is would be refused, and where it broke.
    pub fn fault(&mut self) -> (Answer, Option<Fault>) {
        let image = self.image().to_vec();
        self.fault_of(&image)
    }

    /// The same of another image.
    pub fn fault_of(&mut self, image: &[u8]) -> (Answer, Option<Fault>) {
        let (model, library, plain) = (&self.model.store, &self.library.store, &self.plain.store);
        let (answer, fault) = fault::agreed_by(model, library, plain, image, self.blocks);
        self.tally.count_fault(fault);
        (answer, fault)
    }

    fn remember(&mut self, call: &Call, before: Head, outcome: &Outcome) {
        if !call.goes_on() && outcome.answer == Answer::MORE {
            self.job = Some(Begun { setting: self.setting(before), call: call.clone(), steps: 0 });
        } else if let Some(begun) = &mut self.job {
            begun.steps += outcome.steps;
        }
    }

    /// Panics with a script that shows the difference in `desk replay`.
    fn fail(&self, what: &str, before: Head, call: &Call) -> ! {
        let script = match (&self.job, before) {
            (Some(begun), Head::Job) => begun.to_string(),
            _ => self.setting(before).to_string(),
        };
        panic!("{what}\n{script}blocks {}\n{call}\nrecord\ndump", self.blocks);
    }

    fn setting(&self, head: Head) -> Setting {
        Setting { image: self.image().to_vec(), blocks: self.blocks, head }
    }

    pub fn step(&mut self) -> Answer {
        self.call(&Call::Step).answer
    }

    /// Steps until the answer is no longer "more".
    pub fn finish(&mut self) -> (Answer, usize) {
        let mut steps = 0;
        while self.busy() {
            let answer = self.step();
            if answer.refused() {
                return (answer, steps);
            }
            steps += 1;
        }
        (Answer::DONE, steps)
    }

    /// The call and all its steps: the last answer and their number.
    pub fn whole(&mut self, call: &Call) -> (Answer, usize) {
        match self.call(call).answer {
            Answer::MORE => self.finish(),
            answer => (answer, 0),
        }
    }

    pub fn ask(&mut self, host: u8, message: &[u8]) -> Answer {
        self.call(&Call::Request { host, message: message.to_vec(), reply: message::PAGE }).answer
    }

    /// A request and all its steps.
    pub fn serve(&mut self, host: u8, message: &[u8]) -> (Answer, usize) {
        self.whole(&Call::Request { host, message: message.to_vec(), reply: message::PAGE })
    }

    /// The settled value of an object, as host 0 reads it.
    pub fn value(&mut self, id: u8) -> Option<Vec<u8>> {
        let Outcome { answer, stretch, .. } = self.call(&Call::Read { host: 0, message: message::read(id) });
        match answer {
            Answer::DONE => Some(stretch.of(self.image()).to_vec()),
            Answer::NO_OBJECT => None,
            refusal => panic!("read of {id} answered {refusal}"),
        }
    }

    /// The ids that read finds.
    pub fn ids(&mut self) -> Vec<u8> {
        (0..=255).filter(|id| self.value(*id).is_some()).collect()
    }

    /// Log page 1.
    pub fn log(&mut self) -> Vec<u8> {
        let call = Call::Request { host: 0, message: message::log(), reply: message::PAGE };
        let outcome = self.call(&call);
        assert_eq!(outcome.answer, Answer::DONE);
        outcome.reply
    }
}

/// Whether an unmounted or idle record of the library has zeros wherever it uses none.
fn tidy<L: Store>(library: &Side<L>) -> bool {
    match library.head() {
        Head::Unmounted => library.record == library.store.unmounted(),
        Head::Idle(idle) => library.record == library.store.idle(idle),
        Head::Job => true,
    }
}
