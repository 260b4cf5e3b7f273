//! The comparison itself: each of these stores is wrong in one thing that `Twin` compares, in the place of the library, the
//! library driven, plain or the model. The test must fail, and say what differs.

use super::altered::{Altered, RIGHT, job, steps};
use check::side::{Modelled, Stores};
use check::twin::{Call, Twin};
use model::job::Step;
use model::{Model, Record};
use store::{Answer, Drive, Fault, Idle, Store, Stretch, message, places};

const LENGTH: usize = 512;

/// A format, a change, its commit, a read, a log, a refusal, a restart that drops a change, a convert, and an image that is
/// refused.
fn use_all<M: Modelled, L: Drive, P: Store>(stores: Stores<M, L, P>) {
    let mut twin = Twin::formatted_among(stores, 2, LENGTH);
    assert_eq!(twin.serve(0, &message::put(1, b"one")), (Answer::DONE, 11));
    assert_eq!(twin.serve(0, &message::commit()), (Answer::DONE, 6));
    assert_eq!(twin.value(1), Some(b"one".to_vec()));
    assert_eq!(twin.log()[8..], [1, 0, 26, 0, 0, 1]);
    assert_eq!(twin.ask(0, &message::read(2)), Answer::NO_OBJECT);
    assert_eq!(twin.serve(1, &message::delete(1)), (Answer::DONE, 8));
    assert_eq!(twin.whole(&Call::Mount), (Answer::DONE, 5));
    assert_eq!(twin.serve(0, &message::convert()), (Answer::DONE, 16 + 11 + 3 - 5));
    let mut image = twin.image().to_vec();
    image[LENGTH / 2] = 0;
    twin.load(&image);
    assert_eq!(twin.call(&Call::Mount).answer, Answer::FOREIGN);
}

fn in_the_model(model: Altered) {
    use_all(Stores { model, ..RIGHT.everywhere() });
}

fn in_the_library(library: Altered) {
    use_all(Stores { library, ..RIGHT.everywhere() });
}

fn in_the_library_driven(driven: Altered) {
    use_all(Stores { driven, ..RIGHT.everywhere() });
}

fn in_plain(plain: Altered) {
    use_all(Stores { plain, ..RIGHT.everywhere() });
}

#[test]
fn right_stores_agree() {
    use_all(RIGHT.everywhere());
    use_all(Stores::real());
}

/// Answers 0 where there is no such object.
const EASY: Altered = Altered {
    request: |image, blocks, record, host, message, reply| match Model
        .request(image, blocks, record, host, message, reply)
    {
        Answer::NO_OBJECT => Answer::DONE,
        answer => answer,
    },
    ..RIGHT
};

#[test]
#[should_panic(expected = "the library gave Outcome { answer: Answer(0)")]
fn an_answer_of_the_library() {
    in_the_library(EASY);
}

#[test]
#[should_panic(expected = "the library driven gave Outcome { answer: Answer(0)")]
fn an_answer_of_the_library_driven() {
    in_the_library_driven(EASY);
}

#[test]
#[should_panic(expected = "the plain program gave Outcome { answer: Answer(0)")]
fn an_answer_of_plain() {
    in_plain(EASY);
}

#[test]
#[should_panic(expected = "the library gave Outcome { answer: Answer(8)")]
fn an_answer_of_the_model() {
    in_the_model(EASY);
}

/// U one too large in the log.
#[test]
#[should_panic(expected = "the plain program gave Outcome { answer: Answer(0), steps: 0, reply: [14,")]
fn a_reply() {
    in_plain(Altered {
        request: |image, blocks, record, host, message, reply| {
            let answer = Model.request(image, blocks, record, host, message, reply);
            if message == message::log() {
                reply[10] += 1;
            }
            answer
        },
        ..RIGHT
    });
}

#[test]
#[should_panic(expected = "stretch: Stretch { at: 23, len: 2 }")]
fn a_stretch() {
    in_plain(Altered {
        read: |image, blocks, record, host, message| {
            let (answer, Stretch { at, len }) = Model.read(image, blocks, record, host, message);
            (answer, Stretch { at, len: len.saturating_sub(1) })
        },
        ..RIGHT
    });
}

/// A format that ends with another record, and the same image.
#[test]
#[should_panic(expected = "the plain program has a record that says Idle(Idle { length: 512, block: 0, end: 17")]
fn a_record() {
    in_plain(Altered {
        format: |image, blocks| {
            let (answer, record) = Model.format(image, blocks);
            let (steps, idle) = steps(&record).expect("a job");
            (answer, job(steps, Idle { end: 17, ..idle }))
        },
        ..RIGHT
    });
}

/// The same with other bytes pending.
#[test]
#[should_panic(expected = "end: 16, blocks: 2, edition: 1, pending: [0, 0, 1, 0], places: [0, ")]
fn a_record_of_other_pending_bytes() {
    in_plain(Altered {
        format: |image, blocks| {
            let (answer, record) = Model.format(image, blocks);
            let (steps, idle) = steps(&record).expect("a job");
            (answer, job(steps, Idle { pending: [0, 0, 1, 0], ..idle }))
        },
        ..RIGHT
    });
}

/// The same with a place.
#[test]
#[should_panic(expected = "pending: [0, 0, 0, 0], places: [16, 0, ")]
fn a_record_of_other_places() {
    in_plain(Altered {
        format: |image, blocks| {
            let (answer, record) = Model.format(image, blocks);
            let (steps, idle) = steps(&record).expect("a job");
            (answer, job(steps, Idle { places: places([(0, 16)]), ..idle }))
        },
        ..RIGHT
    });
}

/// A step that harms the image's last byte beside what it does.
const HARMS: Altered = Altered {
    step: |image, blocks, record| {
        image[LENGTH - 1] = 0;
        Model.step(image, blocks, record)
    },
    ..RIGHT
};

#[test]
#[should_panic(expected = "the library has an image that differs from the model's")]
fn an_image_of_the_library() {
    in_the_library(HARMS);
}

#[test]
#[should_panic(expected = "the plain program has an image that differs from the model's")]
fn an_image_of_plain() {
    in_plain(HARMS);
}

#[test]
#[should_panic(expected = "the model's image is not what its steps make")]
fn an_image_of_the_model() {
    in_the_model(HARMS);
}

/// Tells to program a byte with one bit less.
const TELLS: Altered = Altered {
    told: |length, blocks, record| {
        let (answer, mut step) = Model.told(length, blocks, record);
        step.byte &= if answer == Answer::PROGRAM { 0x7F } else { 0xFF };
        (answer, step)
    },
    ..RIGHT
};

#[test]
#[should_panic(expected = "the library driven has an image that differs from the model's")]
fn an_image_of_the_library_driven() {
    in_the_library_driven(TELLS);
}

#[test]
#[should_panic(expected = "the library tells (Answer(252), Told { at: 8, len: 1, byte: 126 })")]
fn what_is_next() {
    in_the_library(TELLS);
}

/// The same steps left, in another record.
#[test]
#[should_panic(expected = "the library driven has another record than by steps")]
fn a_record_of_the_library_driven() {
    in_the_library_driven(Altered {
        made: |image, blocks, record| {
            let answer = Model.made(image, blocks, record);
            if let Some((steps, idle)) = steps(record) {
                *record = job(steps, idle);
            }
            answer
        },
        ..RIGHT
    });
}

#[test]
#[should_panic(expected = "the library's record has bytes set that it does not use")]
fn an_idle_record_that_is_not_the_one_handed_out() {
    in_the_library(Altered { idle: |idle| Record::Idle(Idle { end: 0, ..idle }), ..RIGHT });
}

/// A refusal that forgets the store.
#[test]
#[should_panic(expected = "req 0 060005010200 14 answered 8 and changed the record")]
fn a_refusal_that_changes_the_record() {
    in_plain(Altered {
        request: |image, blocks, record, host, message, reply| {
            let answer = Model.request(image, blocks, record, host, message, reply);
            if answer.refused() {
                *record = Record::Unmounted;
            }
            answer
        },
        ..RIGHT
    });
}

/// Each put begins with a step that would set bits of the header's first byte; all stores make it as flash would.
#[test]
#[should_panic(expected = "programming 0xff over 0x10 at 0 would set bits")]
fn a_step_that_sets_bits() {
    let sets = Altered {
        request: |image, blocks, record, host, message, reply| {
            let answer = Model.request(image, blocks, record, host, message, reply);
            if let Some((steps, idle)) = steps(record) {
                *record = job([Step::Program { at: 0, byte: 0xFF }].into_iter().chain(steps), idle);
            }
            answer
        },
        ..RIGHT
    };
    use_all(sets.everywhere());
}

/// Names the block after the one that broke.
const NAMES_ANOTHER: Altered = Altered {
    fault: |image, blocks, mount| {
        let (answer, fault) = (RIGHT.fault)(image, blocks, mount);
        (answer, fault.map(|fault| Fault { block: fault.block + 1, ..fault }))
    },
    ..RIGHT
};

#[test]
#[should_panic(expected = "the library says (Answer(3), Some(Fault { block: 2,")]
fn a_fault_of_the_library() {
    in_the_library(NAMES_ANOTHER);
}

#[test]
#[should_panic(expected = "the plain program says (Answer(3), Some(Fault { block: 2,")]
fn a_fault_of_plain() {
    in_plain(NAMES_ANOTHER);
}

#[test]
#[should_panic(expected = "3, yet None")]
fn no_fault_with_3() {
    use_all(
        Altered { fault: |_, _, mount| (if mount.refused() { mount } else { Answer::DONE }, None), ..RIGHT }
            .everywhere(),
    );
}

#[test]
#[should_panic(expected = "mount answered 3")]
fn a_fault_that_is_not_the_mounts() {
    use_all(Altered { fault: |_, _, _| (Answer::DONE, None), ..RIGHT }.everywhere());
}
