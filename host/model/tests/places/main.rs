//! K8: the record says where each object's frame stands, and a read goes by it. Offsets are worked out from the lengths of
//! frames: in edition 1 a put takes 8 bytes and its value, a delete 8, a commit or abort 6, a settled frame 7 and its value.

mod forged;
mod frames;
mod messages;
mod moved;
mod runs;

use model::edition::Edition;
use model::{Model, Record};
use store::{Answer, Head, Idle, Store, Stretch, message};

/// Bytes of a block, where a test says no other.
pub const S: usize = 256;

pub const STALE: Result<(usize, usize), u8> = Err(11);
pub const NONE: Result<(usize, usize), u8> = Err(8);

/// An image and the record handed out with it.
#[derive(Clone)]
pub struct Desk {
    pub image: Vec<u8>,
    pub blocks: u8,
    pub record: Record,
}

impl Desk {
    /// A store that was just formatted.
    pub fn formatted(size: usize, blocks: u8) -> Desk {
        let mut desk = Desk { image: vec![0xFF; size * usize::from(blocks)], blocks, record: Record::Unmounted };
        desk.format();
        desk
    }

    pub fn format(&mut self) {
        let (answer, record) = Model.format(&self.image, self.blocks);
        assert_eq!(answer, Answer::MORE);
        self.record = record;
        assert_eq!(self.run().0, Answer::DONE);
    }

    /// A mount, to its end: the number of steps.
    pub fn mount(&mut self) -> usize {
        let (answer, record) = Model.mount(&self.image, self.blocks);
        assert!(!answer.refused(), "mount answered {answer}");
        self.record = record;
        let (answer, steps) = self.run();
        assert_eq!(answer, Answer::DONE);
        steps
    }

    fn run(&mut self) -> (Answer, usize) {
        Model.run(&mut self.image, self.blocks, &mut self.record, usize::MAX)
    }

    /// An accepted request, to its end: the number of steps.
    pub fn does(&mut self, host: u8, message: &[u8]) -> usize {
        let answer = self.ask(host, message);
        assert!(!answer.refused(), "{message:?} got {answer}");
        let (answer, steps) = self.run();
        assert_eq!(answer, Answer::DONE);
        steps
    }

    pub fn puts(&mut self, host: u8, id: u8, size: usize) {
        self.does(host, &message::put(id, &vec![id; size]));
    }

    /// A request; refusals leave the record alone, and nothing here has room for a log.
    pub fn ask(&mut self, host: u8, message: &[u8]) -> Answer {
        let before = self.record.clone();
        let mut reply = [0x55; 13];
        let answer = Model.request(&self.image, self.blocks, &mut self.record, host, message, &mut reply);
        assert!(!answer.refused() || self.record == before);
        assert_eq!(reply, [0x55; 13]);
        answer
    }

    /// Where a read finds the value, or the refusal: the same by a request.
    pub fn read(&self, id: u8) -> Result<(usize, usize), u8> {
        self.read_by(0, &message::read(id))
    }

    pub fn read_by(&self, host: u8, message: &[u8]) -> Result<(usize, usize), u8> {
        let (answer, Stretch { at, len }) = Model.read(&self.image, self.blocks, &self.record, host, message);
        let mut asked = self.clone();
        assert_eq!(asked.ask(host, message), answer);
        assert_eq!(asked.record, self.record, "a read leaves the record as it is");
        match answer {
            Answer::DONE => Ok((at, len)),
            Answer(refusal) => {
                assert_eq!((at, len), (0, 0));
                Err(refusal)
            }
        }
    }

    pub fn idle(&self) -> Idle {
        match Model.head(&self.record) {
            Head::Idle(idle) => idle,
            head => panic!("the record is {head:?}"),
        }
    }

    /// The same image under a record that `forge` has changed.
    pub fn forged(&self, forge: impl FnOnce(&mut Idle)) -> Desk {
        let mut idle = self.idle();
        forge(&mut idle);
        Desk { record: Model.idle(idle), ..self.clone() }
    }

    /// The ids that have a place, and it.
    pub fn places(&self) -> Vec<(usize, u16)> {
        self.idle().places.into_iter().enumerate().filter(|(_, place)| *place != 0).collect()
    }

    /// What a log request gets, with room for its reply.
    pub fn log(&self) -> Answer {
        let mut record = self.record.clone();
        let answer = Model.request(&self.image, self.blocks, &mut record, 0, &message::log(), &mut [0; 14]);
        assert_eq!(record, self.record);
        answer
    }
}

/// Block 0 with a header of this edition and these bytes behind it, in an image of two blocks under the record of a mount.
pub fn desk(edition: Edition, frames: &[&[u8]]) -> Desk {
    let mut image = [&edition.label()[..], &[0xFE, 0xFF, 0xFF, 0xFF, 0xFC], &[0xFF; 7], &frames.concat()].concat();
    assert!(image.len() <= S);
    image.resize(2 * S, 0xFF);
    let mut desk = Desk { image, blocks: 2, record: Record::Unmounted };
    desk.mount();
    desk
}

/// The script in the desk's paper, call by call.
#[test]
fn the_desks_script() {
    let mut desk = Desk::formatted(S, 2);
    assert_eq!(desk.does(2, &[0x08, 0x00, 0x01, 0x01, 0x05, 0x00, 0x41, 0x42]), 10);
    assert_eq!(desk.does(2, &[0x04, 0x00, 0x03, 0x01]), 6);
    let mut idle =
        Idle { length: 512, block: 0, end: 32, blocks: 2, edition: 1, pending: [0; 4], places: [0; 256] };
    let with = |idle: Idle| Desk { record: Model.idle(idle), ..desk.clone() };
    assert_eq!(with(idle).read(5), NONE);
    assert_eq!(with(idle).log(), Answer::STALE);
    idle.places[5] = 16;
    assert_eq!(desk.idle(), idle);
    assert_eq!(desk.read(5), Ok((23, 2)));
    assert_eq!(with(idle).log(), Answer::DONE);
    let (mut record, mut reply) = (Model.idle(idle), [0; 14]);
    Model.request(&desk.image, 2, &mut record, 0, &[0x05, 0x00, 0x06, 0x01, 0x01], &mut reply);
    assert_eq!(reply, [0x0E, 0x00, 0x01, 0x02, 1, 0, 0, 0, 1, 0, 0x19, 0, 0, 1]);
    idle.end = 99;
    idle.places[6] = 16;
    assert_eq!(with(idle).read(5), Ok((23, 2)));
    assert_eq!(with(idle).read(6), STALE);
    assert_eq!(with(idle).read(7), NONE);
    assert_eq!(with(idle).read_by(0, &[0x07, 0x00, 0x05, 0x01, 0x05, 0x00, 0x00, 0x00]), Err(1));
}

/// A put has a place from its commit's last step on: 16 for the first, then 32.
#[test]
fn a_commit_gives_places() {
    let mut desk = Desk::formatted(S, 2);
    assert_eq!(desk.places(), []);
    desk.puts(2, 5, 2);
    assert_eq!((desk.places(), desk.read(5)), (vec![], NONE));
    desk.does(2, &message::commit());
    assert_eq!((desk.places(), desk.read(5)), (vec![(5, 16)], Ok((23, 2))));
    desk.puts(2, 5, 1);
    assert_eq!((desk.places(), desk.read(5)), (vec![(5, 16)], Ok((23, 2))));
    desk.does(2, &message::commit());
    assert_eq!((desk.places(), desk.read(5)), (vec![(5, 32)], Ok((39, 1))));
    assert_eq!(desk.forged(|idle| idle.places[5] = 16).read(5), Ok((23, 2)), "the old frame still stands there");
    assert_eq!(desk.forged(|idle| idle.places[5] = 16).log(), Answer::STALE);
}

/// An empty value and the outermost ids have places as others.
#[test]
fn every_id_and_an_empty_value() {
    let mut desk = Desk::formatted(S, 2);
    desk.puts(0, 0, 0);
    desk.puts(0, 255, 3);
    desk.does(0, &message::commit());
    assert_eq!(desk.places(), [(0, 16), (255, 24)]);
    assert_eq!((desk.read(0), desk.read(255), desk.read(254)), (Ok((23, 0)), Ok((31, 3)), NONE));
}

/// One list in order: 1 is put twice, 2 put and deleted, 3 deleted and put; 4, settled before, is deleted.
#[test]
fn a_list_is_taken_in_order() {
    let mut desk = Desk::formatted(S, 2);
    desk.puts(0, 4, 1);
    desk.does(0, &message::commit());
    assert_eq!(desk.places(), [(4, 16)]);
    desk.puts(0, 1, 2); // at 31
    desk.puts(0, 2, 2); // at 41
    desk.does(0, &message::delete(3)); // at 51
    desk.puts(0, 1, 3); // at 59
    desk.does(0, &message::delete(2)); // at 70
    desk.puts(0, 3, 0); // at 78
    desk.does(0, &message::delete(4)); // at 86
    assert_eq!(desk.places(), [(4, 16)]);
    desk.does(0, &message::commit());
    assert_eq!(desk.places(), [(1, 59), (3, 78)]);
    assert_eq!((desk.read(1), desk.read(2), desk.read(3), desk.read(4)), (Ok((66, 3)), NONE, Ok((85, 0)), NONE));
}

/// A commit takes its own host's list: host 0's put stands before host 1's, and as it is committed last it counts.
#[test]
fn another_hosts_list_is_left() {
    let mut desk = Desk::formatted(S, 2);
    desk.puts(0, 1, 1); // at 16
    desk.puts(1, 1, 2); // at 25
    desk.puts(1, 2, 0); // at 35
    desk.puts(0, 3, 0); // at 43
    desk.does(1, &message::commit());
    assert_eq!(desk.places(), [(1, 25), (2, 35)]);
    assert_eq!((desk.read(1), desk.read(3)), (Ok((32, 2)), NONE));
    desk.does(2, &message::commit());
    assert_eq!(desk.places(), [(1, 25), (2, 35)]);
    desk.does(0, &message::commit());
    assert_eq!(desk.places(), [(1, 16), (2, 35), (3, 43)]);
    assert_eq!(desk.read(1), Ok((23, 1)));
}

#[test]
fn an_abort_gives_no_places() {
    let mut desk = Desk::formatted(S, 2);
    desk.puts(3, 1, 1); // at 16
    desk.does(3, &message::commit());
    desk.puts(3, 1, 2);
    desk.puts(3, 2, 2);
    desk.puts(0, 6, 0); // at 51
    desk.does(3, &message::abort()); // at 59
    assert_eq!(desk.places(), [(1, 16)]);
    assert_eq!((desk.read(1), desk.read(2)), (Ok((23, 1)), NONE));
    desk.does(0, &message::commit());
    desk.does(3, &message::commit());
    assert_eq!(desk.places(), [(1, 16), (6, 51)]);
}

#[test]
fn a_format_takes_all_places() {
    let mut desk = Desk::formatted(S, 3);
    desk.puts(0, 9, 9);
    desk.does(0, &message::commit());
    desk.format();
    assert_eq!((desk.places(), desk.read(9)), (vec![], NONE));
    assert_eq!(desk.log(), Answer::DONE);
}

/// Power is lost in a commit: its list has places exactly if the finish byte was programmed.
#[test]
fn a_commit_that_is_cut() {
    for steps in 0..=6 {
        let mut desk = Desk::formatted(S, 2);
        desk.puts(2, 5, 2);
        assert_eq!(desk.ask(2, &message::commit()), Answer::MORE);
        Model.run(&mut desk.image, 2, &mut desk.record, steps);
        desk.mount();
        let expected = if steps == 6 { vec![(5, 16)] } else { vec![] };
        assert_eq!(desk.places(), expected, "{steps} steps");
        assert_eq!(desk.read(5).is_ok(), steps == 6);
    }
}
