//! How much stack each call takes: it runs on a painted one. The bounds are those that the header states.

use library::{Library, Record, VALUE_LIMIT};
use std::arch::asm;
use std::collections::BTreeMap;
use std::fs;
use std::mem;
use store::{Answer, Head, Store, message};

const HEADER: &str = concat!(env!("CARGO_MANIFEST_DIR"), "/../../include/grommetide.h");
const AREA: usize = 64 * 1024;
/// No call may take more.
const LIMIT: usize = 4_096;
const PAINT: u8 = 0xA5;

#[repr(align(16))]
struct Area([u8; AREA]);

unsafe extern "C" fn run<F: FnMut()>(call: *mut F) {
    // SAFETY: `used_by` passes a call that it holds.
    unsafe { (*call)() }
}

impl Area {
    /// Runs the call with this area as its stack; how many bytes of it were used.
    fn used_by<F: FnMut()>(&mut self, mut call: F) -> usize {
        self.0.fill(PAINT);
        let top = self.0.as_mut_ptr_range().end;
        // SAFETY: nothing else uses the area, and r12 keeps the old stack pointer over the call.
        unsafe {
            asm!(
                "xchg rsp, r12",
                "call {run}",
                "mov rsp, r12",
                run = in(reg) run::<F> as unsafe extern "C" fn(*mut F),
                in("rdi") &raw mut call,
                inout("r12") top => _,
                clobber_abi("C"),
            );
        }
        let unused = self.0.iter().take_while(|byte| **byte == PAINT).count();
        assert!(unused > 0, "the area is too small");
        AREA - unused
    }
}

/// A board, and the most stack that each call on it has taken so far.
struct Board {
    library: Library,
    image: Vec<u8>,
    blocks: u8,
    record: Record,
    area: Box<Area>,
    most: BTreeMap<&'static str, usize>,
}

impl Board {
    fn new(length: usize, blocks: u8) -> Board {
        let library = Library::linked();
        let record = library.unmounted();
        Board {
            library,
            image: vec![0xFF; length],
            blocks,
            record,
            area: Box::new(Area([0; AREA])),
            most: BTreeMap::new(),
        }
    }

    fn measure(
        &mut self,
        name: &'static str,
        call: impl Fn(&Library, &mut [u8], u8, &mut Record) -> Answer,
    ) -> Answer {
        let mut answer = Answer::MORE;
        let used =
            self.area.used_by(|| answer = call(&self.library, &mut self.image, self.blocks, &mut self.record));
        let most = self.most.entry(name).or_default();
        *most = used.max(*most);
        answer
    }

    fn mount(&mut self) -> Answer {
        let answer = self.measure("grommetide_mount", |library, image, blocks, record| {
            library.mount_into(image, blocks, record)
        });
        self.finish(answer)
    }

    fn fault(&mut self) -> Answer {
        self.measure("grommetide_fault", |library, image, blocks, _| library.fault_of(image, blocks).0)
    }

    fn format(&mut self) -> Answer {
        let answer = self.measure("grommetide_format", |library, image, blocks, record| {
            library.format_into(image, blocks, record)
        });
        self.finish(answer)
    }

    fn ask(&mut self, host: u8, message: &[u8]) -> Answer {
        let answer = self.measure("grommetide_request", |library, image, blocks, record| {
            library.request_on(image, blocks, record, host, message, &mut [0; message::PAGE])
        });
        self.finish(answer)
    }

    fn read(&mut self, message: &[u8]) -> Answer {
        self.measure("grommetide_read", |library, image, blocks, record| {
            library.read_on(image, blocks, record, 0, message).0
        })
    }

    /// All steps of the job in hand, in one run and then one by one; the last answer.
    fn finish(&mut self, mut answer: Answer) -> Answer {
        if answer != Answer::MORE {
            return answer;
        }
        let (image, record) = (self.image.clone(), self.record);
        let end = self.measure("grommetide_run", |library, image, blocks, record| {
            library.run_on(image, blocks, record, usize::MAX).0
        });
        let (image, record) = (mem::replace(&mut self.image, image), mem::replace(&mut self.record, record));
        while answer == Answer::MORE {
            answer = self.step();
        }
        assert!(end == answer && image == self.image && record == self.record);
        answer
    }

    /// A step, told before, and made again under the record from before it.
    fn step(&mut self) -> Answer {
        self.measure("grommetide_next", |library, image, blocks, record| {
            library.next_of(image.len(), blocks, record).0
        });
        let before = self.record;
        let answer = self
            .measure("grommetide_step", |library, image, blocks, record| library.step_on(image, blocks, record));
        let after = mem::replace(&mut self.record, before);
        let made = self
            .measure("grommetide_made", |library, image, blocks, record| library.made_on(image, blocks, record));
        assert!(made == answer && self.record == after);
        answer
    }

    /// The bytes of a block.
    fn size(&self) -> usize {
        self.image.len() / usize::from(self.blocks)
    }

    /// Every request, found and refused, in a journal that is filled until a put needs a transfer, and again in edition 2.
    fn use_all(&mut self) {
        assert_eq!(self.mount(), Answer::NO_STORE);
        assert_eq!(self.format(), Answer::DONE);
        let second = self.size();
        let moved = |image: &[u8]| image[second] != 0xFF;
        let size = VALUE_LIMIT.min(second / 4);
        for id in (0..=255).cycle() {
            self.ask(1, &message::put(2, &[id; 9]));
            self.ask(1, if id % 2 == 0 { &[4, 0, 4, 1] } else { &[4, 0, 3, 1] });
            let put = self.ask(0, &message::put(id % 64, &vec![id; size]));
            assert!(put == Answer::DONE || put == Answer::NO_ROOM);
            assert_eq!(self.ask(0, &message::commit()), Answer::DONE);
            if moved(&self.image) {
                break;
            }
        }
        self.use_store();
        assert_eq!(self.ask(0, &message::convert()), Answer::DONE);
        self.use_store();
        let used = self.image.clone();
        assert_eq!(self.format(), Answer::DONE);
        self.image = used;
        self.break_it();
    }

    /// Requests that are done and that are refused, and mounts with something pending, also behind a torn frame, and with
    /// nothing.
    fn use_store(&mut self) {
        for message in
            [message::delete(0), message::commit(), message::log(), message::read(2), message::read(255)]
        {
            assert!([Answer::DONE, Answer::NO_OBJECT].contains(&self.ask(2, &message)));
        }
        assert_eq!(self.ask(4, &message::log()), Answer::HOST_RANGE);
        assert_eq!(self.ask(0, &[]), Answer::MALFORMED);
        assert_eq!(self.read(&message::read(2)), Answer::DONE);
        assert_eq!(self.read(&message::read(255)), Answer::NO_OBJECT);
        assert_eq!(self.read(&message::put(2, b"no read")), Answer::MALFORMED);
        for torn in [false, true] {
            assert_eq!(self.ask(3, &message::put(9, b"pending")), Answer::DONE);
            if torn {
                self.tear();
            }
            assert_eq!(self.mount(), Answer::DONE);
        }
        assert_eq!(self.mount(), Answer::DONE);
    }

    /// The first byte of a commit behind the frames.
    fn tear(&mut self) {
        let Head::Idle(idle) = self.library.head(&self.record) else { panic!("idle") };
        let (end, length) = (usize::from(idle.end), if idle.edition == 2 { 10 } else { 6 });
        assert!(end + length <= self.size(), "no room for a frame");
        let at = usize::from(idle.block) * self.size() + end;
        self.image[at] = length as u8;
    }

    /// A sound image, one whose last frame is wrong, and one whose header is.
    fn break_it(&mut self) {
        assert_eq!(self.fault(), Answer::DONE);
        let last = self.image.iter().rposition(|byte| *byte == 0xFE).expect("a finish byte");
        for at in [last, 0, self.size()] {
            self.image[at] = 0;
            assert_eq!(self.fault(), Answer::FOREIGN);
        }
    }
}

/// What the header says of a call: the first number beside its name in the table of stack bytes.
fn stated(header: &str, call: &str) -> usize {
    let words = header.lines().map(|line| line.split_whitespace().collect::<Vec<_>>());
    let bytes =
        words.filter_map(|words| if let ["*", name, bytes, _] = words[..] { Some((name, bytes)) } else { None });
    let (_, bytes) = bytes.into_iter().find(|(name, _)| *name == call).expect(call);
    bytes.replace(',', "").parse().expect(bytes)
}

#[test]
fn no_call_takes_more_stack_than_the_header_says() {
    let header = fs::read_to_string(HEADER).expect("the header");
    for (length, blocks) in [(512, 2), (65_536, 2), (4_096, 16), (65_536, 16)] {
        let mut board = Board::new(length, blocks);
        board.use_all();
        assert_eq!(board.most.len(), 9);
        for (call, used) in &board.most {
            println!("{call}, {blocks} blocks in {length} bytes: {used} bytes of stack");
        }
        for (call, used) in board.most {
            let bound = stated(&header, call);
            assert!(used <= bound && bound < 2 * used, "{call}: {used} bytes, the header says {bound}");
            assert!(bound <= LIMIT, "{call}: the header says {bound}");
        }
    }
}
