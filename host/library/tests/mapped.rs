//! Flash as it is mapped on a board: to be read only. The store runs on it by `next` and `made`; a write to it by any other
//! than the driver here ends the test, also a write that changes nothing, and so does a look past its end. The record is
//! held in the same way against the calls that only read it. A read is held to the page that its frame is on.

use library::{Library, RECORD_SIZE, Record, flash};
use std::ffi::c_void;
use std::{ptr, slice};
use store::{Answer, Head, Idle, Store, message};

unsafe extern "C" {
    fn mmap(at: *mut c_void, len: usize, protection: i32, flags: i32, file: i32, offset: i64) -> *mut c_void;
    fn mprotect(at: *mut c_void, len: usize, protection: i32) -> i32;
    fn munmap(at: *mut c_void, len: usize) -> i32;
}

const NONE: i32 = 0;
const READ: i32 = 1;
const WRITE: i32 = 2;
const PRIVATE_ANONYMOUS: i32 = 0x22;
const PAGE: usize = 4_096;

/// Bytes that end where a page ends, with a page after them that nobody may touch.
struct Mapped {
    start: *mut u8,
    pages: usize,
    len: usize,
}

impl Mapped {
    fn new(bytes: &[u8]) -> Mapped {
        let pages = bytes.len().next_multiple_of(PAGE);
        // SAFETY: a new mapping, which nothing else knows of.
        let start = unsafe { mmap(ptr::null_mut(), pages + PAGE, READ, PRIVATE_ANONYMOUS, -1, 0) };
        assert_ne!(start as isize, -1);
        let mut mapped = Mapped { start: start.cast(), pages, len: bytes.len() };
        mapped.protect(pages, PAGE, NONE);
        mapped.write(|old| old.copy_from_slice(bytes));
        mapped
    }

    fn protect(&self, at: usize, len: usize, protection: i32) {
        // SAFETY: pages of this mapping; nothing is lent out while it may be written to, but to the one who writes.
        let done = unsafe { mprotect(self.start.add(at).cast(), len, protection) };
        assert_eq!(done, 0);
    }

    fn bytes(&self) -> &[u8] {
        // SAFETY: bytes of this mapping, which may be read.
        unsafe { slice::from_raw_parts(self.start.add(self.pages - self.len), self.len) }
    }

    /// From now on nobody may touch any page but this one.
    fn only(&self, page: usize) {
        self.protect(0, self.pages, NONE);
        self.protect(page * PAGE, PAGE, READ);
    }

    /// Lends the bytes to be changed.
    fn write<T>(&mut self, change: impl FnOnce(&mut [u8]) -> T) -> T {
        self.protect(0, self.pages, READ | WRITE);
        // SAFETY: bytes of this mapping, which may be written to now and are lent to no one else.
        let bytes = unsafe { slice::from_raw_parts_mut(self.start.add(self.pages - self.len), self.len) };
        let given = change(bytes);
        self.protect(0, self.pages, READ);
        given
    }
}

impl Drop for Mapped {
    fn drop(&mut self) {
        // SAFETY: nothing that was lent is left.
        unsafe { munmap(self.start.cast(), self.pages + PAGE) };
    }
}

struct Board {
    library: Library,
    blocks: u8,
    image: Mapped,
    record: Mapped,
}

impl Board {
    fn blank(length: usize, blocks: u8) -> Board {
        let (library, record) = (Library::linked(), [0; RECORD_SIZE]);
        Board { library, blocks, image: Mapped::new(&vec![0xFF; length]), record: Mapped::new(&record) }
    }

    /// Makes a call that writes the record, and all steps after it.
    fn whole(&mut self, call: impl FnOnce(&Library, &[u8], u8, &mut [u8]) -> Answer) -> Answer {
        let mut answer = self.record.write(|record| call(&self.library, self.image.bytes(), self.blocks, record));
        while answer == Answer::MORE {
            let (next, told) = self.library.next_of(self.image.len, self.blocks, self.record.bytes());
            self.image.write(|image| flash(image, next, told));
            answer = self.record.write(|record| self.library.made_on(self.image.bytes(), self.blocks, record));
        }
        answer
    }

    fn mount(&mut self) -> Answer {
        self.whole(Library::mount_into)
    }

    fn ask(&mut self, host: u8, message: &[u8]) -> Answer {
        let message = Mapped::new(message);
        self.whole(|library, image, blocks, record| {
            library.request_on(image, blocks, record, host, message.bytes(), &mut [0; message::PAGE])
        })
    }

    fn value(&self, id: u8) -> Option<&[u8]> {
        let message = Mapped::new(&message::read(id));
        match self.library.read_on(self.image.bytes(), self.blocks, self.record.bytes(), 0, message.bytes()) {
            (Answer::DONE, stretch) => Some(stretch.of(self.image.bytes())),
            (answer, _) => {
                assert_eq!(answer, Answer::NO_OBJECT);
                None
            }
        }
    }

    fn idle(&self) -> Idle {
        let record: &Record = self.record.bytes().try_into().expect("a record's bytes");
        match self.library.head(record) {
            Head::Idle(idle) => idle,
            other => panic!("{other:?}"),
        }
    }

    /// The current block.
    fn current(&self) -> u8 {
        self.idle().block
    }

    /// Host 0 puts and aborts until there is room for one more put, and puts that: it ends where the block does.
    fn fill_up(&mut self) {
        let size = self.image.len / usize::from(self.blocks);
        let free = |board: &Board| size - usize::from(board.idle().end);
        while free(self) > 120 {
            let value = vec![0; (free(self) - 8 - 6 - 8).min(100)];
            assert_eq!(self.ask(0, &message::put(3, &value)), Answer::DONE);
            assert_eq!(self.ask(0, &message::abort()), Answer::DONE);
        }
        let value = vec![0; free(self) - 8];
        assert_eq!(self.ask(0, &message::put(3, &value)), Answer::DONE);
        assert_eq!(free(self), 0);
    }
}

/// A format, puts up to a transfer and on, restarts with a change pending, where a reset fits and where none does, and reads.
#[test]
fn flash_that_is_mapped_to_be_read_only() {
    let each = (2..=16).map(|blocks| (256 * usize::from(blocks), blocks));
    for (length, blocks) in each.chain([(768, 2), (65_536, 2), (1_152, 3), (65_536, 16)]) {
        let mut board = Board::blank(length, blocks);
        let size = length / usize::from(blocks);
        assert_eq!(board.mount(), Answer::NO_STORE);
        assert_eq!(board.whole(Library::format_into), Answer::DONE);
        let value = |number: u8| vec![number; (size / 4).min(240)];
        let mut last = 0;
        while board.current() == 0 {
            last += 1;
            assert_eq!(board.ask(1, &message::put(1, &value(last))), Answer::DONE);
            assert_eq!(board.ask(2, &message::delete(2)), Answer::DONE);
            assert_eq!(board.ask(1, &message::commit()), Answer::DONE);
            assert_eq!(board.ask(2, &message::abort()), Answer::DONE);
        }
        assert_eq!(board.ask(3, &message::put(2, b"pending")), Answer::DONE);
        assert_eq!(board.ask(0, &message::log()), Answer::DONE);
        assert_eq!(board.ask(0, &message::commit()[..3]), Answer::MALFORMED);
        assert_eq!(board.mount(), Answer::DONE);
        assert_eq!((board.current(), board.value(1), board.value(2)), (1, Some(&value(last)[..]), None));
        board.fill_up();
        assert_eq!(board.mount(), Answer::DONE);
        assert_eq!((board.current(), board.value(1), board.value(3)), (2 % blocks, Some(&value(last)[..]), None));
    }
}

/// 256 objects on eight pages of block 0: a read of each that is on one page, with all others out of reach.
#[test]
fn a_read_touches_its_frame_alone() {
    let mut board = Board::blank(65_536, 2);
    assert_eq!(board.whole(Library::format_into), Answer::DONE);
    for id in 0..=255 {
        assert_eq!(board.ask(0, &message::put(id, &[id; 100])), Answer::DONE);
        assert_eq!(board.ask(0, &message::commit()), Answer::DONE);
    }
    let mut pages = [0; 16];
    for (id, place) in (0..=255).zip(board.idle().places.map(usize::from)) {
        let (first, last) = (place / PAGE, (place + 108 - 1) / PAGE);
        if first == last {
            board.image.only(first);
            assert_eq!(board.value(id), Some(&[id; 100][..]));
            pages[first] += 1;
        }
    }
    assert!(pages[..7].iter().all(|reads| *reads > 30) && pages[8..] == [0; 8], "{pages:?}");
}
