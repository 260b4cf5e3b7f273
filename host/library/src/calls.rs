//! include/grommetide.h from Rust.
//!
//! SAFETY, of each call here: the library gets a slice's own pointer and length, which are never null, and the borrow
//! checker sees to it that a slice which it writes to overlaps no other. It keeps nothing after a call.

use crate::RECORD_SIZE;
use store::{Answer, Stretch, Told};

unsafe extern "C" {
    fn grommetide_record_size() -> usize;
    fn grommetide_mount(image: *const u8, image_len: usize, blocks: u8, record: *mut u8, record_len: usize) -> u8;
    fn grommetide_fault(
        image: *const u8,
        image_len: usize,
        blocks: u8,
        block: *mut usize,
        field: *mut u8,
        place: *mut usize,
    ) -> u8;
    fn grommetide_format(image: *const u8, image_len: usize, blocks: u8, record: *mut u8, record_len: usize)
    -> u8;
    fn grommetide_request(
        image: *const u8,
        image_len: usize,
        blocks: u8,
        record: *mut u8,
        record_len: usize,
        host: u8,
        message: *const u8,
        message_len: usize,
        reply: *mut u8,
        reply_len: usize,
    ) -> u8;
    fn grommetide_read(
        image: *const u8,
        image_len: usize,
        blocks: u8,
        record: *const u8,
        record_len: usize,
        host: u8,
        message: *const u8,
        message_len: usize,
        at: *mut usize,
        len: *mut usize,
    ) -> u8;
    fn grommetide_next(
        image_len: usize,
        blocks: u8,
        record: *const u8,
        record_len: usize,
        at: *mut usize,
        len: *mut usize,
        byte: *mut u8,
    ) -> u8;
    fn grommetide_made(image: *const u8, image_len: usize, blocks: u8, record: *mut u8, record_len: usize) -> u8;
    fn grommetide_step(image: *mut u8, image_len: usize, blocks: u8, record: *mut u8, record_len: usize) -> u8;
    fn grommetide_run(
        image: *mut u8,
        image_len: usize,
        blocks: u8,
        record: *mut u8,
        record_len: usize,
        most: usize,
        steps: *mut usize,
    ) -> u8;
}

/// What `next` is to tell before the call, so that a call which does not write it shows.
pub const UNTOLD: Told = Told { at: usize::MAX, len: usize::MAX, byte: 0xA5 };

/// What stands in the number of steps before a run.
pub const UNCOUNTED: usize = usize::MAX;

pub struct Library(());

impl Library {
    /// The linked library, whose records must have the size that this wrapper knows.
    pub fn linked() -> Library {
        let size = unsafe { grommetide_record_size() };
        assert_eq!(size, RECORD_SIZE, "the library's records have another size");
        Library(())
    }

    pub fn mount_into(&self, image: &[u8], blocks: u8, record: &mut [u8]) -> Answer {
        Answer(unsafe { grommetide_mount(image.as_ptr(), image.len(), blocks, record.as_mut_ptr(), record.len()) })
    }

    /// The answer, and what block, field and place are set to.
    pub fn fault_of(&self, image: &[u8], blocks: u8) -> (Answer, (usize, u8, usize)) {
        let (mut block, mut field, mut place) = (usize::MAX, u8::MAX, usize::MAX);
        let answer =
            unsafe { grommetide_fault(image.as_ptr(), image.len(), blocks, &mut block, &mut field, &mut place) };
        (Answer(answer), (block, field, place))
    }

    pub fn format_into(&self, image: &[u8], blocks: u8, record: &mut [u8]) -> Answer {
        Answer(unsafe {
            grommetide_format(image.as_ptr(), image.len(), blocks, record.as_mut_ptr(), record.len())
        })
    }

    pub fn request_on(
        &self,
        image: &[u8],
        blocks: u8,
        record: &mut [u8],
        host: u8,
        message: &[u8],
        reply: &mut [u8],
    ) -> Answer {
        Answer(unsafe {
            grommetide_request(
                image.as_ptr(),
                image.len(),
                blocks,
                record.as_mut_ptr(),
                record.len(),
                host,
                message.as_ptr(),
                message.len(),
                reply.as_mut_ptr(),
                reply.len(),
            )
        })
    }

    pub fn read_on(&self, image: &[u8], blocks: u8, record: &[u8], host: u8, message: &[u8]) -> (Answer, Stretch) {
        let mut stretch = Stretch { at: usize::MAX, len: usize::MAX };
        let answer = unsafe {
            grommetide_read(
                image.as_ptr(),
                image.len(),
                blocks,
                record.as_ptr(),
                record.len(),
                host,
                message.as_ptr(),
                message.len(),
                &mut stretch.at,
                &mut stretch.len,
            )
        };
        (Answer(answer), stretch)
    }

    /// The image's length is told, not the image: by the record alone.
    pub fn next_of(&self, image_len: usize, blocks: u8, record: &[u8]) -> (Answer, Told) {
        let mut told = UNTOLD;
        let answer = unsafe {
            grommetide_next(
                image_len,
                blocks,
                record.as_ptr(),
                record.len(),
                &mut told.at,
                &mut told.len,
                &mut told.byte,
            )
        };
        (Answer(answer), told)
    }

    pub fn made_on(&self, image: &[u8], blocks: u8, record: &mut [u8]) -> Answer {
        Answer(unsafe { grommetide_made(image.as_ptr(), image.len(), blocks, record.as_mut_ptr(), record.len()) })
    }

    pub fn step_on(&self, image: &mut [u8], blocks: u8, record: &mut [u8]) -> Answer {
        Answer(unsafe {
            grommetide_step(image.as_mut_ptr(), image.len(), blocks, record.as_mut_ptr(), record.len())
        })
    }

    pub fn run_on(&self, image: &mut [u8], blocks: u8, record: &mut [u8], most: usize) -> (Answer, usize) {
        let mut steps = UNCOUNTED;
        let answer = unsafe {
            grommetide_run(
                image.as_mut_ptr(),
                image.len(),
                blocks,
                record.as_mut_ptr(),
                record.len(),
                most,
                &mut steps,
            )
        };
        (Answer(answer), steps)
    }
}
