//! Power cuts at random moments, compared with the book.

use crate::chip::Chip;
use crate::hosts::{Request, listed};
use crate::machine::{Machine, lines_after};
use check::book::{Book, FIRST, Objects};
use check::rng::Rng;
use std::fmt;
use std::path::{Path, PathBuf};
use std::time::{Duration, Instant};

#[derive(Default)]
pub struct Tally {
    pub boots: usize,
    /// Cut before the board first waited for a line.
    pub cut_in_mount: usize,
    /// Starts on a chip that lost power inside an erase.
    pub cut_in_erase: usize,
    /// Cut right behind the answer to a commit.
    pub cut_at_answer: usize,
    pub requests: usize,
    pub commits: usize,
    pub no_room: usize,
    pub formats: usize,
    /// Starts that finished a format which was cut.
    pub formats_again: usize,
    /// Commits and formats that were under way at a cut: what was found then.
    pub kept: usize,
    pub lost: usize,
}

impl fmt::Display for Tally {
    fn fmt(&self, f: &mut fmt::Formatter) -> fmt::Result {
        let Tally { boots, cut_in_mount, cut_in_erase, cut_at_answer, requests, commits, .. } = self;
        let Tally { no_room, formats, formats_again, kept, lost, .. } = self;
        write!(f, "{boots} boots, {cut_in_mount} cut in the mount, {cut_at_answer} right after an answer, ")?;
        write!(
            f,
            "{cut_in_erase} after power lost inside an erase; {requests} requests answered, {commits} commits, "
        )?;
        write!(f, "{no_room} refused for room; {formats} formats, {formats_again} cut ones made again; ")?;
        write!(f, "{kept} commits and formats in flight kept, {lost} lost")
    }
}

/// One of so many cuts falls into the start, right behind the answer to a commit, into a format, inside an erase.
const STARTS: usize = 6;
const ANSWERS: usize = 5;
const FORMATS: usize = 28;
const ERASES: usize = 8;

/// Any start is done by then, on a busy machine too.
const LONG: Duration = Duration::from_secs(60);

pub struct Bench {
    firmware: PathBuf,
    chip: Chip,
    rng: Rng,
    book: Book,
    /// What the objects may be instead, because of the request that a cut met.
    doubt: Option<Objects>,
    /// There may be no store yet: a format was not seen to end.
    formatting: bool,
    pub tally: Tally,
}

impl Bench {
    /// Hosts at a board with a blank chip, whose file is of this name.
    pub fn new(firmware: &Path, file: PathBuf, seed: u64) -> Bench {
        Bench {
            firmware: firmware.to_path_buf(),
            chip: Chip::new(file, &[]),
            rng: Rng::new(seed),
            book: Book::default(),
            doubt: None,
            formatting: true,
            tally: Tally::default(),
        }
    }

    /// Power comes on, hosts make requests, and power goes at a random moment, or right after a commit was answered.
    pub fn cut(&mut self) {
        let turn = |every: usize| self.tally.boots % every == every / 2;
        let (early, answered, format, inside) = (turn(STARTS), turn(ANSWERS), turn(FORMATS), turn(ERASES));
        if inside && !self.formatting {
            self.tally.cut_in_erase += usize::from(self.chip.lose_power_in_erase(&mut self.rng));
        }
        let time = if early { self.time(20) } else { LONG };
        let Some(mut machine) = self.start(time) else { return };
        let most = if format { 25 } else { self.rng.pick(&[30, 200, 800]) };
        let end = Instant::now() + if answered && !format { LONG } else { self.time(most) };
        loop {
            let request = if format { Request::Format } else { Request::random(&mut self.rng) };
            machine.send(&format!("{}\r", request.typed()));
            if answered && matches!(request, Request::Commit(_)) && request.outcome(&self.book).is_some() {
                machine.wait_until(|heard| heard.matches("\r\n").count() == 2);
                self.tally.cut_at_answer += 1;
                return self.met(&request, &machine.cut());
            }
            match machine.hear_until(end) {
                Some(heard) => self.answered(&request, &heard),
                None => return self.met(&request, &machine.cut()),
            }
        }
    }

    /// Power comes on for as long as it takes to compare what the last cut left.
    pub fn settle(&mut self) {
        let machine = self.start(LONG).expect("the board starts");
        drop(machine.cut());
    }

    /// Some time, less than so many milliseconds.
    fn time(&mut self, most: usize) -> Duration {
        Duration::from_micros(self.rng.below(1_000 * most) as u64)
    }

    /// Power comes on, and the objects are compared; None if power went before that was done.
    fn start(&mut self, time: Duration) -> Option<Machine> {
        let (found, again) = (self.chip.objects(), self.chip.format_was_cut());
        let mut machine = Machine::on(&self.firmware, self.chip.file());
        let end = Instant::now() + time;
        self.tally.boots += 1;
        let Some(start) = machine.hear_until(end) else {
            self.tally.cut_in_mount += 1;
            drop(machine.cut());
            return None;
        };
        self.tally.formats_again += usize::from(again);
        assert!(again || found.is_some() || self.formatting, "no store: {start}");
        let line = match (&found, again) {
            (_, true) => "Power was lost in a format. Formatting again.\r\nformat: 0 done, 14 steps",
            (Some(_), _) => "mount: 0 done",
            (None, _) => "mount: 2 no store: the chip is blank\r\nformat: 0 done, 14 steps",
        };
        assert!(start.contains(line), "{start}");
        self.compare(&machine.answer("list"), found.filter(|_| !again).unwrap_or_default());
        Some(machine)
    }

    /// What the board lists is what this machine finds in the chip's file, and what the book says.
    fn compare(&mut self, list: &[String], found: Objects) {
        assert_eq!(list, listed(&found), "the board and this machine find other objects");
        if self.doubt.as_ref() == Some(&found) {
            self.tally.kept += 1;
        } else {
            assert_eq!(found, self.book.objects, "the book has others, or {:?}", self.doubt);
            self.tally.lost += usize::from(self.doubt.is_some());
        }
        self.book = Book::default();
        self.book.objects = found;
        self.doubt = None;
        self.formatting = false;
    }

    fn answered(&mut self, request: &Request, heard: &str) {
        let lines = lines_after(heard, &request.typed()).unwrap_or_else(|| panic!("no echo: {heard}"));
        let expected = request.expected(&self.book);
        assert!(lines[0].starts_with(&expected) && lines.len() == 1, "{request:?}: {lines:?}, not {expected}");
        if let Request::Log = request {
            let (objects, used) = (self.book.objects.len(), self.book.used(FIRST));
            let plural = if objects == 1 { "" } else { "s" };
            assert!(
                lines[0].ends_with(&format!(", {objects} object{plural}, {used} of 4096 bytes used")),
                "{lines:?}"
            );
        }
        self.tally.requests += 1;
        if expected.starts_with('7') {
            self.tally.no_room += 1;
            return;
        }
        request.note(&mut self.book);
        self.tally.commits += usize::from(matches!(request, Request::Commit(_)));
        self.tally.formats += usize::from(matches!(request, Request::Format));
    }

    /// A cut met this request, and this was printed. It was answered if a whole line stands behind the echo.
    fn met(&mut self, request: &Request, heard: &str) {
        match lines_after(heard, &request.typed()) {
            Some(lines) if lines.len() > 1 => {
                self.answered(request, &format!("{}\r\n{}", request.typed(), lines[0]));
            }
            _ => {
                self.doubt = request.outcome(&self.book);
                self.formatting = matches!(request, Request::Format);
            }
        }
    }
}
