//! Frames for the radio link, written and read by two implementations side by side. [`cases`] makes links, frames and damaged
//! frames at random, [`streams`] sends long rows of frames over a bad radio, and [`slips`] are implementations with one mistake
//! each, to show that it would be found.
//!
//! After every call the answers, every byte or word of the buffers, those past the room that was lent included, and all words
//! of the two books have to be equal.

pub mod cases;
pub mod slips;
pub mod streams;

use std::collections::BTreeMap;
use std::fmt::{self, Debug, Display};

use straight::layout::*;
use straight::WORDS;

/// A link as both calls name it: the depot that takes, the shelf, the depot that sends.
#[derive(Clone, Copy, Debug, PartialEq, Eq)]
pub struct Link {
    pub depot: u32,
    pub shelf: u32,
    pub from: u32,
}

/// A writer and a reader of frames. Each answers the length, or how many messages, or the number of a refusal.
pub trait Frames {
    fn write(&self, book: &[u32], link: Link, count: u32, serial: u16, out: &mut [u8]) -> Result<usize, u32>;
    fn read(&self, book: &[u32], link: Link, expected: u16, frame: &[u8], out: &mut [u32]) -> Result<usize, u32>;
}

/// The straight version.
pub struct Straight;

impl Frames for Straight {
    fn write(&self, book: &[u32], link: Link, count: u32, serial: u16, out: &mut [u8]) -> Result<usize, u32> {
        straight::frame_write(book, link.depot, link.shelf, link.from, count, serial, out)
    }

    fn read(&self, book: &[u32], link: Link, expected: u16, frame: &[u8], out: &mut [u32]) -> Result<usize, u32> {
        straight::frame_read(book, link.depot, link.shelf, link.from, expected, frame, out)
    }
}

/// What is asked of both. `room` is the length of the buffer that is lent.
#[derive(Clone, Debug, PartialEq, Eq)]
pub enum Call {
    Write { link: Link, count: u32, serial: u16, room: usize },
    Read { link: Link, expected: u16, frame: Vec<u8>, room: usize },
}

/// A call on which two implementations differ.
pub struct Difference {
    pub seed: u64,
    pub call: Call,
    /// The book before the call.
    pub book: Vec<u32>,
    /// What each did, for a reader.
    pub left: String,
    pub right: String,
}

/// The bytes or words behind the room that is lent; nobody may touch them.
const GUARD: usize = 8;

/// Two implementations and their books, which are equal between calls.
pub struct Pair<'a> {
    seed: u64,
    left: &'a dyn Frames,
    right: &'a dyn Frames,
    books: [Vec<u32>; 2],
}

impl<'a> Pair<'a> {
    pub fn new(seed: u64, left: &'a dyn Frames, right: &'a dyn Frames, book: Vec<u32>) -> Pair<'a> {
        Pair { seed, left, right, books: [book.clone(), book] }
    }

    /// The book of both.
    pub fn book(&self) -> &[u32] {
        &self.books[0]
    }

    /// Changes the book of both, its length too.
    pub fn change(&mut self, change: impl FnOnce(&mut Vec<u32>)) {
        let [left, right] = &mut self.books;
        change(left);
        right.clone_from(left);
    }

    /// The frame that both write, or the number by which both refuse.
    pub fn write(&self, link: Link, count: u32, serial: u16, room: usize) -> Result<Result<Vec<u8>, u32>, Box<Difference>> {
        let on = |frames: &dyn Frames, book: &[u32]| {
            let mut out: Vec<u8> = (0..room + GUARD).map(|at| 0xA5 ^ at as u8).collect();
            let answer = frames.write(book, link, count, serial, &mut out[..room]);
            (answer, out)
        };
        let (answer, out) = self.both(&on, || Call::Write { link, count, serial, room })?;
        Ok(answer.map(|length| out[..length].to_vec()))
    }

    /// The words that both hand out, or the number by which both refuse.
    pub fn read(&self, link: Link, expected: u16, frame: &[u8], room: usize) -> Result<Result<Vec<u32>, u32>, Box<Difference>> {
        let on = |frames: &dyn Frames, book: &[u32]| {
            let mut out: Vec<u32> = (0..room + GUARD).map(|at| 0xA5A5_A5A5 ^ at as u32).collect();
            let answer = frames.read(book, link, expected, frame, &mut out[..room]);
            (answer, out)
        };
        let (answer, out) = self.both(&on, || Call::Read { link, expected, frame: frame.to_vec(), room })?;
        Ok(answer.map(|count| out[..SLOT * count].to_vec()))
    }

    fn both<T: Clone + PartialEq + Debug>(
        &self,
        on: &Done<'_, T>,
        call: impl FnOnce() -> Call,
    ) -> Result<(Result<usize, u32>, Vec<T>), Box<Difference>> {
        let [left_book, right_book] = &self.books;
        let left = on(self.left, left_book);
        let right = on(self.right, right_book);
        if left == right && left_book == right_book {
            return Ok(left);
        }
        let moved = if left_book == right_book { "" } else { ", and moved words of the book" };
        Err(Box::new(Difference {
            seed: self.seed,
            call: call(),
            book: left_book.clone(),
            left: format!("{:?}, buffer {:02x?}", left.0, left.1),
            right: format!("{:?}, buffer {:02x?}{}", right.0, right.1, moved),
        }))
    }
}

/// One call on one implementation: its answer, and the whole buffer after it.
type Done<'a, T> = dyn Fn(&dyn Frames, &[u32]) -> (Result<usize, u32>, Vec<T>) + 'a;

impl Display for Difference {
    fn fmt(&self, to: &mut fmt::Formatter<'_>) -> fmt::Result {
        writeln!(to, "seed {}: {:x?}", self.seed, self.call)?;
        writeln!(to, "  on a book of {} words", self.book.len())?;
        if self.book.len() == WORDS {
            writeln!(to, "  counts {:?} homes {:?}", &self.book[..4], &self.book[home(0)..home(16)])?;
        }
        let (Call::Write { link: on, .. } | Call::Read { link: on, .. }) = &self.call;
        if self.book.len() == WORDS && on.depot < 4 && on.shelf < 4 && on.from < 4 {
            let on = link(on.shelf as usize, on.from as usize, on.depot as usize);
            writeln!(to, "  the link holds {}, {} taken", self.book[held(on)], self.book[taken(on)])?;
            for place in 0..self.book[held(on)].min(ROOM) as usize {
                writeln!(to, "  slot {}: {:x?}", place, &self.book[slot(on, place)..][..SLOT])?;
            }
        }
        writeln!(to, "  straight: {}", self.left)?;
        writeln!(to, "  other:    {}", self.right)
    }
}

/// How often each call had each answer, and how often a state worth reaching was reached.
#[derive(Default)]
pub struct Tally {
    pub calls: u64,
    counts: BTreeMap<(&'static str, u32), u64>,
}

impl Tally {
    fn answer<T>(&mut self, call: &'static str, answer: &Result<T, u32>) {
        self.calls += 1;
        self.mark(call, answer.as_ref().err().copied().unwrap_or(0));
    }

    fn mark(&mut self, what: &'static str, number: u32) {
        *self.counts.entry((what, number)).or_default() += 1;
    }

    /// How often a call, `write` or `read`, had an answer; or a state of [`MARKS`], with number 0, was reached.
    pub fn of(&self, what: &'static str, number: u32) -> u64 {
        self.counts.get(&(what, number)).copied().unwrap_or(0)
    }
}

impl Display for Tally {
    fn fmt(&self, to: &mut fmt::Formatter<'_>) -> fmt::Result {
        for ((what, number), count) in &self.counts {
            match MARKS.contains(what) {
                true => writeln!(to, "{:>10}  {}", count, what)?,
                false => writeln!(to, "{:>10}  {} answers {}", count, what, number)?,
            }
        }
        Ok(())
    }
}

/// The answers of the writer and of the reader.
pub const WRITER: [u32; 8] = [0, 1, 2, 3, 6, 7, 100, 101];
pub const READER: [u32; 9] = [0, 1, 2, 3, 6, 100, 102, 103, 104];

/// The states worth reaching.
pub const MARKS: [&str; 6] = [
    "a frame behind a taken copy that is not fit",
    "a frame of sixteen messages",
    "a changed frame that is read as another",
    "a frame whose serial is 0, done",
    "a serial 32,767 behind",
    "a serial 32,768 behind",
];
