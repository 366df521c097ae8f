//! The journal and images, by two implementations side by side: calls with their records, recovery, saving and loading.
//! [`recorded`] makes the calls of random lists with their records, [`journals`] cuts, damages and divides journals, [`images`]
//! damages images, and [`slips`] are implementations with one mistake each, to show that it would be found.
//!
//! After every call the answers, every byte or word of the buffers, those past the room that was lent included, and all words
//! of the two books have to be equal. Besides, what `docs/JOURNAL.md` promises is looked for in both.

pub mod images;
pub mod journals;
pub mod recorded;
pub mod slips;

use std::collections::BTreeMap;
use std::fmt;

use crate::event::{Event, BUFFER};
use crate::random::Random;
#[cfg(feature = "library")]
pub use crate::register::Library;
pub use crate::register::Straight;
use crate::register::{list_answer, read_answer, write_answer, NO_ROOM};
use straight::{Answer, Request, BAD_RECORD};

/// The functions of `include/depot_register.h` that keep a register. `record`, `out` and `image` are written as the header
/// says, and only so.
pub trait Keeper {
    fn recorded(&self, book: &mut [u32], kind: u32, numbers: &[u32], record: &mut [u8], out: &mut [u32]) -> u32;
    fn recover(&self, book: &mut [u32], bytes: &[u8], out: &mut [u64]) -> u32;
    fn save_image(&self, book: &[u32], image: &mut [u8]) -> u32;
    fn load_image(&self, book: &mut [u32], image: &[u8]) -> u32;
}

/// The words of what a call with its record tells, and of what recovery does.
pub const RECORDED_WORDS: usize = 65;
pub const RECOVERED_COUNTS: usize = 2;

impl Keeper for Straight {
    fn recorded(&self, book: &mut [u32], kind: u32, numbers: &[u32], record: &mut [u8], out: &mut [u32]) -> u32 {
        if out.len() < RECORDED_WORDS {
            return NO_ROOM;
        }
        let Some(request) = request(kind, numbers) else { return BAD_RECORD };
        match straight::call_with_record(book, &request, record) {
            Ok((answer, length)) => {
                tell(answer, length, out);
                0
            }
            Err(number) => number,
        }
    }

    fn recover(&self, book: &mut [u32], bytes: &[u8], out: &mut [u64]) -> u32 {
        if out.len() < RECOVERED_COUNTS {
            return NO_ROOM;
        }
        let told = straight::recover(book, bytes);
        out[0] = told.records as u64;
        out[1] = told.bytes as u64;
        told.ended
    }

    fn save_image(&self, book: &[u32], image: &mut [u8]) -> u32 {
        straight::save_image(book, image).err().unwrap_or(0)
    }

    fn load_image(&self, book: &mut [u32], image: &[u8]) -> u32 {
        straight::load_image(book, image).err().unwrap_or(0)
    }
}

#[cfg(feature = "library")]
impl Keeper for Library {
    fn recorded(&self, book: &mut [u32], kind: u32, numbers: &[u32], record: &mut [u8], out: &mut [u32]) -> u32 {
        depot_register::raw::recorded(book, kind, numbers, record, out)
    }

    fn recover(&self, book: &mut [u32], bytes: &[u8], out: &mut [u64]) -> u32 {
        depot_register::raw::recover(book, bytes, out)
    }

    fn save_image(&self, book: &[u32], image: &mut [u8]) -> u32 {
        depot_register::raw::save_image(book, image)
    }

    fn load_image(&self, book: &mut [u32], image: &[u8]) -> u32 {
        depot_register::raw::load_image(book, image)
    }
}

/// The request of a kind and its numbers, if the kind has so many.
pub fn request(kind: u32, numbers: &[u32]) -> Option<Request> {
    Some(match (kind, numbers) {
        (1, &[depots, shelves, bearings, crews, ref homes @ ..]) => {
            Request::Setup { depots, shelves, bearings, crews, homes: homes.to_vec() }
        }
        (2, &[crew, bearing]) => Request::Read { crew, bearing },
        (3, &[crew, bearing, value, diameter, width]) => Request::Write { crew, bearing, value, diameter, width },
        (4, &[depot, shelf]) => Request::Tick { depot, shelf },
        (5, &[depot, shelf, from]) => Request::Take { depot, shelf, from },
        (6, &[depot, shelf]) => Request::Refresh { depot, shelf },
        (7, &[crew, depot]) => Request::Move { crew, depot },
        (8, &[crew, ref bearings @ ..]) => Request::List { crew, bearings: bearings.to_vec() },
        _ => return None,
    })
}

/// The kind and the numbers of a call; of any other event there are none.
pub fn asked(event: &Event) -> Option<(u32, Vec<u32>)> {
    Some(match event {
        Event::Setup { counts, homes } => (1, [&counts[..], homes].concat()),
        Event::Read { crew, bearing } => (2, vec![*crew, *bearing]),
        Event::Write { crew, bearing, value, card } => (3, vec![*crew, *bearing, *value, card[0], card[1]]),
        Event::Tick { depot, shelf } => (4, vec![*depot, *shelf]),
        Event::Take { depot, shelf, from } => (5, vec![*depot, *shelf, *from]),
        Event::Refresh { depot, shelf } => (6, vec![*depot, *shelf]),
        Event::Move { crew, depot } => (7, vec![*crew, *depot]),
        Event::List { crew, bearings } => (8, [&[*crew], &bearings[..]].concat()),
        _ => return None,
    })
}

/// Puts down what a call with its record tells: the record's length, then the answer, and 0 behind it.
fn tell(answer: Answer, length: usize, out: &mut [u32]) {
    let out = &mut out[..RECORDED_WORDS];
    out.fill(0);
    out[0] = length as u32;
    let words = &mut out[1..];
    match answer {
        Answer::Done => 0,
        Answer::Read(reading) => read_answer(Ok(reading), words),
        Answer::Written(written) => write_answer(Ok(written), words),
        Answer::List(readings) => list_answer(Ok(readings), words),
    };
}

/// What is asked of both, with the rooms that are lent.
#[derive(Clone, Debug, PartialEq, Eq)]
pub enum Call {
    Recorded { kind: u32, numbers: Vec<u32>, room: usize, out: usize },
    Recover { bytes: Vec<u8>, out: usize },
    Save { room: usize },
    Load { image: Vec<u8> },
}

/// What one did: the number, the bytes or words that it was lent, with a guard behind them, and the book, with what is behind
/// it.
#[derive(Clone, PartialEq)]
pub struct Outcome {
    pub number: u32,
    pub bytes: Vec<u8>,
    pub out: Vec<u64>,
    pub book: Vec<u32>,
}

/// The bytes or words behind the room that is lent; nobody may touch them.
const GUARD: usize = 8;

fn fresh_bytes(room: usize) -> Vec<u8> {
    (0..room + GUARD).map(|at| 0xA5 ^ at as u8).collect()
}

fn fresh_words(room: usize) -> Vec<u64> {
    (0..room + GUARD).map(|at| 0xA5A5_A5A5 ^ at as u64).collect()
}

impl Call {
    /// Runs the call on a book of so many words; behind it there are others.
    pub fn run(&self, keeper: &dyn Keeper, buffer: &[u32], words: usize) -> Outcome {
        let mut book = buffer.to_vec();
        let lent = &mut book[..words];
        let (number, bytes, out) = match self {
            Call::Recorded { kind, numbers, room, out } => {
                let (mut record, mut told) = (fresh_bytes(*room), words_of(&fresh_words(*out)));
                let number = keeper.recorded(lent, *kind, numbers, &mut record[..*room], &mut told[..*out]);
                (number, record, told.into_iter().map(u64::from).collect())
            }
            Call::Recover { bytes, out } => {
                let mut told = fresh_words(*out);
                let number = keeper.recover(lent, bytes, &mut told[..*out]);
                (number, Vec::new(), told)
            }
            Call::Save { room } => {
                let mut image = fresh_bytes(*room);
                (keeper.save_image(lent, &mut image[..*room]), image, Vec::new())
            }
            Call::Load { image } => (keeper.load_image(lent, image), Vec::new(), Vec::new()),
        };
        Outcome { number, bytes, out, book }
    }

    /// What it would be if it had left all buffers and the book alone.
    pub fn untouched(&self, number: u32, buffer: &[u32]) -> Outcome {
        let (bytes, out) = match self {
            Call::Recorded { room, out, .. } => (fresh_bytes(*room), fresh_words(*out)),
            Call::Recover { out, .. } => (Vec::new(), fresh_words(*out)),
            Call::Save { room } => (fresh_bytes(*room), Vec::new()),
            Call::Load { .. } => (Vec::new(), Vec::new()),
        };
        Outcome { number, bytes, out, book: buffer.to_vec() }
    }
}

fn words_of(words: &[u64]) -> Vec<u32> {
    words.iter().map(|&word| word as u32).collect()
}

/// What the two do not agree on, or what neither may do, for a reader.
pub struct Trouble(pub String);

impl fmt::Display for Trouble {
    fn fmt(&self, f: &mut fmt::Formatter<'_>) -> fmt::Result {
        f.write_str(&self.0)
    }
}

/// Two implementations.
#[derive(Clone, Copy)]
pub struct Pair<'a> {
    pub seed: u64,
    pub left: &'a dyn Keeper,
    pub right: &'a dyn Keeper,
}

impl Pair<'_> {
    /// The outcome of a call on a book of so many words, if it is the same on both sides.
    pub fn call(&self, call: &Call, buffer: &[u32], words: usize) -> Result<Outcome, Trouble> {
        let left = call.run(self.left, buffer, words);
        let right = call.run(self.right, buffer, words);
        if left == right {
            return Ok(left);
        }
        let moved = left.book.iter().zip(&right.book).enumerate().filter(|(_, (a, b))| a != b).take(4);
        let moved: String = moved.map(|(at, (a, b))| format!("  word {}: straight {}, other {}\n", at, a, b)).collect();
        let said = |outcome: &Outcome| match call {
            Call::Save { .. } | Call::Load { .. } => format!("{}", outcome.number),
            _ => format!("{}, {:02x?}, {:x?}", outcome.number, outcome.bytes, outcome.out),
        };
        Err(self.trouble(call, words, &format!("straight: {}\n  other:    {}\n{}", said(&left), said(&right), moved)))
    }

    /// The same, where it must be this outcome.
    pub fn expect(&self, call: &Call, buffer: &[u32], words: usize, expected: &Outcome) -> Result<(), Trouble> {
        let outcome = self.call(call, buffer, words)?;
        if outcome == *expected {
            return Ok(());
        }
        let text =
            format!("both answer {}, {:x?}, and not {}, {:x?}", outcome.number, outcome.out, expected.number, expected.out);
        let text = if outcome.number == expected.number { format!("{}, or leave another book or buffer", text) } else { text };
        Err(self.trouble(call, words, &text))
    }

    fn trouble(&self, call: &Call, words: usize, text: &str) -> Trouble {
        let call = match call {
            Call::Load { image } => format!("Load {{ an image of {} bytes }}", image.len()),
            other => format!("{:02x?}", other),
        };
        Trouble(format!("seed {}: {}\n  on a book of {} words\n  {}\n", self.seed, call, words, text))
    }
}

/// What recovery tells, in the words that it is lent.
pub fn told(records: usize, bytes: usize, out: usize) -> Vec<u64> {
    let mut words = fresh_words(out);
    words[0] = records as u64;
    words[1] = bytes as u64;
    words
}

/// How often each call had each answer.
#[derive(Default)]
pub struct Tally {
    counts: BTreeMap<(&'static str, u32), u64>,
}

impl Tally {
    fn count(&mut self, what: &'static str, number: u32) {
        *self.counts.entry((what, number)).or_default() += 1;
    }

    /// How often a call, `recorded`, `recover`, `save` or `load`, had an answer.
    pub fn of(&self, what: &'static str, number: u32) -> u64 {
        self.counts.get(&(what, number)).copied().unwrap_or(0)
    }
}

impl fmt::Display for Tally {
    fn fmt(&self, f: &mut fmt::Formatter<'_>) -> fmt::Result {
        self.counts.iter().try_for_each(|((what, number), count)| writeln!(f, "{:>10}  {} answers {}", count, what, number))
    }
}

/// The answers of each call.
pub const RECORDED: [u32; 18] = [0, 1, 2, 3, 4, 5, 6, 7, 8, 9, 10, 11, 12, 14, 15, 16, 100, 110];
pub const RECOVER: [u32; 12] = [0, 1, 2, 3, 4, 5, 8, 11, 16, 100, 110, 111];
pub const SAVE: [u32; 3] = [0, 1, 100];
pub const LOAD: [u32; 4] = [0, 1, 100, 112];

/// A book and words behind it, any.
fn lent(random: &mut Random, book: &[u32]) -> Vec<u32> {
    let mut buffer = book.to_vec();
    buffer.resize_with(BUFFER, || random.word());
    buffer
}

/// A length that a book is lent with: now and then a wrong one.
fn odd_length(random: &mut Random) -> usize {
    match random.below(40) {
        0 => random.choose(&[0, 1, 4, 20, straight::WORDS - 1, straight::WORDS + 1, BUFFER]),
        _ => straight::WORDS,
    }
}
