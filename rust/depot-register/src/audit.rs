//! The auditor: whether a history of reads and writes is causal. It needs no register. `docs/AUDIT.md` says what is looked for.
//!
//! ```
//! use depot_register::audit::{Recorder, Verdict};
//! use depot_register::{Counts, Depot, Register};
//!
//! let counts = Counts { depots: 2, shelves: 1, bearings: 4, crews: 2 };
//! let mut register = Register::setup(counts, &[Depot(0), Depot(1)]).unwrap();
//! let mut recorder = Recorder::new();
//! for line in [&b"W 0 2 9131 1065353216 1065353216"[..], b"R 1 2", b"T 1 0 0", b"F 1 0", b"R 1 2"] {
//!     recorder.line(&mut register, line);
//! }
//! let version = "9131 1065353216 1065353216 0 1 0 0 0";
//! assert_eq!(recorder.lines(), format!("W 0 2 {}\nR 1 2 -\nR 1 2 {}\n", version, version));
//! assert_eq!(recorder.verdict(), Verdict::Causal);
//! ```

use std::fmt;

use crate::{raw, Bearing, Card, Crew, Reading, Refusal, Register, Written, ANSWER_BYTES, RECORD};

/// The words of an entry: kind, crew, and a version record with four entries whatever the depots are.
pub const ENTRY: usize = 2 + RECORD;
/// The most entries that a history has.
pub const MOST_ENTRIES: usize = 256;
/// The kind of a write, and of a read.
pub const WRITE: u32 = 0;
pub const READ: u32 = 1;

/// What the auditor finds. Entries are counted from 0.
#[derive(Clone, Copy, Debug, PartialEq, Eq, Hash)]
pub enum Verdict {
    /// Nothing is wrong.
    Causal,
    /// More than 256 entries; nothing else was looked at.
    TooMany,
    /// The words are no whole number of entries.
    BadLength,
    /// The lowest entry that no history has.
    Refused(u32),
    /// The first entry that rests on itself.
    Circle(u32),
    /// The first read that is lower than a write to its bearing in its past.
    Low(u32),
}

impl fmt::Display for Verdict {
    fn fmt(&self, f: &mut fmt::Formatter<'_>) -> fmt::Result {
        match self {
            Verdict::Causal => f.write_str("causal"),
            Verdict::TooMany => f.write_str("too many"),
            Verdict::BadLength => f.write_str("bad length"),
            Verdict::Refused(entry) => write!(f, "refused {}", entry),
            Verdict::Circle(entry) => write!(f, "circle {}", entry),
            Verdict::Low(entry) => write!(f, "low {}", entry),
        }
    }
}

/// Judges a history: any words, eleven an entry, each crew's entries in its own order.
///
/// ```
/// use depot_register::audit::{audit, Verdict};
/// let write = [0, 0, 0, 20, 1, 1, 0, 1, 0, 0, 0];
/// let unwritten = [1, 0, 0, 0, 0, 0, 0, 0, 0, 0, 0];
/// assert_eq!(audit(&[write, unwritten].concat()), Verdict::Low(1));
/// assert_eq!(audit(&[unwritten, write].concat()), Verdict::Causal);
/// assert_eq!(audit(&write[1..]), Verdict::BadLength);
/// ```
pub fn audit(words: &[u32]) -> Verdict {
    let number = raw::audit(words);
    let entry = number / 256;
    match number % 256 {
        0 => Verdict::Causal,
        1 => Verdict::TooMany,
        2 => Verdict::BadLength,
        3 => Verdict::Refused(entry),
        4 => Verdict::Circle(entry),
        5 => Verdict::Low(entry),
        _ => panic!("the library answered {}, which is no number of the auditor", number),
    }
}

/// Records what a register's crews wrote and were shown since its last setup, for an insurer to audit.
#[derive(Clone, Debug, Default, PartialEq, Eq)]
pub struct Recorder {
    words: Vec<u32>,
}

impl Recorder {
    /// Nothing is recorded yet: the register was just set up.
    pub fn new() -> Recorder {
        Recorder::default()
    }

    /// A read, as [`Register::read`] does it, recorded if it is done.
    ///
    /// ```
    /// # use depot_register::audit::Recorder;
    /// # use depot_register::{Bearing, Card, Counts, Crew, Depot, Register};
    /// # let counts = Counts { depots: 1, shelves: 1, bearings: 1, crews: 1 };
    /// # let mut register = Register::setup(counts, &[Depot(0)]).unwrap();
    /// let mut recorder = Recorder::new();
    /// recorder.read(&mut register, Crew(0), Bearing(0)).unwrap();
    /// recorder.write(&mut register, Crew(0), Bearing(0), 20, Card { diameter: 1.0, width: 1.0 }).unwrap();
    /// assert_eq!(recorder.lines(), "R 0 0 -\nW 0 0 20 1065353216 1065353216 0 1 0 0 0\n");
    /// ```
    pub fn read(&mut self, register: &mut Register, crew: Crew, bearing: Bearing) -> Result<Reading, Refusal> {
        let answer = register.read(crew, bearing)?;
        self.was_read(&register.book, crew.0, bearing.0);
        Ok(answer)
    }

    /// A write, as [`Register::write`] does it, recorded if it is done.
    pub fn write(
        &mut self,
        register: &mut Register,
        crew: Crew,
        bearing: Bearing,
        value: u32,
        card: Card,
    ) -> Result<Written, Refusal> {
        let answer = register.write(crew, bearing, value, card)?;
        self.was_written(&register.book, &[crew.0, bearing.0, value, card.diameter.to_bits(), card.width.to_bits()]);
        Ok(answer)
    }

    /// The answer to a line of the desk, as [`Register::line`] gives it. A read or a write that is done is recorded; a setup
    /// that is done starts a new history.
    pub fn line(&mut self, register: &mut Register, line: &[u8]) -> Vec<u8> {
        self.line_on(&mut register.book, line)
    }

    /// The same on the words of a book, fit or not.
    pub fn line_on(&mut self, book: &mut [u32], line: &[u8]) -> Vec<u8> {
        let mut out = [0; ANSWER_BYTES];
        let length = raw::line(book, line, &mut out);
        if out[0] == b'0' {
            let numbers: Vec<u32> = line.split(|&byte| byte == b' ').skip(1).map(number).collect();
            match line[0] {
                b'S' => self.words.clear(),
                b'R' => self.was_read(book, numbers[0], numbers[1]),
                b'W' => self.was_written(book, &numbers),
                // A list read counts as its reads, in the order of the list.
                b'L' => numbers[1..].iter().for_each(|&bearing| self.was_read(book, numbers[0], bearing)),
                _ => {}
            }
        }
        out[..length].to_vec()
    }

    /// A read that was just done: the version is the one that the crew's home now stores.
    fn was_read(&mut self, book: &[u32], crew: u32, bearing: u32) {
        let at = 10_596 + 1_440 * home(book, crew) as usize + RECORD * bearing as usize;
        let depots = book[0] as usize;
        self.words.extend([READ, crew, bearing]);
        if book[at + 5..at + 5 + depots].iter().all(|&entry| entry == 0) {
            self.words.extend([0; RECORD - 1]);
        } else {
            self.words.extend(&book[at + 1..at + 5]);
            self.vector(&book[at + 5..at + 5 + depots]);
        }
    }

    /// A write that was just done: its vector is the one that the crew now has. `numbers` are those of its line.
    fn was_written(&mut self, book: &[u32], numbers: &[u32]) {
        let crew = numbers[0];
        let at = 20 + 4 * crew as usize;
        self.words.extend([WRITE, crew]);
        self.words.extend(&numbers[1..5]);
        self.words.push(home(book, crew));
        self.vector(&book[at..at + book[0] as usize]);
    }

    /// A vector with four entries, 0 past the depots.
    fn vector(&mut self, entries: &[u32]) {
        self.words.extend(entries);
        self.words.extend(&[0; 4][entries.len()..]);
    }

    /// What was recorded, eleven words an entry.
    pub fn words(&self) -> &[u32] {
        &self.words
    }

    /// What was recorded, as the lines that the program `audit` reads.
    pub fn lines(&self) -> String {
        self.words.chunks(ENTRY).map(text).collect()
    }

    /// What the auditor says of it.
    pub fn verdict(&self) -> Verdict {
        audit(&self.words)
    }
}

/// The home of a crew.
fn home(book: &[u32], crew: u32) -> u32 {
    book[4 + crew as usize]
}

/// A number of a line that was accepted.
fn number(digits: &[u8]) -> u32 {
    digits.iter().fold(0, |value, digit| 10 * value + u32::from(digit - b'0'))
}

/// The line of an entry, with its line feed: `W` or `R` and ten numbers, or of an unwritten bearing crew, bearing and a dash.
fn text(entry: &[u32]) -> String {
    let letter = if entry[0] == WRITE { 'W' } else { 'R' };
    if entry[0] == READ && entry[7..] == [0; 4] {
        return format!("{} {} {} -\n", letter, entry[1], entry[2]);
    }
    let numbers: Vec<String> = entry[1..].iter().map(u32::to_string).collect();
    format!("{} {}\n", letter, numbers.join(" "))
}
