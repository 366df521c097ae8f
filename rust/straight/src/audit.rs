//! The auditor: whether a history of reads and writes is causal. It knows nothing of books.
//!
//! A history is a slice of words, eleven for an entry, each crew's entries in its own order:
//!
//! | word | what |
//! |---|---|
//! | 0 | kind: 1 is a write, 2 a read |
//! | 1 | crew, any number |
//! | 2 to 10 | the version: a record of nine words, with four entries whatever the depots are |
//!
//! A read whose four entries are all 0 is of an unwritten bearing; its value, card and origin are not looked at.
//!
//! ```
//! use straight::audit_lines;
//!
//! // Crew 0 writes bearing 4 := 20. Crew 1 reads that, and then reads the bearing as unwritten.
//! let history = b"W 0 4 20 1065353216 1065353216 0 1 0 0 0\nR 1 4 20 1065353216 1065353216 0 1 0 0 0\nR 1 4 -\n";
//! assert_eq!(audit_lines(history), "low 2\n");
//! ```

use crate::desk::{lines, number};
use crate::layout::*;
use crate::order::above;

/// The most entries that a history has, and the words of each.
pub const MOST_ENTRIES: usize = 256;
pub const ENTRY: usize = 11;

/// The kinds of entries.
pub const WRITE_ENTRY: u32 = 1;
pub const READ_ENTRY: u32 = 2;

/// The entries of a version's vector, and so the depots there can be.
const DEPOTS: usize = 4;

/// What the auditor says. Entries are counted from 0.
#[derive(Clone, Copy, Debug, PartialEq, Eq)]
pub enum Verdict {
    /// More than 256 entries.
    TooMany,
    /// Not a whole number of entries.
    BadLength,
    /// The lowest entry that cannot be judged.
    Refused(usize),
    /// The first entry that rests on itself.
    Circle(usize),
    /// The first read that is lower than a write to its bearing in its past.
    Low(usize),
    /// None of these.
    Causal,
}

/// Judges a history.
pub fn audit(words: &[u32]) -> Verdict {
    if words.len() > MOST_ENTRIES * ENTRY {
        return Verdict::TooMany;
    }
    if words.len() % ENTRY != 0 {
        return Verdict::BadLength;
    }
    let history: Vec<Entry> = words.chunks(ENTRY).map(Entry::of).collect();
    let count = history.len();
    if let Some(bad) = (0..count).find(|&at| is_bad(&history, at)) {
        return Verdict::Refused(bad);
    }
    let rests: Vec<Vec<usize>> = (0..count).map(|at| rests_on(&history, at)).collect();
    let pasts: Vec<Vec<bool>> = (0..count).map(|at| past(&rests, at)).collect();
    if let Some(on_circle) = (0..count).find(|&at| pasts[at][at]) {
        return Verdict::Circle(on_circle);
    }
    if let Some(low) = (0..count).find(|&at| is_low(&history, &pasts[at], at)) {
        return Verdict::Low(low);
    }
    Verdict::Causal
}

struct Entry<'a> {
    kind: u32,
    crew: u32,
    record: &'a [u32],
}

impl<'a> Entry<'a> {
    fn of(words: &'a [u32]) -> Entry<'a> {
        Entry { kind: words[0], crew: words[1], record: &words[2..] }
    }

    fn is_write(&self) -> bool {
        self.kind == WRITE_ENTRY
    }

    fn is_unwritten(&self) -> bool {
        self.record[VECTOR..] == [0; DEPOTS]
    }

    /// Whether two entries are of one version: bearing, vector and origin are the same.
    fn same_version(&self, other: &Entry<'_>) -> bool {
        self.record[BEARING] == other.record[BEARING]
            && self.record[ORIGIN] == other.record[ORIGIN]
            && self.record[VECTOR..] == other.record[VECTOR..]
    }

    fn same_value_and_card(&self, other: &Entry<'_>) -> bool {
        self.record[VALUE] == other.record[VALUE]
            && self.record[DIAMETER] == other.record[DIAMETER]
            && self.record[WIDTH] == other.record[WIDTH]
    }
}

/// Whether an entry cannot be judged: a write with an origin over 3 or with stamp 0, or that has a twin; a read of a version
/// that nobody wrote with that value and card; anything that is neither.
fn is_bad(history: &[Entry<'_>], at: usize) -> bool {
    let entry = &history[at];
    match entry.kind {
        WRITE_ENTRY => {
            let origin = entry.record[ORIGIN] as usize;
            origin >= DEPOTS
                || entry.record[VECTOR + origin] == 0
                || (0..history.len()).any(|other| other != at && history[other].is_write() && history[other].same_version(entry))
        }
        READ_ENTRY => {
            let is_its_write =
                |write: &Entry<'_>| write.is_write() && write.same_version(entry) && write.same_value_and_card(entry);
            !entry.is_unwritten() && !history.iter().any(is_its_write)
        }
        _ => true,
    }
}

/// What an entry rests on at once: its crew's earlier entries and, for a read that is not of an unwritten bearing, its write.
fn rests_on(history: &[Entry<'_>], at: usize) -> Vec<usize> {
    let entry = &history[at];
    let mut found: Vec<usize> = (0..at).filter(|&earlier| history[earlier].crew == entry.crew).collect();
    if entry.kind == READ_ENTRY && !entry.is_unwritten() {
        found.extend((0..history.len()).filter(|&write| history[write].is_write() && history[write].same_version(entry)));
    }
    found
}

/// For each entry, whether it is in the past of one: whether that rests on it, at once or by way of others.
fn past(rests: &[Vec<usize>], of: usize) -> Vec<bool> {
    let mut found = vec![false; rests.len()];
    search(rests, of, &mut found);
    found
}

/// Finds what an entry rests on and has not been found yet, depth first.
fn search(rests: &[Vec<usize>], from: usize, found: &mut [bool]) {
    for &at in &rests[from] {
        if !found[at] {
            found[at] = true;
            search(rests, at, found);
        }
    }
}

/// Whether an entry is a read that is lower than a write to the same bearing in its past.
fn is_low(history: &[Entry<'_>], past: &[bool], at: usize) -> bool {
    let read = &history[at];
    read.kind == READ_ENTRY
        && (0..history.len()).any(|write| {
            past[write]
                && history[write].is_write()
                && history[write].record[BEARING] == read.record[BEARING]
                && above(history[write].record, read.record, DEPOTS)
        })
}

/// Judges a history given as lines, one for an entry, and answers by a line. `W` is a write, `R` a read; crew, bearing, value,
/// diameter, width, origin and the four entries follow, or for an unwritten read crew, bearing and `-`. Numbers are as at the
/// desk. Lines are counted from 0; a last one without its line feed counts if it is not empty.
pub fn audit_lines(input: &[u8]) -> String {
    let lines = lines(input);
    if lines.len() > MOST_ENTRIES {
        return "too many\n".to_string();
    }
    let mut words = Vec::new();
    for (at, text) in lines.iter().enumerate() {
        match entry(text) {
            Some(entry) => words.extend(entry),
            None => return format!("bad line {}\n", at),
        }
    }
    match audit(&words) {
        Verdict::TooMany | Verdict::BadLength => unreachable!("at most 256 whole entries"),
        Verdict::Refused(at) => format!("refused {}\n", at),
        Verdict::Circle(at) => format!("circle {}\n", at),
        Verdict::Low(at) => format!("low {}\n", at),
        Verdict::Causal => "causal\n".to_string(),
    }
}

/// The eleven words of a line, if it is one.
fn entry(text: &[u8]) -> Option<[u32; ENTRY]> {
    let words: Vec<&[u8]> = text.split(|&byte| byte == b' ').collect();
    let mut entry = [0; ENTRY];
    entry[0] = match words[0] {
        b"W" => WRITE_ENTRY,
        b"R" => READ_ENTRY,
        _ => return None,
    };
    let is_unwritten = entry[0] == READ_ENTRY && words.len() == 4 && words[3] == b"-";
    let numbers = if is_unwritten { &words[1..3] } else { &words[1..] };
    if !is_unwritten && numbers.len() != ENTRY - 1 {
        return None;
    }
    for (at, digits) in numbers.iter().enumerate() {
        entry[1 + at] = number(digits)?;
    }
    Some(entry)
}
