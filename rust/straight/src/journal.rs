//! The journal, from `docs/JOURNAL.md`: a record for each call that was done and may change the book, and recovery, which
//! reads records and makes their calls again.
//!
//! ```
//! use straight::{record, recover, Recovered, Request, CUT, WHOLE, WORDS};
//!
//! let mut journal = record(&Request::Setup { depots: 2, shelves: 2, bearings: 4, crews: 2, homes: vec![0, 1] });
//! journal.extend(record(&Request::Read { crew: 0, bearing: 0 }));
//! journal.extend(record(&Request::Tick { depot: 0, shelf: 1 }));
//! assert_eq!(journal[35..], [4, 0, 0, 0, 0, 1, 0, 0, 0]);
//!
//! let mut book = vec![0; WORDS];
//! assert_eq!(recover(&mut book, &journal), Recovered { records: 3, bytes: 44, ended: WHOLE });
//! let mut book = vec![0; WORDS];
//! assert_eq!(recover(&mut book, &journal[..40]), Recovered { records: 2, bytes: 35, ended: CUT });
//! ```

use crate::request::{call, Answer, Request};
use crate::NO_ROOM;

/// How recovery ended: with the last record, or without any.
pub const WHOLE: u32 = 0;
/// BAD RECORD, of recovery: the next byte is no kind.
pub const BAD_RECORD: u32 = 110;
/// CUT, of recovery: the bytes end inside the next record.
pub const CUT: u32 = 111;

/// The kinds of records.
const SETUP: u8 = 1;
const READ: u8 = 2;
const WRITE: u8 = 3;
const TICK: u8 = 4;
const TAKE: u8 = 5;
const REFRESH: u8 = 6;
const MOVE: u8 = 7;
const LIST: u8 = 8;

/// What recovery tells besides the book: how many records were done, how many bytes these have, and how it ended, by
/// [`WHOLE`], [`CUT`], [`BAD_RECORD`] or the number of the refusal of the next record.
#[derive(Clone, Copy, Debug, PartialEq, Eq)]
pub struct Recovered {
    pub records: usize,
    pub bytes: usize,
    pub ended: u32,
}

/// The bytes of a call's record.
///
/// # Panics
///
/// Of a setup with more than 255 homes, or a list of more than 255 bearings, there is no record. None of these is ever done.
pub fn record(request: &Request) -> Vec<u8> {
    let mut bytes = Vec::new();
    match request {
        Request::Setup { depots, shelves, bearings, crews, homes } => {
            bytes.push(SETUP);
            bytes.push(u8::try_from(homes.len()).expect("at most 255 homes"));
            push(&mut bytes, &[*depots, *shelves, *bearings, *crews]);
            push(&mut bytes, homes);
        }
        Request::Read { crew, bearing } => {
            bytes.push(READ);
            push(&mut bytes, &[*crew, *bearing]);
        }
        Request::Write { crew, bearing, value, diameter, width } => {
            bytes.push(WRITE);
            push(&mut bytes, &[*crew, *bearing, *value, *diameter, *width]);
        }
        Request::Tick { depot, shelf } => {
            bytes.push(TICK);
            push(&mut bytes, &[*depot, *shelf]);
        }
        Request::Take { depot, shelf, from } => {
            bytes.push(TAKE);
            push(&mut bytes, &[*depot, *shelf, *from]);
        }
        Request::Refresh { depot, shelf } => {
            bytes.push(REFRESH);
            push(&mut bytes, &[*depot, *shelf]);
        }
        Request::Move { crew, depot } => {
            bytes.push(MOVE);
            push(&mut bytes, &[*crew, *depot]);
        }
        Request::List { crew, bearings } => {
            bytes.push(LIST);
            bytes.push(u8::try_from(bearings.len()).expect("at most 255 bearings"));
            push(&mut bytes, &[*crew]);
            push(&mut bytes, bearings);
        }
    }
    bytes
}

/// How many bytes a call's record has, or would have if more than 255 could be counted.
pub fn record_length(request: &Request) -> usize {
    match request {
        Request::Setup { homes, .. } => 18 + 4 * homes.len(),
        Request::Write { .. } => 21,
        Request::Take { .. } => 13,
        Request::Read { .. } | Request::Tick { .. } | Request::Refresh { .. } | Request::Move { .. } => 9,
        Request::List { bearings, .. } => 6 + 4 * bearings.len(),
    }
}

/// Makes a call on a book and puts its record into the buffer; answers as the call does, and with the record's length. Refused
/// by [`NO_ROOM`], before all else, or as the call is; then book and buffer stay as they were.
pub fn call_with_record(book: &mut [u32], request: &Request, buffer: &mut [u8]) -> Result<(Answer, usize), u32> {
    let length = record_length(request);
    if buffer.len() < length {
        return Err(NO_ROOM);
    }
    let answer = call(book, request).map_err(|refusal| refusal as u32)?;
    buffer[..length].copy_from_slice(&record(request));
    Ok((answer, length))
}

/// Makes the calls of a journal's records on a book, from the first byte on, until the bytes end or a record cannot be done.
/// The book of zeros is where a journal starts, or an image's book if it goes on from there.
pub fn recover(book: &mut [u32], journal: &[u8]) -> Recovered {
    let mut records = 0;
    let mut bytes = 0;
    while bytes < journal.len() {
        let next = &journal[bytes..];
        if !is_kind(next[0]) {
            return Recovered { records, bytes, ended: BAD_RECORD };
        }
        let Some((request, length)) = first(next) else {
            return Recovered { records, bytes, ended: CUT };
        };
        if let Err(refusal) = call(book, &request) {
            return Recovered { records, bytes, ended: refusal as u32 };
        }
        records += 1;
        bytes += length;
    }
    Recovered { records, bytes, ended: WHOLE }
}

fn is_kind(byte: u8) -> bool {
    (SETUP..=LIST).contains(&byte)
}

/// The call of the record that these bytes begin with, and the record's length; none if they end inside it.
fn first(bytes: &[u8]) -> Option<(Request, usize)> {
    let kind = bytes[0];
    let (begin, count) = match kind {
        SETUP => (2, 4 + usize::from(*bytes.get(1)?)),
        READ | TICK | REFRESH | MOVE => (1, 2),
        WRITE => (1, 5),
        TAKE => (1, 3),
        LIST => (2, 1 + usize::from(*bytes.get(1)?)),
        _ => unreachable!("it is a kind"),
    };
    let end = begin + 4 * count;
    let n = numbers(bytes.get(begin..end)?);
    let request = match kind {
        SETUP => Request::Setup { depots: n[0], shelves: n[1], bearings: n[2], crews: n[3], homes: n[4..].to_vec() },
        READ => Request::Read { crew: n[0], bearing: n[1] },
        WRITE => Request::Write { crew: n[0], bearing: n[1], value: n[2], diameter: n[3], width: n[4] },
        TICK => Request::Tick { depot: n[0], shelf: n[1] },
        TAKE => Request::Take { depot: n[0], shelf: n[1], from: n[2] },
        REFRESH => Request::Refresh { depot: n[0], shelf: n[1] },
        MOVE => Request::Move { crew: n[0], depot: n[1] },
        LIST => Request::List { crew: n[0], bearings: n[1..].to_vec() },
        _ => unreachable!("it is a kind"),
    };
    Some((request, end))
}

/// Appends numbers, each as four bytes, the lowest first.
pub(crate) fn push(bytes: &mut Vec<u8>, numbers: &[u32]) {
    for number in numbers {
        bytes.extend(number.to_le_bytes());
    }
}

/// The numbers of these bytes, four for each, the lowest first.
pub(crate) fn numbers(bytes: &[u8]) -> Vec<u32> {
    bytes.chunks(4).map(|four| u32::from_le_bytes([four[0], four[1], four[2], four[3]])).collect()
}
