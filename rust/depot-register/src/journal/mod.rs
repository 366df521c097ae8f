//! The journal: a record for each call that is done, from which the book is built again after the power goes. `docs/JOURNAL.md`
//! has every byte.
//!
//! A [`Journal`] keeps one in a file:
//!
//! ```
//! use depot_register::journal::Journal;
//! use depot_register::{Answer, Bearing, Card, Counts, Crew, Depot, Request, Written};
//!
//! # fn main() -> Result<(), Box<dyn std::error::Error>> {
//! # let path = std::env::temp_dir().join(format!("depot-register-{}.journal", std::process::id()));
//! let mut journal = Journal::open(&path)?;
//! let counts = Counts { depots: 2, shelves: 1, bearings: 4, crews: 2 };
//! journal.call(&Request::Setup { counts, homes: vec![Depot(0), Depot(1)] })?;
//! let card = Card { diameter: 52.0, width: 15.0 };
//! let write = Request::Write { crew: Crew(0), bearing: Bearing(2), value: 9_131, card };
//! assert_eq!(journal.call(&write)?, Answer::Written(Written::Current { stamp: 1 })); // and it is on the disk
//! drop(journal); // the power goes
//!
//! let mut journal = Journal::open(&path)?;
//! assert_eq!(journal.records(), 2);
//! let Answer::Read(found) = journal.call(&Request::Read { crew: Crew(0), bearing: Bearing(2) })? else { panic!() };
//! assert_eq!(found.value(), Some(9_131));
//! # std::fs::remove_file(&path)?;
//! # Ok(())
//! # }
//! ```
//!
//! Whoever keeps the bytes otherwise has [`Register::recorded`], [`Register::recovered`] and [`Register::recover`].

mod kept;

use std::fmt;

pub use kept::{Journal, NotDone, NotOpened, Storage};

use crate::{raw, readings, written, Answer, Kind, Refusal, Register, Request};

const CUT: u32 = 111;
const BAD_RECORD: u32 = 110;

/// How recovery ended.
#[derive(Clone, Copy, Debug, PartialEq, Eq, Hash)]
pub enum End {
    /// The bytes end with a record, or there are none.
    Whole,
    /// The bytes end inside a record. Nothing of it is done.
    Cut,
    /// A fault: the next byte is no kind of record.
    BadRecord,
    /// A fault: the next record is whole, and its call is refused.
    Refused(Refusal),
}

impl End {
    /// The end's number.
    pub fn number(self) -> u32 {
        match self {
            End::Whole => 0,
            End::Cut => CUT,
            End::BadRecord => BAD_RECORD,
            End::Refused(refusal) => refusal.number(),
        }
    }

    /// Whether a record stopped recovery. Bytes that end, inside a record or behind one, are no fault.
    pub fn is_fault(self) -> bool {
        matches!(self, End::BadRecord | End::Refused(_))
    }

    fn of_number(number: u32) -> End {
        match number {
            0 => End::Whole,
            CUT => End::Cut,
            BAD_RECORD => End::BadRecord,
            _ => match Refusal::of_number(number) {
                Some(refusal) => End::Refused(refusal),
                None => panic!("the library answered {}, which is no end of a journal", number),
            },
        }
    }
}

impl fmt::Display for End {
    fn fmt(&self, f: &mut fmt::Formatter<'_>) -> fmt::Result {
        match self {
            End::Whole => f.write_str("the journal is whole"),
            End::Cut => f.write_str("the journal ends inside the record (111, CUT)"),
            End::BadRecord => f.write_str("the byte is no kind of record (110, BAD RECORD)"),
            End::Refused(refusal) => write!(f, "{} ({}, {})", refusal, refusal.number(), refusal.name()),
        }
    }
}

/// What recovery tells: how many records were done, how many bytes these have, and how it ended.
#[derive(Clone, Copy, Debug, PartialEq, Eq, Hash)]
pub struct Recovered {
    pub records: u64,
    pub bytes: u64,
    pub end: End,
}

impl Register {
    /// Makes a call and its record together. Done, the record stands at the end of `journal`; refused, neither the book nor
    /// `journal` has changed. Have the record on the disk before you give the answer away.
    ///
    /// ```
    /// # use depot_register::{Answer, Counts, Depot, Refusal, Register, Request, Shelf};
    /// # let counts = Counts { depots: 2, shelves: 2, bearings: 4, crews: 2 };
    /// # let mut register = Register::setup(counts, &[Depot(0), Depot(1)]).unwrap();
    /// let mut journal = Vec::new();
    /// let tick = Request::Tick { depot: Depot(0), shelf: Shelf(1) };
    /// assert_eq!(register.recorded(&tick, &mut journal), Ok(Answer::Done));
    /// let strange = Request::Tick { depot: Depot(2), shelf: Shelf(1) };
    /// assert_eq!(register.recorded(&strange, &mut journal), Err(Refusal::BadDepot));
    /// assert_eq!(journal, [4, 0, 0, 0, 0, 1, 0, 0, 0]);
    /// ```
    pub fn recorded(&mut self, request: &Request, journal: &mut Vec<u8>) -> Result<Answer, Refusal> {
        let mut out = [0; 65];
        let begin = journal.len();
        journal.resize(begin + request.bytes(), 0);
        let number = raw::recorded(&mut self.book, request.kind().number(), &request.numbers(), &mut journal[begin..], &mut out);
        if let Err(refusal) = Refusal::check(number) {
            journal.truncate(begin);
            return Err(refusal);
        }
        Ok(match request.kind() {
            Kind::Read => Answer::Read(readings(&out[1..], 1)[0]),
            Kind::Write => Answer::Written(written([out[1], out[2]])),
            Kind::List => Answer::List(readings(&out[1..], request.numbers().len() - 1)),
            Kind::Setup | Kind::Tick | Kind::Take | Kind::Refresh | Kind::Move => Answer::Done,
        })
    }

    /// The register of a journal that starts with a setup. There is none where no record was done.
    ///
    /// ```
    /// # use depot_register::journal::{End, Recovered};
    /// # use depot_register::{Counts, Depot, Refusal, Register, Request, Shelf};
    /// let setup = [1, 1, 2, 0, 0, 0, 2, 0, 0, 0, 4, 0, 0, 0, 1, 0, 0, 0, 1, 0, 0, 0];
    /// let tick = [4, 0, 0, 0, 0, 1, 0, 0, 0];
    /// let mut journal = [&setup[..], &tick].concat();
    ///
    /// let (register, told) = Register::recovered(&journal);
    /// assert_eq!(told, Recovered { records: 2, bytes: 31, end: End::Whole });
    /// assert_eq!(register.unwrap().counts().bearings, 4);
    /// assert_eq!(Register::recovered(&journal[..30]).1, Recovered { records: 1, bytes: 22, end: End::Cut });
    /// assert_eq!(Register::recovered(&tick), (None, Recovered { records: 0, bytes: 0, end: End::Refused(Refusal::BadBook) }));
    /// journal[22] = 9;
    /// assert_eq!(Register::recovered(&journal).1, Recovered { records: 1, bytes: 22, end: End::BadRecord });
    /// ```
    pub fn recovered(journal: &[u8]) -> (Option<Register>, Recovered) {
        let mut register = Register::zeros();
        let told = register.recover(journal);
        ((told.records > 0).then_some(register), told)
    }

    /// Makes the calls of the records of a journal that goes on from this register: from its first byte on, up to the first
    /// record that is not whole or is refused. The bytes may be any, and may come in pieces: after [`End::Whole`] and
    /// [`End::Cut`] go on with those behind the ones that count, and with what came since behind them.
    pub fn recover(&mut self, journal: &[u8]) -> Recovered {
        let mut out = [0; 2];
        let number = raw::recover(&mut self.book, journal, &mut out);
        let [records, bytes] = out;
        Recovered { records, bytes, end: End::of_number(number) }
    }
}
