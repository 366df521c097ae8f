//! The depot register: a safe typed wrapper over its static library.
//!
//! A bearing moves to a new motor. Depot 0 writes the new date; depot 1 sees it after the two boxes have exchanged
//! messages, and not before:
//!
//! ```
//! use depot_register::{Bearing, Card, Counts, Crew, Depot, Reading, Register, Shelf, Written};
//!
//! # fn main() -> Result<(), depot_register::Refusal> {
//! let counts = Counts { depots: 2, shelves: 1, bearings: 4, crews: 2 };
//! let mut register = Register::setup(counts, &[Depot(0), Depot(1)])?;
//! let (pump_crew, fan_crew) = (Crew(0), Crew(1));
//! let bearing = Bearing(2);
//! let card = Card { diameter: 52.0, width: 15.0 };
//!
//! assert_eq!(register.write(pump_crew, bearing, 9_131, card)?, Written::Current { stamp: 1 });
//! assert_eq!(register.read(fan_crew, bearing)?, Reading::Unwritten);
//!
//! register.take(Depot(1), Shelf(0), Depot(0))?;
//! register.refresh(Depot(1), Shelf(0))?;
//! assert_eq!(register.read(fan_crew, bearing)?, Reading::Written { value: 9_131, card, vector: [1, 0, 0, 0] });
//! assert_eq!(card.grams()?, 3.9);
//! # Ok(())
//! # }
//! ```
//!
//! The four kinds of number do not mix:
//!
//! ```compile_fail
//! # use depot_register::{Counts, Crew, Depot, Register};
//! # let counts = Counts { depots: 1, shelves: 1, bearings: 1, crews: 1 };
//! # let mut register = Register::setup(counts, &[Depot(0)]).unwrap();
//! let _ = register.tick(Depot(0), Crew(0)); // a crew is no shelf
//! ```
//!
//! A refusal is an error with the number of the register's table, and it has changed nothing:
//!
//! ```
//! # use depot_register::{Bearing, Counts, Crew, Depot, Refusal, Register, Shelf};
//! # let counts = Counts { depots: 1, shelves: 1, bearings: 1, crews: 1 };
//! # let mut register = Register::setup(counts, &[Depot(0)]).unwrap();
//! let before = register.words().to_vec();
//! assert_eq!(register.read(Crew(7), Bearing(0)), Err(Refusal::BadCrew));
//! assert_eq!(register.take(Depot(0), Shelf(0), Depot(0)).unwrap_err().number(), 6);
//! assert_eq!(register.words(), &before[..]);
//! ```

mod answers;
pub mod audit;
pub mod calendar;
mod card;
pub mod frames;
pub mod image;
pub mod journal;
mod numbers;
pub mod raw;
mod request;

pub use answers::{Answer, Holders, Reading, Refusal, Written};
pub use card::Card;
pub use numbers::{Bearing, Crew, Depot, Shelf};
pub use request::{Kind, Request};

/// The version of the register, as `include/depot_register.h` has it.
pub const VERSION: &str = env!("CARGO_PKG_VERSION");
/// The words of a book.
pub const WORDS: usize = 16_384;
/// The words of a version record.
pub const RECORD: usize = 9;
/// The room that every answer line has, its line feed counted.
pub const ANSWER_BYTES: usize = 618;

/// The four counts of a register.
#[derive(Clone, Copy, Debug, PartialEq, Eq, Hash)]
pub struct Counts {
    /// 1 to 4.
    pub depots: u32,
    /// In each depot, 1 to 4.
    pub shelves: u32,
    /// 1 to 160.
    pub bearings: u32,
    /// 1 to 16.
    pub crews: u32,
}

/// A register in a book of its own. The book is fit from the first moment to the last, so no call on it answers
/// [`Refusal::BadBook`].
#[derive(Clone, Debug, PartialEq, Eq)]
pub struct Register {
    book: Box<[u32]>,
}

impl Register {
    /// A fresh register: every clock at 0, every bearing unwritten, every link empty. Crew `c` is at home in `homes[c]`.
    ///
    /// ```
    /// # use depot_register::{Counts, Depot, Refusal, Register};
    /// let counts = Counts { depots: 2, shelves: 4, bearings: 160, crews: 1 };
    /// assert!(Register::setup(counts, &[Depot(1)]).is_ok());
    /// assert_eq!(Register::setup(counts, &[Depot(2)]), Err(Refusal::BadDepot));
    /// assert_eq!(Register::setup(counts, &[]), Err(Refusal::BadCounts));
    /// ```
    pub fn setup(counts: Counts, homes: &[Depot]) -> Result<Register, Refusal> {
        let mut register = Register::zeros();
        let homes: Vec<u32> = homes.iter().map(|depot| depot.0).collect();
        let number = raw::setup(&mut register.book, counts.depots, counts.shelves, counts.bearings, counts.crews, &homes);
        Refusal::check(number).map(|()| register)
    }

    /// A book of zeros, which is not fit. It is never handed out before a setup is done on it.
    fn zeros() -> Register {
        Register { book: vec![0; WORDS].into_boxed_slice() }
    }

    /// A register from the words of a book, as [`words`](Register::words) gave them.
    ///
    /// ```
    /// # use depot_register::{Bearing, Card, Counts, Crew, Depot, Refusal, Register};
    /// # let counts = Counts { depots: 1, shelves: 1, bearings: 1, crews: 1 };
    /// let mut register = Register::setup(counts, &[Depot(0)]).unwrap();
    /// register.write(Crew(0), Bearing(0), 20, Card { diameter: 52.0, width: 15.0 }).unwrap();
    /// let mut again = Register::from_words(register.words().to_vec()).unwrap();
    /// assert_eq!(again.read(Crew(0), Bearing(0)).unwrap().value(), Some(20));
    /// assert_eq!(Register::from_words(vec![0; 16_384]), Err(Refusal::BadBook));
    /// ```
    pub fn from_words(words: Vec<u32>) -> Result<Register, Refusal> {
        if is_fit(&words) {
            Ok(Register { book: words.into_boxed_slice() })
        } else {
            Err(Refusal::BadBook)
        }
    }

    /// All words of the book, to keep or to look at. `docs/LAYOUT.md` says what each is.
    pub fn words(&self) -> &[u32] {
        &self.book
    }

    /// The counts of the register.
    pub fn counts(&self) -> Counts {
        Counts { depots: self.book[0], shelves: self.book[1], bearings: self.book[2], crews: self.book[3] }
    }

    /// A crew reads a bearing at its home. What the crew has seen before, it sees again, or something greater.
    ///
    /// An old book may hold values over [`LAST_DAY`](calendar::LAST_DAY); they are read as they are.
    pub fn read(&mut self, crew: Crew, bearing: Bearing) -> Result<Reading, Refusal> {
        let mut out = [0; 8];
        Refusal::check(raw::read(&mut self.book, crew.0, bearing.0, &mut out))?;
        Ok(reading(out))
    }

    /// A crew reads a list of 1 to 8 bearings at its home, at one moment: no answer rests on a write to another bearing of the
    /// list that is above that bearing's own answer. The answers come in list order.
    ///
    /// ```
    /// # use depot_register::{Bearing, Card, Counts, Crew, Depot, Refusal, Register};
    /// # let counts = Counts { depots: 1, shelves: 2, bearings: 2, crews: 1 };
    /// # let mut register = Register::setup(counts, &[Depot(0)]).unwrap();
    /// register.write(Crew(0), Bearing(1), 20, Card { diameter: 52.0, width: 15.0 }).unwrap();
    /// let page = register.list(Crew(0), &[Bearing(0), Bearing(1)]).unwrap();
    /// assert_eq!(page.iter().map(|answer| answer.value()).collect::<Vec<_>>(), [None, Some(20)]);
    /// assert_eq!(register.list(Crew(0), &[]), Err(Refusal::BadList));
    /// ```
    pub fn list(&mut self, crew: Crew, bearings: &[Bearing]) -> Result<Vec<Reading>, Refusal> {
        let mut out = [0; 64];
        let numbers: Vec<u32> = bearings.iter().map(|bearing| bearing.0).collect();
        Refusal::check(raw::list(&mut self.book, crew.0, &numbers, &mut out))?;
        Ok(readings(&out, bearings.len()))
    }

    /// A crew writes a bearing's value, a day from 0 to [`LAST_DAY`](calendar::LAST_DAY), and its card, at its home.
    ///
    /// ```
    /// # use depot_register::{calendar::LAST_DAY, Bearing, Card, Counts, Crew, Depot, Refusal, Register, Shelf, Written};
    /// # let counts = Counts { depots: 1, shelves: 2, bearings: 2, crews: 1 };
    /// # let mut register = Register::setup(counts, &[Depot(0)]).unwrap();
    /// let card = Card { diameter: 52.0, width: 15.0 };
    /// assert_eq!(register.write(Crew(0), Bearing(0), 20, card), Ok(Written::Current { stamp: 1 }));
    /// assert_eq!(register.write(Crew(0), Bearing(1), 30, card), Err(Refusal::Wait)); // shelf 1's clock is behind the crew
    /// register.tick(Depot(0), Shelf(1)).unwrap();
    /// assert_eq!(register.write(Crew(0), Bearing(1), 30, card), Ok(Written::Current { stamp: 2 }));
    /// assert_eq!(register.write(Crew(0), Bearing(1), LAST_DAY + 1, card), Err(Refusal::BadDate)); // 1 January 2400
    /// let flat = Card { diameter: 52.0, width: 0.0 };
    /// assert_eq!(register.write(Crew(0), Bearing(1), 30, flat), Err(Refusal::BadCard));
    /// ```
    pub fn write(&mut self, crew: Crew, bearing: Bearing, value: u32, card: Card) -> Result<Written, Refusal> {
        let mut out = [0; 2];
        let (diameter, width) = (card.diameter.to_bits(), card.width.to_bits());
        Refusal::check(raw::write(&mut self.book, crew.0, bearing.0, value, diameter, width, &mut out))?;
        Ok(written(out))
    }

    /// A shelf's clock moves on by one, and a heartbeat tells the other depots.
    pub fn tick(&mut self, depot: Depot, shelf: Shelf) -> Result<(), Refusal> {
        Refusal::check(raw::tick(&mut self.book, depot.0, shelf.0))
    }

    /// The shelf of depot `at` takes the first untaken message from depot `from`.
    pub fn take(&mut self, at: Depot, shelf: Shelf, from: Depot) -> Result<(), Refusal> {
        Refusal::check(raw::take(&mut self.book, at.0, shelf.0, from.0))
    }

    /// The shelf shows the taken copies that nothing still missing can precede.
    pub fn refresh(&mut self, depot: Depot, shelf: Shelf) -> Result<(), Refusal> {
        Refusal::check(raw::refresh(&mut self.book, depot.0, shelf.0))
    }

    /// Which depots now store the version of a bearing that this depot has, or a greater one. Looking changes nothing.
    ///
    /// ```
    /// # use depot_register::{Bearing, Card, Counts, Crew, Depot, Holders, Refusal, Register, Shelf};
    /// # let counts = Counts { depots: 2, shelves: 1, bearings: 1, crews: 1 };
    /// # let mut register = Register::setup(counts, &[Depot(0)]).unwrap();
    /// assert_eq!(register.who_has(Depot(0), Bearing(0)), Ok(Holders { mask: 0b11, count: 2 })); // unwritten: all have it
    /// # let card = Card { diameter: 52.0, width: 15.0 };
    /// register.write(Crew(0), Bearing(0), 20, card).unwrap();
    /// assert_eq!(register.who_has(Depot(0), Bearing(0)), Ok(Holders { mask: 0b01, count: 1 }));
    /// register.take(Depot(1), Shelf(0), Depot(0)).unwrap();
    /// register.refresh(Depot(1), Shelf(0)).unwrap();
    /// assert!(register.who_has(Depot(0), Bearing(0)).unwrap().includes(Depot(1)));
    /// assert_eq!(register.who_has(Depot(2), Bearing(1)), Err(Refusal::BadDepot));
    /// ```
    pub fn who_has(&self, depot: Depot, bearing: Bearing) -> Result<Holders, Refusal> {
        let mut out = [0; 2];
        Refusal::check(raw::who_has(&self.book, depot.0, bearing.0, &mut out))?;
        let [mask, count] = out;
        Ok(Holders { mask, count })
    }

    /// A crew gets a new home. There it reads nothing lower than what it has read and written so far.
    ///
    /// ```
    /// # use depot_register::{Bearing, Card, Counts, Crew, Depot, Refusal, Register, Shelf};
    /// # let counts = Counts { depots: 2, shelves: 1, bearings: 1, crews: 1 };
    /// # let mut register = Register::setup(counts, &[Depot(0)]).unwrap();
    /// # let card = Card { diameter: 52.0, width: 15.0 };
    /// register.write(Crew(0), Bearing(0), 20, card).unwrap();
    /// assert_eq!(register.move_crew(Crew(0), Depot(1)), Err(Refusal::NotHereYet)); // depot 1 has not heard of it
    /// register.take(Depot(1), Shelf(0), Depot(0)).unwrap();
    /// assert_eq!(register.move_crew(Crew(0), Depot(1)), Ok(()));
    /// assert_eq!(register.read(Crew(0), Bearing(0)).unwrap().value(), Some(20));
    /// ```
    pub fn move_crew(&mut self, crew: Crew, depot: Depot) -> Result<(), Refusal> {
        Refusal::check(raw::move_crew(&mut self.book, crew.0, depot.0))
    }

    /// The answer to a line of the desk, with its line feed. The line comes without one.
    ///
    /// ```
    /// # use depot_register::{Counts, Depot, Register};
    /// # let counts = Counts { depots: 2, shelves: 1, bearings: 1, crews: 1 };
    /// # let mut register = Register::setup(counts, &[Depot(0)]).unwrap();
    /// assert_eq!(register.line(b"W 0 0 20 1112539136 1097859072"), b"0 1 C\n"); // 52 by 15
    /// assert_eq!(register.line(b"R 0 0"), b"0 20 1112539136 1097859072 1 0\n");
    /// assert_eq!(register.line(b"read it"), b"13\n");
    /// ```
    pub fn line(&mut self, line: &[u8]) -> Vec<u8> {
        let mut out = [0; ANSWER_BYTES];
        let length = raw::line(&mut self.book, line, &mut out);
        out[..length].to_vec()
    }
}

/// Whether the words of a book are fit. A book of another length than [`WORDS`], or of all zeros, is not.
///
/// ```
/// assert!(!depot_register::is_fit(&[0; 16_384]));
/// ```
pub fn is_fit(words: &[u32]) -> bool {
    raw::is_fit(words) == 1
}

/// The greater of two version records of a register with so many depots, the first if neither is greater.
///
/// ```
/// let old = [0, 20, 1065353216, 1065353216, 0, 1, 0, 0, 0]; // bearing, value, the card's bits, origin, vector
/// let new = [0, 30, 1065353216, 1065353216, 1, 1, 1, 0, 0];
/// assert!(std::ptr::eq(depot_register::greater(&old, &new, 2), &new));
/// ```
pub fn greater<'a>(a: &'a [u32; RECORD], b: &'a [u32; RECORD], depots: u32) -> &'a [u32; RECORD] {
    if raw::greater(a, b, depots) == 1 {
        b
    } else {
        a
    }
}

/// What the eight words of an answer tell.
fn reading([written, value, diameter, width, a, b, c, d]: [u32; 8]) -> Reading {
    let card = Card::from_bits(diameter, width);
    if written == 1 {
        Reading::Written { value, card, vector: [a, b, c, d] }
    } else {
        Reading::Unwritten
    }
}

/// What the words of a list's answer tell of its first bearings, so many.
fn readings(words: &[u32], count: usize) -> Vec<Reading> {
    words.chunks_exact(8).take(count).map(|words| reading(words.try_into().expect("eight words"))).collect()
}

/// What the two words of a write's answer tell.
fn written([stamp, current]: [u32; 2]) -> Written {
    if current == 1 {
        Written::Current { stamp }
    } else {
        Written::Superseded { stamp }
    }
}
