//! The calendar: dates from 1 January 2000, which is day 0, to 31 December 2399, and the dates that follow an anchor in steps
//! of months.
//!
//! From 31 January 2023, monthly. Each date is counted from the anchor, so a short month does not shorten those after it:
//!
//! ```
//! use depot_register::calendar::{next_date, Date};
//!
//! # fn main() -> Result<(), depot_register::calendar::DateRefusal> {
//! let anchor = Date::new(2023, 1, 31);
//! assert_eq!(next_date(anchor, 1, 1)?, (Date::new(2023, 2, 28), 8_459));
//! assert_eq!(next_date(anchor, 1, 2)?, (Date::new(2023, 3, 31), 8_490));
//! # Ok(())
//! # }
//! ```

use std::error::Error;
use std::fmt;

use crate::raw;

/// The day number of 31 December 2399: the last day that the calendar has, and the last that can be written.
pub const LAST_DAY: u32 = 146_096;

/// A year, a month from 1 to 12 and a day. Any numbers can be put in; [`is_date`] says whether there is such a date. Dates are
/// ordered as they follow each other.
#[derive(Clone, Copy, Debug, PartialEq, Eq, PartialOrd, Ord, Hash)]
pub struct Date {
    pub year: u32,
    pub month: u32,
    pub day: u32,
}

impl Date {
    /// A date from its three numbers. Nothing is checked yet.
    pub const fn new(year: u32, month: u32, day: u32) -> Date {
        Date { year, month, day }
    }
}

impl fmt::Display for Date {
    fn fmt(&self, f: &mut fmt::Formatter<'_>) -> fmt::Result {
        write!(f, "{:04}-{:02}-{:02}", self.year, self.month, self.day)
    }
}

/// Why there is no date or no day number, in the order in which it is looked for.
#[derive(Clone, Copy, Debug, PartialEq, Eq, Hash)]
pub enum DateRefusal {
    /// There is no such date.
    BadDate = 1,
    /// The step is not 1 to 120 months.
    BadStep = 2,
    /// The count is 0.
    BadCount = 3,
    /// The result lies after 2399; so does a day number past [`LAST_DAY`].
    TooLate = 4,
}

impl DateRefusal {
    const ALL: [DateRefusal; 4] = [DateRefusal::BadDate, DateRefusal::BadStep, DateRefusal::BadCount, DateRefusal::TooLate];

    /// The refusal's number.
    pub fn number(self) -> u32 {
        self as u32
    }

    /// `Ok` for the number of "given", else the refusal.
    fn check(number: u32) -> Result<(), DateRefusal> {
        if number == 0 {
            return Ok(());
        }
        let refusal = DateRefusal::ALL.iter().find(|refusal| refusal.number() == number);
        Err(*refusal.unwrap_or_else(|| panic!("the library answered {}, which is no number of the calendar", number)))
    }
}

impl fmt::Display for DateRefusal {
    fn fmt(&self, f: &mut fmt::Formatter<'_>) -> fmt::Result {
        f.write_str(match self {
            DateRefusal::BadDate => "no such date",
            DateRefusal::BadStep => "the step is not 1 to 120 months",
            DateRefusal::BadCount => "the count is 0",
            DateRefusal::TooLate => "the result lies after 2399",
        })
    }
}

impl Error for DateRefusal {}

/// Whether there is such a date.
///
/// ```
/// use depot_register::calendar::{is_date, Date};
///
/// assert!(is_date(Date::new(2000, 2, 29)));
/// assert!(!is_date(Date::new(2100, 2, 29))); // of the full hundreds only every fourth is a leap year
/// assert!(!is_date(Date::new(2400, 1, 1)));
/// ```
pub fn is_date(date: Date) -> bool {
    raw::is_date(date.year, date.month, date.day) == 1
}

/// The day number of a date, 0 to [`LAST_DAY`].
///
/// ```
/// use depot_register::calendar::{day_number, Date, DateRefusal, LAST_DAY};
///
/// assert_eq!(day_number(Date::new(2000, 1, 1)), Ok(0));
/// assert_eq!(day_number(Date::new(2399, 12, 31)), Ok(LAST_DAY));
/// assert_eq!(day_number(Date::new(2023, 2, 29)), Err(DateRefusal::BadDate));
/// ```
pub fn day_number(date: Date) -> Result<u32, DateRefusal> {
    let mut out = [0; 1];
    DateRefusal::check(raw::day_number(date.year, date.month, date.day, &mut out))?;
    Ok(out[0])
}

/// The date of a day number.
///
/// ```
/// use depot_register::calendar::{date_of, Date, DateRefusal, LAST_DAY};
///
/// assert_eq!(date_of(59), Ok(Date::new(2000, 2, 29)));
/// assert_eq!(date_of(59).unwrap().to_string(), "2000-02-29");
/// assert_eq!(date_of(LAST_DAY + 1), Err(DateRefusal::TooLate));
/// ```
pub fn date_of(day: u32) -> Result<Date, DateRefusal> {
    let mut out = [0; 3];
    DateRefusal::check(raw::date_of(day, &mut out))?;
    let [year, month, day] = out;
    Ok(Date { year, month, day })
}

/// The n-th date after an anchor in steps of `step` months, with its day number: the anchor's day, or the month's last day
/// where that month is shorter.
///
/// ```
/// use depot_register::calendar::{next_date, Date, DateRefusal};
///
/// let leap_day = Date::new(2096, 2, 29);
/// assert_eq!(next_date(leap_day, 12, 4).unwrap().0, Date::new(2100, 2, 28));
/// assert_eq!(next_date(leap_day, 12, 8).unwrap().0, Date::new(2104, 2, 29));
/// assert_eq!(next_date(leap_day, 121, 0), Err(DateRefusal::BadStep)); // the step is looked at before the count
/// assert_eq!(next_date(leap_day, 12, 0), Err(DateRefusal::BadCount));
/// assert_eq!(next_date(leap_day, 12, 304).unwrap_err().number(), 4);
/// ```
pub fn next_date(anchor: Date, step: u32, n: u32) -> Result<(Date, u32), DateRefusal> {
    let mut out = [0; 4];
    DateRefusal::check(raw::next_date(anchor.year, anchor.month, anchor.day, step, n, &mut out))?;
    let [year, month, day, number] = out;
    Ok((Date { year, month, day }, number))
}
