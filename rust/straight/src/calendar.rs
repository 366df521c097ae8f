//! The calendar: dates of the years 2000 to 2399, their day numbers, and the dates that follow an anchor in steps of months.
//!
//! It counts: the days of the years before, the days of the months before, the day. No rule is shortened.
//!
//! ```
//! use straight::calendar::{next_date, Date};
//!
//! let anchor = Date { year: 2023, month: 1, day: 31 };
//! assert_eq!(next_date(anchor, 1, 1), Ok((Date { year: 2023, month: 2, day: 28 }, 8_459)));
//! ```

/// The years that the calendar has.
const FIRST_YEAR: u32 = 2000;
const LAST_YEAR: u32 = 2399;

/// The day number of 31 December 2399: the last day that the calendar has, and the last that can be written.
pub const LAST_DAY: u32 = 146_096;

/// The days of the twelve months, in a year that is no leap year.
const MONTHS: [u32; 12] = [31, 28, 31, 30, 31, 30, 31, 31, 30, 31, 30, 31];

/// A year, a month from 1 to 12 and a day from 1 on; any numbers, until [`is_date`] has looked at them.
#[derive(Clone, Copy, Debug, PartialEq, Eq)]
pub struct Date {
    pub year: u32,
    pub month: u32,
    pub day: u32,
}

/// Why there is no answer, by number and in the order of the checks.
#[derive(Clone, Copy, Debug, PartialEq, Eq)]
pub enum NoDate {
    /// It is no date.
    BadDate = 1,
    /// The step is not 1 to 120 months.
    BadStep = 2,
    /// The count is 0.
    BadCount = 3,
    /// The result is after 2399.
    TooLate = 4,
}

/// Whether there is such a date.
pub fn is_date(date: Date) -> bool {
    (FIRST_YEAR..=LAST_YEAR).contains(&date.year)
        && (1..=12).contains(&date.month)
        && (1..=days_of_month(date.year, date.month)).contains(&date.day)
}

/// The day number of a date; 1 January 2000 is 0.
pub fn day_number(date: Date) -> Result<u32, NoDate> {
    if !is_date(date) {
        return Err(NoDate::BadDate);
    }
    let years: u32 = (FIRST_YEAR..date.year).map(days_of_year).sum();
    let months: u32 = (1..date.month).map(|month| days_of_month(date.year, month)).sum();
    Ok(years + months + date.day - 1)
}

/// The date of a day number.
pub fn date_of(number: u32) -> Result<Date, NoDate> {
    if number > LAST_DAY {
        return Err(NoDate::TooLate);
    }
    let mut left = number;
    let mut year = FIRST_YEAR;
    while left >= days_of_year(year) {
        left -= days_of_year(year);
        year += 1;
    }
    let mut month = 1;
    while left >= days_of_month(year, month) {
        left -= days_of_month(year, month);
        month += 1;
    }
    Ok(Date { year, month, day: left + 1 })
}

/// The n-th date after an anchor in steps of so many months, and its day number: the anchor's day, or the month's last one
/// where that month is shorter.
pub fn next_date(anchor: Date, step: u32, n: u32) -> Result<(Date, u32), NoDate> {
    if !is_date(anchor) {
        return Err(NoDate::BadDate);
    }
    if !(1..=120).contains(&step) {
        return Err(NoDate::BadStep);
    }
    if n == 0 {
        return Err(NoDate::BadCount);
    }
    // Months from January 2000 on; the most there can be takes 39 bits.
    let anchor_month = u64::from(anchor.year - FIRST_YEAR) * 12 + u64::from(anchor.month - 1);
    let month = anchor_month + u64::from(step) * u64::from(n);
    if month / 12 > u64::from(LAST_YEAR - FIRST_YEAR) {
        return Err(NoDate::TooLate);
    }
    let (year, month) = (FIRST_YEAR + (month / 12) as u32, (month % 12) as u32 + 1);
    let date = Date { year, month, day: anchor.day.min(days_of_month(year, month)) };
    Ok((date, day_number(date)?))
}

fn days_of_year(year: u32) -> u32 {
    (1..=12).map(|month| days_of_month(year, month)).sum()
}

fn days_of_month(year: u32, month: u32) -> u32 {
    let leap_day = u32::from(month == 2 && is_leap_year(year));
    MONTHS[month as usize - 1] + leap_day
}

/// Every fourth year; of the full hundreds only every fourth.
fn is_leap_year(year: u32) -> bool {
    year % 4 == 0 && (year % 100 != 0 || year % 400 == 0)
}
