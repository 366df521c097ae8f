//! The dates that the specification gives, and what follows from its rules.

use straight::calendar::{date_of, day_number, is_date, next_date, Date, NoDate, LAST_DAY};

/// 1 January 2400 would be this day.
const END: u32 = 146_097;

fn date(year: u32, month: u32, day: u32) -> Date {
    Date { year, month, day }
}

fn next(anchor: Date, step: u32, n: u32) -> Result<Date, NoDate> {
    next_date(anchor, step, n).map(|(date, number)| {
        assert_eq!(day_number(date), Ok(number));
        date
    })
}

#[test]
fn the_dates_of_the_specification() {
    assert_eq!(day_number(date(2000, 1, 1)), Ok(0));
    assert_eq!(day_number(date(2000, 3, 1)), Ok(60));
    assert_eq!(day_number(date(2399, 12, 31)), Ok(END - 1));
    assert_eq!(LAST_DAY, END - 1);
    assert_eq!(date_of(LAST_DAY), Ok(date(2399, 12, 31)));
    assert_eq!(date_of(END), Err(NoDate::TooLate));
    assert_eq!(date_of(u32::MAX), Err(NoDate::TooLate));
    assert_eq!(next(date(2023, 1, 31), 1, 1), Ok(date(2023, 2, 28)));
    assert_eq!(next(date(2023, 1, 31), 1, 2), Ok(date(2023, 3, 31)));
    assert_eq!(next(date(2024, 1, 31), 1, 1), Ok(date(2024, 2, 29)));
}

#[test]
fn leap_years() {
    for (year, leap) in [(2000, true), (2023, false), (2024, true), (2100, false), (2200, false), (2300, false), (2396, true)] {
        assert_eq!(is_date(date(year, 2, 29)), leap, "{}", year);
        assert!(is_date(date(year, 2, 28)) && !is_date(date(year, 2, 30)));
    }
}

#[test]
fn every_day_follows_the_one_before() {
    let mut before = date(2000, 1, 1);
    for number in 1..END {
        let today = date_of(number).unwrap();
        let follows = [
            date(before.year, before.month, before.day + 1),
            date(before.year, before.month + 1, 1),
            date(before.year + 1, 1, 1),
        ];
        assert_eq!(Some(today), follows.into_iter().find(|&date| is_date(date)));
        assert_eq!(day_number(today), Ok(number));
        before = today;
    }
    assert_eq!(before, date(2399, 12, 31));
}

#[test]
fn the_refusals_and_their_order() {
    for wrong in [date(1999, 12, 31), date(2400, 1, 1), date(2000, 0, 1), date(2000, 13, 1), date(2000, 4, 31), date(2000, 1, 0)]
    {
        assert!(!is_date(wrong));
        assert_eq!(day_number(wrong), Err(NoDate::BadDate));
        assert_eq!(next(wrong, 0, 0), Err(NoDate::BadDate));
    }
    let anchor = date(2399, 11, 30);
    assert_eq!(next(anchor, 0, 0), Err(NoDate::BadStep));
    assert_eq!(next(anchor, 121, 0), Err(NoDate::BadStep));
    assert_eq!(next(anchor, 1, 0), Err(NoDate::BadCount));
    assert_eq!(next(anchor, 1, 1), Ok(date(2399, 12, 30)));
    assert_eq!(next(anchor, 1, 2), Err(NoDate::TooLate));
    assert_eq!(next(anchor, 120, u32::MAX), Err(NoDate::TooLate));
    assert_eq!([NoDate::BadDate, NoDate::BadStep, NoDate::BadCount, NoDate::TooLate].map(|no| no as u32), [1, 2, 3, 4]);
}

#[test]
fn each_next_date_is_later() {
    let anchor = date(2000, 1, 31);
    for step in [1, 5, 12, 120] {
        let mut before = day_number(anchor).unwrap();
        let mut n = 1;
        while let Ok((_, number)) = next_date(anchor, step, n) {
            assert!(number > before);
            before = number;
            n += 1;
        }
        assert_eq!(n, 4_799 / step + 1);
    }
}
