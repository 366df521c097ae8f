//! The library's calendar and the straight version's agree: on every day, on a spread of anchors, steps and counts, and on
//! damaged numbers. What a call leaves in `out`, too long or too short, is compared too.
#![cfg(feature = "library")]

use depot_register::{calendar, raw};
use replay::random::Random;
use replay::register::NO_ROOM;
use straight::calendar as straight;

const DAYS: u32 = 146_097;
/// What stands in `out` before a call.
const OLD: u32 = 0xDEAD_BEEF;

/// The number and `out` that an answer of so many words has to leave, with so much room.
fn expected(answer: Result<Vec<u32>, straight::NoDate>, words: usize, room: usize) -> (u32, Vec<u32>) {
    let mut out = vec![OLD; room];
    if room < words {
        return (NO_ROOM, out);
    }
    match answer {
        Err(refusal) => (refusal as u32, out),
        Ok(told) => {
            out[..words].copy_from_slice(&told);
            (0, out)
        }
    }
}

/// The number that a call of the library gives, and the `out` it leaves.
fn found(room: usize, call: impl FnOnce(&mut [u32]) -> u32) -> (u32, Vec<u32>) {
    let mut out = vec![OLD; room];
    (call(&mut out), out)
}

fn words(date: straight::Date) -> Vec<u32> {
    vec![date.year, date.month, date.day]
}

/// Compares existence and day number; gives the answer's number.
fn compare_date(year: u32, month: u32, day: u32, room: usize) -> u32 {
    let date = straight::Date { year, month, day };
    assert_eq!(raw::is_date(year, month, day), u32::from(straight::is_date(date)), "{:?}", date);
    let told = found(room, |out| raw::day_number(year, month, day, out));
    assert_eq!(told, expected(straight::day_number(date).map(|number| vec![number]), 1, room), "{:?}", date);
    told.0
}

/// Compares a day's date; gives the answer's number.
fn compare_day(day: u32, room: usize) -> u32 {
    let told = found(room, |out| raw::date_of(day, out));
    assert_eq!(told, expected(straight::date_of(day).map(words), 3, room), "day {}", day);
    told.0
}

/// Compares a next date; gives the answer's number.
fn compare_next(year: u32, month: u32, day: u32, step: u32, n: u32, room: usize) -> u32 {
    let date = straight::Date { year, month, day };
    let answer = straight::next_date(date, step, n).map(|(date, number)| [words(date), vec![number]].concat());
    let told = found(room, |out| raw::next_date(year, month, day, step, n, out));
    assert_eq!(told, expected(answer, 4, room), "{:?}, step {}, count {}", date, step, n);
    told.0
}

#[test]
fn every_day() {
    let mut before = None;
    for day in 0..DAYS {
        assert_eq!(compare_day(day, 3), 0);
        let date = calendar::date_of(day).unwrap();
        assert!(calendar::is_date(date));
        assert_eq!(calendar::day_number(date), Ok(day));
        assert!(before < Some(date), "{} follows no earlier date", date);
        before = Some(date);
    }
    for day in (DAYS..DAYS + 800).chain([u32::MAX - 1, u32::MAX]) {
        assert_eq!(compare_day(day, 3), 4);
    }
}

#[test]
fn every_date_and_those_beside() {
    let mut given = 0;
    for year in (1999..=2400).chain([0, 1, 1900, u32::MAX]) {
        for month in 0..=13 {
            for day in 0..=32 {
                given += u32::from(compare_date(year, month, day, 1) == 0);
            }
        }
    }
    assert_eq!(given, DAYS);
}

#[test]
fn spread_of_next_dates() {
    let mut counts = [0; 5];
    for anchor in (0..DAYS).step_by(97).chain(DAYS - 40..DAYS) {
        let date = straight::date_of(anchor).unwrap();
        for step in [0, 1, 2, 3, 6, 11, 12, 13, 24, 60, 119, 120, 121] {
            for n in [0, 1, 2, 3, 12, 13, 40, 399, 4_799, 4_800] {
                counts[compare_next(date.year, date.month, date.day, step, n, 4) as usize] += 1;
            }
        }
    }
    assert!(counts[0] > 10_000 && counts[2] > 10_000 && counts[3] > 10_000 && counts[4] > 10_000, "{:?}", counts);
}

#[test]
fn damaged_numbers_and_any_room() {
    let mut random = Random::new(1);
    let mut counts = [0; 5];
    let mut short = 0;
    for _ in 0..200_000 {
        let most = if random.percent(80) { 60 } else { 5_000 };
        let mut asked =
            [(1998, 2401), (0, 13), (0, 32), (0, 122), (0, most)].map(|(first, last)| random.between(first, last) as u32);
        if random.percent(20) {
            let at = random.below(5);
            asked[at] = if random.percent(50) { random.word() } else { asked[at] ^ 1 << random.below(32) };
        }
        let [year, month, day, step, n] = asked;
        let room = random.below(7);
        compare_date(year, month, day, room);
        compare_day(random.word() >> random.below(32), room);
        match compare_next(year, month, day, step, n, room) {
            NO_ROOM => short += 1,
            number => counts[number as usize] += 1,
        }
    }
    assert!(short > 500 && counts.iter().all(|&count| count > 500), "an answer is hardly reached: {:?}", counts);
}

#[test]
fn far_counts_are_too_late() {
    for step in [1, 2, 64, 120] {
        for n in [u32::MAX, u32::MAX / 2, u32::MAX / step, (u32::MAX / step).saturating_add(1), 1 << 31, 1 << 26, 71_582_789] {
            assert_eq!(compare_next(2000, 1, 1, step, n, 4), 4);
        }
    }
}
