//! The specification's listing, by lines and by typed calls.

use depot_register::calendar::LAST_DAY;
use depot_register::{Bearing, Card, Counts, Crew, Depot, Reading, Refusal, Register, Shelf, Written, ANSWER_BYTES};

const COUNTS: Counts = Counts { depots: 2, shelves: 2, bearings: 4, crews: 2 };
const LINES: [&str; 12] = [
    "S 2 2 4 2 0 1", "R 0 0", "W 0 0 20 1065353216 1065353216", "W 0 1 30 1065353216 1065353216", "K 0 1",
    "W 0 1 30 1065353216 1065353216", "T 1 0 0", "F 1 0", "R 1 0", "T 1 1 0", "F 1 0", "R 1 0",
];
const ANSWERS: [&str; 12] =
    ["0", "0 - 0 0", "0 1 C", "8", "0", "0 2 C", "0", "0", "0 - 0 0", "0", "0", "0 20 1065353216 1065353216 1 0"];
const ONE: Card = Card { diameter: 1.0, width: 1.0 };

fn fresh() -> Register {
    Register::setup(COUNTS, &[Depot(0), Depot(1)]).unwrap()
}

#[test]
fn listing_by_lines_and_by_calls() {
    let mut lines = fresh();
    for (line, answer) in LINES.iter().zip(ANSWERS) {
        assert_eq!(String::from_utf8(lines.line(line.as_bytes())).unwrap(), format!("{}\n", answer), "{}", line);
    }

    let mut calls = fresh();
    assert_eq!(calls.read(Crew(0), Bearing(0)), Ok(Reading::Unwritten));
    assert_eq!(calls.write(Crew(0), Bearing(0), 20, ONE), Ok(Written::Current { stamp: 1 }));
    assert_eq!(calls.write(Crew(0), Bearing(1), 30, ONE), Err(Refusal::Wait));
    assert_eq!(calls.tick(Depot(0), Shelf(1)), Ok(()));
    assert_eq!(calls.write(Crew(0), Bearing(1), 30, ONE), Ok(Written::Current { stamp: 2 }));
    assert_eq!(calls.take(Depot(1), Shelf(0), Depot(0)), Ok(()));
    assert_eq!(calls.refresh(Depot(1), Shelf(0)), Ok(()));
    assert_eq!(calls.read(Crew(1), Bearing(0)), Ok(Reading::Unwritten));
    assert_eq!(calls.take(Depot(1), Shelf(1), Depot(0)), Ok(()));
    assert_eq!(calls.refresh(Depot(1), Shelf(0)), Ok(()));
    assert_eq!(calls.read(Crew(1), Bearing(0)), Ok(Reading::Written { value: 20, card: ONE, vector: [1, 0, 0, 0] }));
    assert_eq!(lines, calls, "both ways lead to the same words");
    assert_eq!(calls.counts(), COUNTS);
}

#[test]
fn superseded() {
    let mut register = fresh();
    for line in &LINES[1..11] {
        register.line(line.as_bytes());
    }
    assert_eq!(register.write(Crew(1), Bearing(0), 40, ONE), Ok(Written::Superseded { stamp: 1 }));
    assert_eq!(register.read(Crew(1), Bearing(0)).unwrap().value(), Some(20));
}

#[test]
fn refusals_have_their_numbers() {
    let mut register = fresh();
    let before = register.clone();
    assert_eq!(register.read(Crew(2), Bearing(0)).unwrap_err().number(), 5);
    assert_eq!(register.read(Crew(0), Bearing(4)).unwrap_err().number(), 4);
    assert_eq!(register.tick(Depot(2), Shelf(0)).unwrap_err().number(), 2);
    assert_eq!(register.refresh(Depot(0), Shelf(2)).unwrap_err().number(), 3);
    assert_eq!(register.take(Depot(0), Shelf(0), Depot(0)).unwrap_err().number(), 6);
    assert_eq!(register.take(Depot(0), Shelf(0), Depot(1)).unwrap_err().number(), 7);
    assert_eq!(register.write(Crew(0), Bearing(0), LAST_DAY + 1, ONE).unwrap_err().number(), 16);
    assert_eq!(register.write(Crew(0), Bearing(0), 20, Card { diameter: 1.0, width: 0.0 }).unwrap_err().number(), 14);
    assert_eq!(register, before);
    for _ in 0..16 {
        register.tick(Depot(0), Shelf(0)).unwrap();
    }
    assert_eq!(register.tick(Depot(0), Shelf(0)).unwrap_err().number(), 9);
    let mut words = register.words().to_vec();
    words[84 + 1] = 2_147_483_647;
    let mut register = Register::from_words(words).unwrap();
    assert_eq!(register.tick(Depot(0), Shelf(1)).unwrap_err().number(), 10);
}

#[test]
fn the_last_day_and_what_lies_beyond() {
    let mut register = fresh();
    assert_eq!(register.write(Crew(0), Bearing(0), LAST_DAY, ONE), Ok(Written::Current { stamp: 1 }));
    assert_eq!(register.write(Crew(0), Bearing(0), u32::MAX, ONE), Err(Refusal::BadDate));
    assert_eq!(register.line(b"W 0 0 146097 1065353216 1065353216"), b"16\n");
    // An old book with a value beyond the calendar, in the store and on the link.
    let mut words = register.words().to_vec();
    words[10_596 + 1] = LAST_DAY + 1;
    words[356 + 160 + 2] = u32::MAX;
    let mut old = Register::from_words(words).unwrap();
    assert_eq!(old.read(Crew(0), Bearing(0)).unwrap().value(), Some(LAST_DAY + 1));
    old.tick(Depot(0), Shelf(1)).unwrap();
    old.take(Depot(1), Shelf(0), Depot(0)).unwrap();
    old.take(Depot(1), Shelf(1), Depot(0)).unwrap();
    old.refresh(Depot(1), Shelf(0)).unwrap();
    assert_eq!(old.read(Crew(1), Bearing(0)).unwrap().value(), Some(u32::MAX));
}

#[test]
fn raw_calls_answer_wrong_lengths() {
    use depot_register::raw;
    let mut out = [7; 8];
    assert_eq!(raw::setup(&mut [0; 100], 1, 1, 1, 1, &[0]), 1);
    assert_eq!(raw::read(&mut [], 0, 0, &mut out), 1);
    assert_eq!(out, [7; 8], "a refusal leaves the answer's room alone");
    let mut book = [0; 16_384];
    assert_eq!(raw::setup(&mut book, 1, 1, 1, 1, &[0]), 0);
    let fresh = book;
    assert_eq!(raw::read(&mut book, 0, 0, &mut out[..7]), 100, "NO ROOM for a read's answer");
    assert_eq!(raw::write(&mut book, 0, 0, 7, 1, 1, &mut out[..1]), 100, "NO ROOM for a write's answer");
    assert_eq!(raw::grams(1, 1, &mut out[..1]), 100, "NO ROOM for the grams");
    assert_eq!(raw::read(&mut [], 0, 0, &mut []), 100, "NO ROOM comes before BAD BOOK");
    assert_eq!((book, out), (fresh, [7; 8]), "without room nothing is done");
    assert_eq!(raw::is_fit(&[]), 0);
    assert_eq!(raw::greater(&[], &[], 2), 0);
    assert_eq!(raw::line(&mut [0; 16_384], b"R 0 0", &mut [0; ANSWER_BYTES - 1]), 0, "too little room for a line's answer");
}

#[test]
fn cards_at_their_limits() {
    let mut register = fresh();
    let card = |diameter: f32, width: f32| Card { diameter, width };
    let least = f32::from_bits(1);
    assert_eq!(register.write(Crew(0), Bearing(0), 20, card(2_000.0, least)), Ok(Written::Current { stamp: 1 }));
    assert_eq!(register.read(Crew(0), Bearing(0)).unwrap().card(), Some(card(2_000.0, least)));
    let next = f32::from_bits(2_000.0_f32.to_bits() + 1);
    for length in [next, 0.0, -0.0, -1.0, f32::INFINITY, f32::NEG_INFINITY, f32::NAN, f32::MAX] {
        assert_eq!(register.write(Crew(0), Bearing(0), 20, card(length, 1.0)), Err(Refusal::BadCard), "{} by 1", length);
        assert_eq!(register.write(Crew(0), Bearing(0), 20, card(1.0, length)), Err(Refusal::BadCard), "1 by {}", length);
        assert_eq!(card(length, 1.0).grams(), Err(Refusal::BadCard), "{} by 1", length);
    }
}

#[test]
fn grams_to_the_bit() {
    let bits = |diameter, width| Card { diameter, width }.grams().unwrap().to_bits();
    assert_eq!(bits(52.0, 15.0), 0x400F_3333_3333_3333);
    assert_eq!(bits(47.0, 14.0), 0x400A_51EB_851E_B852, "the width times 0.005 first gives another");
    assert_eq!(bits(19.05, 6.35), 0x3FE3_5AD4_1A5A_EE67, "so does that, and a product of 32 bits");
}
