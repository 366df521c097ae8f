//! A crew changes depot.

use straight::layout::*;
use straight::{is_fit, move_crew, read, refresh, setup, take, tick, Reading, Refusal, Written, WORDS};

/// The bits of 1 millimetre, both lengths of every card here.
const ONE: u32 = 1_065_353_216;

const DONE: Result<(), Refusal> = Ok(());
const NOT_YET: Result<(), Refusal> = Err(Refusal::NotHereYet);

fn write(book: &mut [u32], crew: u32, bearing: u32, value: u32) -> Result<Written, Refusal> {
    straight::write(book, crew, bearing, value, ONE, ONE)
}

/// Three depots of two shelves and four bearings; crews 0, 1 and 2 are at home in depots 0, 1 and 2.
fn fresh() -> Vec<u32> {
    let mut book = vec![0; WORDS];
    setup(&mut book, 3, 2, 4, 3, &[0, 1, 2]).unwrap();
    book
}

/// Moves, and looks that nothing but the home has changed, and that only if the move is done.
fn moves(book: &mut [u32], crew: u32, depot: u32) -> Result<(), Refusal> {
    let mut expected = book.to_vec();
    let answer = move_crew(book, crew, depot);
    if answer.is_ok() {
        expected[home(crew as usize)] = depot;
    }
    assert!(*book == expected[..], "one word moves, and on a refusal none");
    answer
}

/// A crew that wrote moves when every shelf of the new home has seen its stamp; there it finds what it wrote.
#[test]
fn a_crew_follows_its_write() {
    let mut book = fresh();
    assert_eq!(moves(&mut book, 0, 1), DONE, "a crew that knows nothing moves at once");
    assert_eq!(moves(&mut book, 0, 0), DONE);
    write(&mut book, 0, 0, 20).unwrap();
    assert_eq!(moves(&mut book, 0, 1), NOT_YET);
    assert_eq!(moves(&mut book, 0, 0), DONE, "to the present home always");
    assert_eq!(take(&mut book, 1, 0, 0), DONE);
    assert_eq!(moves(&mut book, 0, 1), NOT_YET, "shelf 1 there has seen nothing");
    assert_eq!(tick(&mut book, 0, 1), DONE);
    assert_eq!(take(&mut book, 1, 1, 0), DONE);
    assert_eq!(moves(&mut book, 0, 1), DONE);
    assert_eq!(book[home(0)], 1);
    let reading = Reading { value: Some(20), diameter: ONE, width: ONE, vector: [1, 0, 0, 0] };
    assert_eq!(read(&mut book, 0, 0), Ok(reading), "its vector shows the write there");
    assert_eq!(write(&mut book, 0, 0, 30), Ok(Written { stamp: 1, current: true }), "and it writes at depot 1");
    assert_eq!(book[stored(1, 0)..][..RECORD], [0, 30, ONE, ONE, 1, 1, 1, 0, 0]);
    assert_eq!(book[stored(0, 0) + VALUE], 20);
    assert_eq!(moves(&mut book, 0, 2), NOT_YET);
    assert!(is_fit(&book));
}

/// The entry of the new home itself is not compared, those of all other depots are, the present home's among them.
#[test]
fn which_entries_are_compared() {
    for (entry, answer) in [(0, NOT_YET), (1, DONE), (2, NOT_YET)] {
        let mut book = fresh();
        book[crew_vector(0) + entry] = 5;
        assert_eq!(moves(&mut book, 0, 1), answer, "entry {}", entry);
    }
    let mut book = fresh();
    book[crew_vector(0)..][..3].copy_from_slice(&[5, END, 7]);
    for (shelf, from, stamp) in [(0, 0, 5), (1, 0, 6), (0, 2, 8), (1, 2, 7)] {
        assert_eq!(moves(&mut book, 0, 1), NOT_YET);
        book[seen(1, shelf, from)] = stamp;
    }
    assert_eq!(moves(&mut book, 0, 1), DONE, "equal to the lowest stamp seen is not above it");
    assert_eq!(book[home(0)], 1);
    book[home(0)] = 0;
    book[seen(1, 1, 2)] = 6;
    assert_eq!(moves(&mut book, 0, 1), NOT_YET, "one shelf is behind");
}

/// The stamps seen elsewhere, and by the depot of itself, mean nothing.
#[test]
fn which_stamps_are_compared() {
    let mut book = fresh();
    book[crew_vector(0)] = 5;
    for (depot, shelf, from) in [(0, 0, 1), (2, 0, 0), (2, 1, 0), (1, 0, 2), (1, 1, 2), (1, 0, 1), (1, 2, 0), (1, 3, 0)] {
        book[seen(depot, shelf, from)] = 9;
    }
    assert_eq!(moves(&mut book, 0, 1), NOT_YET);
    book[seen(1, 0, 0)] = 5;
    book[seen(1, 1, 0)] = 5;
    assert_eq!(moves(&mut book, 0, 1), DONE);
}

/// To the present home a crew moves whatever it knows, and nothing changes.
#[test]
fn the_present_home() {
    let mut book = fresh();
    book[crew_vector(1)..][..3].copy_from_slice(&[END, END, END]);
    assert_eq!(moves(&mut book, 1, 1), DONE);
    assert_eq!(moves(&mut book, 1, 0), NOT_YET);
    let mut book = vec![0; WORDS];
    setup(&mut book, 1, 1, 1, 1, &[0]).unwrap();
    write(&mut book, 0, 0, 20).unwrap();
    assert_eq!(moves(&mut book, 0, 0), DONE, "one depot");
}

/// 1, 5, 2, 12; a number out of range names no part.
#[test]
fn the_checks() {
    assert_eq!(move_crew(&mut [0; WORDS], 0, 0), Err(Refusal::BadBook));
    assert_eq!(Refusal::NotHereYet as u32, 12);
    let mut book = fresh();
    assert_eq!(move_crew(&mut book[1..], 3, 3), Err(Refusal::BadBook));
    book[crew_vector(0)] = 1;
    assert_eq!(moves(&mut book, 3, 3), Err(Refusal::BadCrew));
    assert_eq!(moves(&mut book, 0, 3), Err(Refusal::BadDepot), "and not NOT HERE YET");
    assert_eq!(moves(&mut book, u32::MAX, 0), Err(Refusal::BadCrew));
    assert_eq!(moves(&mut book, 0, u32::MAX), Err(Refusal::BadDepot));
    // Everything but the counts and the homes.
    book[7..].fill(u32::MAX);
    assert_eq!(moves(&mut book, 3, 0), Err(Refusal::BadCrew));
    assert_eq!(moves(&mut book, 0, 3), Err(Refusal::BadDepot));
    assert_eq!(moves(&mut book, 0, 1), Err(Refusal::BadBook));
    assert_eq!(moves(&mut book, 0, 0), Err(Refusal::BadBook), "also to the present home");
    book[home(2)] = 3;
    assert_eq!(moves(&mut book, 3, 3), Err(Refusal::BadBook), "the homes go first");
}

/// The crew's vector, and the stamps that the shelves of the new home have seen from other depots: no other part.
#[test]
fn the_parts() {
    let mut book = fresh();
    write(&mut book, 0, 1, 30).unwrap();
    take(&mut book, 1, 1, 0).unwrap();
    tick(&mut book, 0, 0).unwrap();
    take(&mut book, 1, 0, 0).unwrap();
    refresh(&mut book, 1, 0).unwrap();
    let mut named: Vec<usize> = (0..7).collect();
    named.extend(crew_vector(0)..crew_vector(0) + 3);
    for shelf in 0..2 {
        named.extend([seen(1, shelf, 0), seen(1, shelf, 2)]);
    }
    for at in 0..WORDS {
        let mut damaged = book.clone();
        damaged[at] = u32::MAX;
        let answer = if named.contains(&at) { Err(Refusal::BadBook) } else { DONE };
        assert_eq!(moves(&mut damaged, 0, 1), answer, "word {}", at);
    }
}
