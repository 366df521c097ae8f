//! The library and the straight version agree on who has what: after every event of random lists, with books changed from
//! outside among them, for numbers in and out of range. What a call leaves in `out`, too long or too short, is compared too.
#![cfg(feature = "library")]

use depot_register::raw;
use replay::event::BUFFER;
use replay::generate::Generator;
use replay::random::Random;
use replay::register::{Straight, NO_ROOM};
use straight::layout::{home, stored, RECORD, VECTOR};
use straight::{who_has, Counts, WORDS};

/// What stands in `out` before a call.
const OLD: u32 = 0xDEAD_BEEF;
/// The lists that are replayed.
const LISTS: u64 = 400;

/// What the answers came to.
#[derive(Default)]
struct Reached {
    asked: u64,
    only_own: u64,
    some: u64,
    all: u64,
    bad_book: u64,
    bad_part: u64,
    bad_depot: u64,
    bad_key: u64,
    no_room: u64,
}

/// Asks both, and compares number, `out` and book.
fn compare(book: &[u32], depot: u32, bearing: u32, room: usize, reached: &mut Reached) {
    let mut expected = vec![OLD; room];
    let number = if room < 2 {
        NO_ROOM
    } else {
        match who_has(book, depot, bearing) {
            Ok((mask, count)) => {
                expected[..2].copy_from_slice(&[mask, count]);
                0
            }
            Err(refusal) => refusal as u32,
        }
    };
    let before = book.to_vec();
    let mut out = vec![OLD; room];
    let found = raw::who_has(book, depot, bearing, &mut out);
    assert_eq!((found, &out), (number, &expected), "depot {}, bearing {}, room {}", depot, bearing, room);
    assert_eq!(book, &before[..], "looking changed a word");
    reached.asked += 1;
    match number {
        0 if out[1] == book[0] => reached.all += 1,
        0 if out[0] == 1 << depot => reached.only_own += 1,
        0 => reached.some += 1,
        1 if straight::counts_and_homes(book) => reached.bad_part += 1,
        1 => reached.bad_book += 1,
        2 => reached.bad_depot += 1,
        4 => reached.bad_key += 1,
        _ => reached.no_room += 1,
    }
}

#[test]
fn after_every_event() {
    let mut reached = Reached::default();
    for seed in 0..LISTS {
        let mut random = Random::new(seed);
        let mut generator = Generator::new(seed);
        let mut buffer = vec![0; BUFFER];
        while let Some(step) = generator.next(&buffer) {
            step.run(&Straight, &mut buffer);
            let words = if random.percent(1) { random.between(WORDS - 1, WORDS + 1) } else { WORDS };
            let n = Counts::of(&buffer);
            let depot = if random.percent(5) { random.word() } else { random.below(n.depots.min(4) + 1) as u32 };
            let bearing = if random.percent(5) { random.word() } else { random.below(n.bearings.min(160) + 1) as u32 };
            let room = if random.percent(10) { random.below(2) } else { random.between(2, 4) };
            compare(&buffer[..words], depot, bearing, room, &mut reached);
        }
    }
    let Reached { asked, only_own, some, all, bad_book, bad_part, bad_depot, bad_key, no_room } = reached;
    println!("asked {asked}: only its own {only_own}, some {some}, all {all}; refused: book {bad_book}, part {bad_part},");
    println!("depot {bad_depot}, key {bad_key}, no room {no_room}");
    for count in [only_own, some, all, bad_book, bad_part, bad_depot, bad_key, no_room] {
        assert!(count > 0, "something was not reached");
    }
}

/// One word changed, in every place of a book: only the counts, the homes and the bearing's stored versions have a say.
#[test]
fn every_word_changed() {
    let mut book = vec![0; WORDS];
    straight::setup(&mut book, 3, 2, 5, 2, &[0, 2]).unwrap();
    for (depot, vector) in [[3, 0, 0], [3, 1, 0], [0, 0, 0]].iter().enumerate() {
        let at = stored(depot, 4);
        book[at] = 4;
        book[at + 1] = 20;
        book[at + 2] = 1f32.to_bits();
        book[at + 3] = 1f32.to_bits();
        book[at + VECTOR..at + VECTOR + 3].copy_from_slice(vector);
    }
    let mut reached = Reached::default();
    for at in 0..WORDS {
        for word in [u32::MAX, 1 << 31, 0, book[at].wrapping_add(1)] {
            let mut changed = book.clone();
            changed[at] = word;
            for depot in 0..4 {
                compare(&changed, depot, 4, 2, &mut reached);
            }
            let named = at < home(2) || (0..3).any(|depot| (stored(depot, 4)..stored(depot, 4) + RECORD).contains(&at));
            if !named {
                assert_eq!(who_has(&changed, 0, 4), who_has(&book, 0, 4), "word {}", at);
            }
        }
    }
    assert!(reached.bad_part > 0 && reached.some > 0);
}
