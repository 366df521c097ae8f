//! A list of bearings, read at one moment.

use straight::layout::*;
use straight::{is_fit, line, list, read, refresh, setup, take, tick, write, Reading, Refusal, LONGEST_LIST, WORDS};

/// The bits of 1 millimetre, both lengths of every card here.
const ONE: u32 = 1_065_353_216;

const UNWRITTEN: Reading = Reading { value: None, diameter: 0, width: 0, vector: [0; 4] };

fn reads(value: u32, vector: [u32; 4]) -> Reading {
    Reading { value: Some(value), diameter: ONE, width: ONE, vector }
}

fn fresh() -> Vec<u32> {
    let mut book = vec![0; WORDS];
    setup(&mut book, 2, 2, 4, 2, &[0, 1]).unwrap();
    book
}

/// Crew 0 has written bearing 0 := 20 and then bearing 1 := 30, which rests on it. Depot 1 has taken all, and refreshed shelf
/// 1 alone: there bearing 1 is shown, and bearing 0 is not.
fn torn() -> Vec<u32> {
    let mut book = fresh();
    write(&mut book, 0, 0, 20, ONE, ONE).unwrap();
    tick(&mut book, 0, 1).unwrap();
    write(&mut book, 0, 1, 30, ONE, ONE).unwrap();
    tick(&mut book, 0, 0).unwrap();
    for _ in 0..2 {
        take(&mut book, 1, 0, 0).unwrap();
        take(&mut book, 1, 1, 0).unwrap();
    }
    refresh(&mut book, 1, 1).unwrap();
    assert_eq!([book[stable(1, 0)], book[stable(1, 1)]], [0, 2]);
    assert!(is_fit(&book));
    book
}

/// One read after the other finds no bearing 0 and then bearing 1, which rests on it. A list finds both, in either order.
#[test]
fn one_page_one_moment() {
    let mut book = torn();
    assert_eq!(read(&mut book, 1, 0), Ok(UNWRITTEN));
    assert_eq!(read(&mut book, 1, 1), Ok(reads(30, [2, 0, 0, 0])));

    let (twenty, thirty) = (reads(20, [1, 0, 0, 0]), reads(30, [2, 0, 0, 0]));
    for (bearings, answers) in [
        (&[0, 1][..], vec![twenty, thirty]),
        (&[1, 0], vec![thirty, twenty]),
        (&[0, 0, 1, 0], vec![twenty, twenty, thirty, twenty]),
        (&[0, 2, 3, 1], vec![twenty, UNWRITTEN, UNWRITTEN, thirty]),
    ] {
        let mut book = torn();
        assert_eq!(list(&mut book, 1, bearings), Ok(answers));
        assert_eq!(book[crew_vector(1)..][..2], [2, 0], "the crew has heard of all of them");
        assert_eq!([book[stable(1, 0)], book[stable(1, 1)]], [2, 2], "both shelves are raised");
        assert!(is_fit(&book));
    }
}

/// Every home shelf is raised and shown, those of no listed bearing too; the crew's vector rises to the answers alone.
#[test]
fn what_moves() {
    let mut book = torn();
    let mut expected = book.clone();
    let link = link(0, 0, 1);
    assert_eq!(book[held(link)..][..2], [1, 1], "the copy of bearing 0 is taken and hidden");
    assert_eq!(list(&mut book, 1, &[3]), Ok(vec![UNWRITTEN]));
    expected[stable(1, 0)] = 2;
    let copy = slot(link, 0);
    expected.copy_within(copy + 1..copy + SLOT, stored(1, 0));
    expected[copy..copy + SLOT].fill(0);
    expected[held(link)..][..2].fill(0);
    assert!(book == expected);
}

/// The crew's vector is offered too, but for the entry of its home; the stable vectors of other depots are not.
#[test]
fn what_is_offered() {
    let mut book = vec![0; WORDS];
    setup(&mut book, 3, 3, 6, 1, &[1]).unwrap();
    book[crew_vector(0)..][..3].copy_from_slice(&[4, 7, 0]);
    for (depot, shelf, vector) in [(1, 0, [2, 0, 1]), (1, 1, [5, 0, 0]), (1, 2, [0, 0, 3]), (0, 0, [0, 9, 9]), (2, 0, [9, 9, 0])]
    {
        book[stable(depot, shelf)..][..3].copy_from_slice(&vector);
    }
    assert!(is_fit(&book));
    list(&mut book, 0, &[0]).unwrap();
    for shelf in 0..3 {
        assert_eq!(book[stable(1, shelf)..][..4], [5, 0, 3, 0]);
    }
    assert_eq!(book[stable(0, 0)..][..3], [0, 9, 9]);
    assert_eq!(book[stable(2, 0)..][..3], [9, 9, 0]);
    assert_eq!(book[crew_vector(0)..][..3], [4, 7, 0], "nothing was read");
}

/// The crew's vector becomes the maximum with all answers.
#[test]
fn the_crew_merges_them_all() {
    let mut book = fresh();
    for (bearing, vector) in [(0, [1, 3]), (1, [2, 1]), (2, [9, 9])] {
        book[stored(0, bearing)..][..7].copy_from_slice(&[bearing as u32, 20, ONE, ONE, 0, vector[0], vector[1]]);
    }
    assert!(is_fit(&book));
    let answers = list(&mut book, 0, &[1, 0, 1]).unwrap();
    assert_eq!(answers.iter().map(|reading| reading.vector).collect::<Vec<_>>(), [[2, 1, 0, 0], [1, 3, 0, 0], [2, 1, 0, 0]]);
    assert_eq!(book[crew_vector(0)..][..2], [2, 3]);
    assert_eq!(book[stable(0, 0)..][..2], [0, 0], "what was read raises no shelf");
}

/// Where all home shelves have the same stable vector beforehand, a list of one gives the answer of a plain read.
#[test]
fn a_list_of_one() {
    let mut book = torn();
    refresh(&mut book, 1, 0).unwrap();
    for crew in 0..2 {
        for bearing in 0..4 {
            let (mut one, mut plain) = (book.clone(), book.clone());
            let answer = read(&mut plain, crew, bearing).unwrap();
            assert_eq!(list(&mut one, crew, &[bearing]), Ok(vec![answer]));
        }
    }
}

/// 1, 5, 15, 4; what is out of range names no part.
#[test]
fn the_checks() {
    assert_eq!(Refusal::BadList as u32, 15);
    assert_eq!(LONGEST_LIST, 8);
    assert_eq!(list(&mut [0; WORDS], 0, &[0]), Err(Refusal::BadBook));
    let mut book = torn();
    assert_eq!(list(&mut book[1..], 2, &[]), Err(Refusal::BadBook));
    let before = book.clone();
    for bearings in [&[][..], &[0; 9], &[4; 9], &[0; 58]] {
        assert_eq!(list(&mut book, 2, bearings), Err(Refusal::BadCrew));
        assert_eq!(list(&mut book, 1, bearings), Err(Refusal::BadList));
    }
    for bearings in [&[4][..], &[0, 4], &[4, 0], &[0, 1, 2, 3, 0, 1, 2, u32::MAX]] {
        assert_eq!(list(&mut book, 2, bearings), Err(Refusal::BadCrew));
        assert_eq!(list(&mut book, 1, bearings), Err(Refusal::BadKey));
    }
    assert!(book == before, "a refusal moves no word");
    assert_eq!(list(&mut book, 1, &[1; 8]), Ok(vec![reads(30, [2, 0, 0, 0]); 8]), "eight will do");

    // Everything but the counts and the homes.
    book[6..].fill(u32::MAX);
    assert_eq!(list(&mut book, 2, &[0]), Err(Refusal::BadCrew));
    assert_eq!(list(&mut book, 0, &[]), Err(Refusal::BadList));
    assert_eq!(list(&mut book, 0, &[0; 9]), Err(Refusal::BadList));
    assert_eq!(list(&mut book, 0, &[0, 4]), Err(Refusal::BadKey));
    assert_eq!(list(&mut book, 0, &[0]), Err(Refusal::BadBook));
    book[home(1)] = 2;
    assert_eq!(list(&mut book, 2, &[]), Err(Refusal::BadBook), "the homes go first");
}

/// The parts of a read of each listed bearing, and of raise and show at every home shelf. Any other word may be what it likes:
/// it stays, and the rest of the book is as without it.
#[test]
fn the_parts() {
    let (shelf_0, shelf_1) = (link(0, 0, 1), link(1, 0, 1));
    let mut plain = torn();
    // On its way on shelf 1: a heartbeat, not taken.
    tick(&mut plain, 0, 1).unwrap();
    let book = plain.clone();
    let expected = list(&mut plain, 1, &[3, 1]);

    let mut named: Vec<usize> = (0..6).collect();
    named.extend(crew_vector(1)..crew_vector(1) + 2);
    named.extend(stable(1, 0)..stable(1, 0) + 2);
    named.extend(stable(1, 1)..stable(1, 1) + 2);
    named.extend([held(shelf_0), taken(shelf_0), held(shelf_1), taken(shelf_1)]);
    // The taken copy of bearing 0, all but its value and the words past the depots; the heartbeat's kind and stamp.
    let copy = slot(shelf_0, 0);
    named.extend([0, 1, 3, 4, 5, 6, 7].map(|word| copy + word));
    named.extend([slot(shelf_1, 0), slot(shelf_1, 0) + 1]);
    // The stored versions: bearing 0 for its copy's sake, unwritten; 1 and 3 are listed, 3 is unwritten.
    named.extend([0, 1].map(|x| stored(1, 0) + VECTOR + x));
    named.extend([BEARING, DIAMETER, WIDTH, ORIGIN, VECTOR, VECTOR + 1].map(|word| stored(1, 1) + word));
    named.extend([0, 1].map(|x| stored(1, 3) + VECTOR + x));

    // What the list writes over or hands on: the shown copy's words, and bearing 0's record.
    let moved = |at: usize| (copy..copy + SLOT).contains(&at) || (stored(1, 0)..stored(1, 0) + RECORD).contains(&at);
    for at in 0..WORDS {
        let mut damaged = book.clone();
        damaged[at] = u32::MAX;
        let before = damaged.clone();
        let answer = list(&mut damaged, 1, &[3, 1]);
        if named.contains(&at) {
            assert_eq!(answer, Err(Refusal::BadBook), "word {}", at);
            assert!(damaged == before);
        } else {
            if at == stored(1, 1) + VALUE {
                assert_eq!(answer, Ok(vec![UNWRITTEN, reads(u32::MAX, [2, 0, 0, 0])]));
            } else {
                assert_eq!(answer, expected, "word {}", at);
            }
            if !moved(at) {
                assert_eq!(damaged[at], u32::MAX, "word {}", at);
                damaged[at] = plain[at];
                assert!(damaged == plain, "word {}", at);
            }
        }
    }
}

#[test]
fn lines() {
    let mut book = torn();
    assert_eq!(
        line(&mut book, b"L 1 1 2 0"),
        "0 30 1065353216 1065353216 2 0 - 0 0 20 1065353216 1065353216 1 0\n",
        "each answer as a read prints it"
    );
    assert_eq!(line(&mut book, b"L 1 2"), "0 - 0 0\n");
    assert_eq!(line(&mut book, b"L 1 2 2 2 2 2 2 2 2"), format!("0{}\n", " - 0 0".repeat(8)));
    assert_eq!(line(&mut book, b"L 1 2 2 2 2 2 2 2 2 2"), "15\n");
    assert_eq!(line(&mut book, b"L 1"), "15\n", "none at all");
    assert_eq!(line(&mut book, b"L 2"), "5\n");
    assert_eq!(line(&mut book, b"L 1 4"), "4\n");
    let longest = format!("L 1{} 10", " 4".repeat(57));
    assert_eq!(longest.len(), 120);
    assert_eq!(line(&mut book, longest.as_bytes()), "15\n", "any count that a line holds");
    assert_eq!(line(&mut book, format!("{}0", longest).as_bytes()), "13\n");
    for bad in ["L", "L ", "L 1 ", "L  1", "L 1 2 -", "L 1 02", "L1 2"] {
        assert_eq!(line(&mut book, bad.as_bytes()), "13\n", "{:?}", bad);
    }
    assert_eq!(line(&mut [0; WORDS], b"L 0"), "1\n");
}
