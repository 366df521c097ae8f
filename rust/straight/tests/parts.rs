//! BAD BOOK means the parts that a call names, and an unfit word elsewhere stays as it is.

use straight::calendar::LAST_DAY;
use straight::layout::*;
use straight::{is_fit, read, refresh, setup, take, tick, Refusal, Written, WORDS};

/// No word of a book can be this, but a value or an unused one.
const UNFIT: u32 = u32::MAX;

/// The bits of 1 millimetre, both lengths of every card here.
const ONE: u32 = 1_065_353_216;

fn write(book: &mut [u32], crew: u32, bearing: u32, value: u32) -> Result<Written, Refusal> {
    straight::write(book, crew, bearing, value, ONE, ONE)
}

type Call = fn(&mut [u32]) -> Result<(), Refusal>;

const READ: Call = |book| read(book, 1, 2).map(|_| ());
const WRITE: Call = |book| write(book, 1, 2, 9).map(|_| ());
const TICK: Call = |book| tick(book, 1, 0);
const TAKE: Call = |book| take(book, 1, 0, 0);
const REFRESH: Call = |book| refresh(book, 1, 0);

/// Three depots, two shelves. On the link of shelf 0 from depot 0 to 1: a taken copy of bearing 0 that is hidden, since bearing
/// 1, which it rests on, is still on its way; an untaken copy of bearing 4; a heartbeat. All calls name depot 1 and shelf 0.
fn busy() -> Vec<u32> {
    let mut book = vec![0; WORDS];
    setup(&mut book, 3, 2, 6, 3, &[0, 1, 2]).unwrap();
    write(&mut book, 0, 1, 30).unwrap();
    tick(&mut book, 0, 0).unwrap();
    take(&mut book, 1, 0, 0).unwrap();
    write(&mut book, 0, 0, 20).unwrap();
    take(&mut book, 1, 0, 0).unwrap();
    write(&mut book, 0, 4, 24).unwrap();
    tick(&mut book, 0, 0).unwrap();
    write(&mut book, 1, 2, 42).unwrap();
    assert!(is_fit(&book));
    let link = link(0, 0, 1);
    assert_eq!(book[held(link)..][..2], [3, 1]);
    book
}

/// The names of the calls that say BAD BOOK when one word is changed. The others answer as ever, and leave the word alone.
fn bad_for(at: usize, word: u32) -> String {
    let calls = [("read", READ), ("write", WRITE), ("tick", TICK), ("take", TAKE), ("refresh", REFRESH)];
    let bad = calls.iter().filter(|(name, call)| {
        let (mut plain, mut changed) = (busy(), busy());
        changed[at] = word;
        let before = changed.clone();
        let expected = call(&mut plain);
        assert_eq!(expected, Ok(()), "{}", name);
        match call(&mut changed) {
            Err(Refusal::BadBook) => {
                assert!(changed == before, "{} is refused and moves a word", name);
                true
            }
            answer => {
                plain[at] = word;
                assert_eq!(answer, expected, "{}", name);
                assert!(plain == changed, "{} with word {} as {}", name, at, word);
                false
            }
        }
    });
    bad.map(|(name, _)| *name).collect::<Vec<_>>().join(" ")
}

#[test]
fn counts_and_homes() {
    for at in 0..4 {
        assert_eq!(bad_for(at, 0), "read write tick take refresh");
        assert_eq!(bad_for(at, UNFIT), "read write tick take refresh");
    }
    for crew in 0..3 {
        assert_eq!(bad_for(home(crew), 3), "read write tick take refresh");
    }
    assert_eq!(bad_for(home(3), UNFIT), "");
}

#[test]
fn vectors_clocks_and_stamps() {
    assert_eq!(bad_for(crew_vector(1) + 2, UNFIT), "read write");
    assert_eq!(bad_for(crew_vector(1) + 3, UNFIT), "");
    assert_eq!(bad_for(crew_vector(0), UNFIT), "");
    assert_eq!(bad_for(clock(1, 0), UNFIT), "write tick");
    assert_eq!(bad_for(clock(1, 1), UNFIT), "");
    assert_eq!(bad_for(clock(0, 0), UNFIT), "");
    assert_eq!(bad_for(stable(1, 0), UNFIT), "read write refresh");
    assert_eq!(bad_for(stable(1, 0) + 1, 1), "read write refresh");
    assert_eq!(bad_for(stable(1, 1), UNFIT), "");
    assert_eq!(bad_for(seen(1, 0, 0), UNFIT), "take refresh");
    assert_eq!(bad_for(seen(1, 0, 2), UNFIT), "refresh");
    assert_eq!(bad_for(seen(1, 1, 0), UNFIT), "refresh");
    assert_eq!(bad_for(seen(1, 0, 1), UNFIT), "");
    assert_eq!(bad_for(seen(0, 0, 2), UNFIT), "");
}

#[test]
fn links() {
    let (from_0, from_2, to_0) = (link(0, 0, 1), link(0, 2, 1), link(0, 1, 0));
    for (at, word) in [(held(from_0), 17), (taken(from_0), 4), (taken(from_0), UNFIT)] {
        assert_eq!(bad_for(at, word), "read write take refresh");
    }
    for (at, word) in [(held(from_2), 17), (taken(from_2), 1)] {
        assert_eq!(bad_for(at, word), "read write refresh");
    }
    for (at, word) in [(held(to_0), 17), (taken(to_0), 2), (taken(to_0), UNFIT)] {
        assert_eq!(bad_for(at, word), "write tick");
    }
    assert_eq!(bad_for(held(link(1, 0, 1)), UNFIT), "", "the link of the other shelf");
    assert_eq!(bad_for(held(link(0, 1, 1)), UNFIT), "", "the link of a depot to itself");
    assert_eq!(bad_for(slot(from_0, 0), 3), "read write refresh", "a taken copy is no part of a take");
    assert_eq!(bad_for(slot(from_0, 0) + 1 + BEARING, 5), "read write refresh", "nor is its bearing");
    assert_eq!(bad_for(slot(from_0, 0) + 1 + VECTOR, UNFIT), "read write refresh", "nor its vector");
    for place in 1..3 {
        assert_eq!(bad_for(slot(from_0, place), 3), "read write take refresh");
    }
    assert_eq!(bad_for(slot(to_0, 0), 3), "", "a message on a link out");
    assert_eq!(bad_for(slot(from_0, 1) + 1, 5), "read write take refresh", "a bearing of another shelf");
    assert_eq!(bad_for(slot(from_0, 2) + 1, UNFIT), "read write take refresh", "the stamp of a heartbeat");
    assert_eq!(bad_for(slot(from_0, 3), 3), "", "past the messages held");
    assert_eq!(bad_for(slot(link(0, 2, 0), 0), 3), "");
}

/// Of a link's messages a take looks at the untaken ones alone, whether it takes a copy or a heartbeat, or finds none.
#[test]
fn a_take_leaves_taken_copies_alone() {
    let link = link(0, 0, 1);
    let mut book = busy();
    let whole = slot(link, 0)..slot(link, 1);
    book[whole.clone()].fill(UNFIT);
    assert_eq!(TAKE(&mut book), Ok(()), "a copy");
    assert_eq!(book[held(link)..][..2], [3, 2]);
    book[slot(link, 1)..slot(link, 2)].fill(UNFIT);
    assert_eq!(TAKE(&mut book), Ok(()), "a heartbeat");
    assert_eq!(book[held(link)..][..2], [2, 2]);
    assert_eq!(book[seen(1, 0, 0)], 4);
    assert_eq!(TAKE(&mut book), Err(Refusal::EmptyLink), "and not BAD BOOK");
    assert!(book[whole].iter().all(|&word| word == UNFIT), "and they stay as they are");
    assert!(book[slot(link, 2)..slot(link, 3)].iter().all(|&word| word == 0));
    assert_eq!(REFRESH(&mut book), Err(Refusal::BadBook), "a refresh looks at them");

    let mut book = busy();
    book[slot(link, 2)] = COPY;
    assert_eq!(TAKE(&mut book), Err(Refusal::BadBook), "an untaken message behind the first");
    let mut book = busy();
    book[taken(link)] = 3;
    assert_eq!(TAKE(&mut book), Err(Refusal::EmptyLink), "a taken heartbeat is none of the untaken");
}

#[test]
fn stored_versions() {
    for (bearing, calls) in [(0, "read write refresh"), (1, ""), (2, "read write"), (4, "")] {
        assert_eq!(bad_for(stored(1, bearing) + VECTOR + 1, UNFIT), calls, "bearing {} at depot 1", bearing);
        assert_eq!(bad_for(stored(2, bearing) + VECTOR + 1, UNFIT), "", "bearing {} at depot 2", bearing);
    }
}

/// The card of a message or a stored version is a part of it; an unwritten record has none.
#[test]
fn cards() {
    let from_0 = link(0, 0, 1);
    for at in [DIAMETER, WIDTH] {
        for word in [0, UNFIT] {
            assert_eq!(bad_for(slot(from_0, 0) + 1 + at, word), "read write refresh", "a taken copy");
            assert_eq!(bad_for(slot(from_0, 1) + 1 + at, word), "read write take refresh", "an untaken copy");
            assert_eq!(bad_for(slot(link(0, 1, 0), 0) + 1 + at, word), "", "a message on a link out");
            assert_eq!(bad_for(stored(1, 2) + at, word), "read write", "bearing 2 at depot 1, written");
            assert_eq!(bad_for(stored(1, 0) + at, word), "", "bearing 0 at depot 1, unwritten");
            assert_eq!(bad_for(stored(0, 0) + at, word), "", "bearing 0 at depot 0, written");
        }
    }
}

#[test]
fn a_number_out_of_range_names_no_part() {
    let mut book = busy();
    // Everything but the counts and the homes.
    book[7..].fill(UNFIT);
    let before = book.clone();
    assert_eq!(read(&mut book, 3, 0).map(|_| ()), Err(Refusal::BadCrew));
    assert_eq!(read(&mut book, 0, 6).map(|_| ()), Err(Refusal::BadKey));
    assert_eq!(write(&mut book, 3, 6, 0).map(|_| ()), Err(Refusal::BadCrew));
    assert_eq!(write(&mut book, 0, 6, 0).map(|_| ()), Err(Refusal::BadKey));
    assert_eq!(write(&mut book, 0, 6, u32::MAX).map(|_| ()), Err(Refusal::BadKey));
    assert_eq!(straight::write(&mut book, 0, 6, 0, 0, 0).map(|_| ()), Err(Refusal::BadKey));
    assert_eq!(tick(&mut book, 3, 2), Err(Refusal::BadDepot));
    assert_eq!(tick(&mut book, 0, 2), Err(Refusal::BadShelf));
    assert_eq!(take(&mut book, 0, 2, 3), Err(Refusal::BadDepot));
    assert_eq!(take(&mut book, 3, 2, 0), Err(Refusal::BadDepot));
    assert_eq!(take(&mut book, 0, 2, 0), Err(Refusal::BadShelf));
    assert_eq!(take(&mut book, 0, 0, 0), Err(Refusal::SameDepot));
    assert_eq!(refresh(&mut book, 0, 2), Err(Refusal::BadShelf));
    for call in [READ, WRITE, TICK, TAKE, REFRESH] {
        assert_eq!(call(&mut book), Err(Refusal::BadBook));
    }
    book[home(2)] = 3;
    assert_eq!(read(&mut book, 3, 0).map(|_| ()), Err(Refusal::BadBook), "the homes go first");
    book[home(2)] = before[home(2)];
    assert!(book == before);
}

#[test]
fn bad_book_goes_before_the_refusals_of_a_state() {
    let mut book = busy();
    book[clock(1, 0)] = UNFIT;
    assert_eq!(TICK(&mut book), Err(Refusal::BadBook), "and not the clock's end");
    let mut book = busy();
    book[crew_vector(1) + 1] = END;
    assert_eq!(WRITE(&mut book), Err(Refusal::Wait));
    book[stored(1, 0) + VECTOR] = UNFIT;
    assert_eq!(WRITE(&mut book), Err(Refusal::BadBook), "and not WAIT");
    assert_eq!(write(&mut book, 1, 2, LAST_DAY + 1).map(|_| ()), Err(Refusal::BadBook), "and not BAD DATE");
    assert_eq!(straight::write(&mut book, 1, 2, 0, 0, 0).map(|_| ()), Err(Refusal::BadBook), "and not BAD CARD");
    let mut book = busy();
    book[seen(0, 1, 1)] = UNFIT;
    assert_eq!(take(&mut book, 0, 1, 1), Err(Refusal::BadBook), "and not EMPTY LINK");
}
