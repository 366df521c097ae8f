//! The specification's listing and its entries (a) to (i).

use straight::calendar::LAST_DAY;
use straight::layout::{clock, crew_vector, held, link, slot, stable, stored, COPY, END, VALUE, VECTOR};
use straight::{desk, is_fit, layout, line, read, refresh, setup, take, tick, Reading, Refusal, Written, WORDS};

/// The listing and its answers, in the form that they have since versions carry cards.
const LISTING: &str = "\
S 2 2 4 2 0 1
R 0 0
W 0 0 20 1065353216 1065353216
W 0 1 30 1065353216 1065353216
K 0 1
W 0 1 30 1065353216 1065353216
T 1 0 0
F 1 0
R 1 0
T 1 1 0
F 1 0
R 1 0
";
const ANSWERS: &str = "\
0
0 - 0 0
0 1 C
8
0
0 2 C
0
0
0 - 0 0
0
0
0 20 1065353216 1065353216 1 0
";

const DONE: Result<(), Refusal> = Ok(());

/// The bits of 1 millimetre, both lengths of every card here.
const ONE: u32 = 1_065_353_216;

fn write(book: &mut [u32], crew: u32, bearing: u32, value: u32) -> Result<Written, Refusal> {
    straight::write(book, crew, bearing, value, ONE, ONE)
}

fn fresh() -> Vec<u32> {
    let mut book = vec![0; WORDS];
    assert_eq!(setup(&mut book, 2, 2, 4, 2, &[0, 1]), DONE);
    book
}

/// The book after the first lines of the listing.
fn after(lines: usize) -> Vec<u32> {
    let mut book = vec![0; WORDS];
    for text in LISTING.lines().take(lines) {
        line(&mut book, text.as_bytes());
    }
    assert!(is_fit(&book));
    book
}

fn reads(value: u32, vector: [u32; 4]) -> Result<Reading, Refusal> {
    Ok(Reading { value: Some(value), diameter: ONE, width: ONE, vector })
}

/// Takes until every link is empty, a refresh of every shelf, a tick of every shelf.
fn round(book: &mut [u32], depots: u32, shelves: u32) {
    let each = || (0..depots).flat_map(move |depot| (0..shelves).map(move |shelf| (depot, shelf)));
    for (depot, shelf) in each() {
        for from in (0..depots).filter(|&from| from != depot) {
            while take(book, depot, shelf, from).is_ok() {}
        }
    }
    for (depot, shelf) in each() {
        assert_eq!(refresh(book, depot, shelf), DONE);
    }
    for (depot, shelf) in each() {
        assert_eq!(tick(book, depot, shelf), DONE);
    }
}

/// (a) and (b), on from the listing's end.
fn after_b() -> Vec<u32> {
    let mut book = after(12);
    assert_eq!(take(&mut book, 1, 1, 0), DONE);
    assert_eq!(refresh(&mut book, 1, 1), DONE);
    assert_eq!(book[stable(1, 1)], 1, "(a) the lowest seen is 1");
    assert_eq!(book[layout::stored(1, 1) + VECTOR], 0, "(a) bearing 1 stays hidden");
    assert_eq!(tick(&mut book, 0, 0), DONE);
    assert_eq!(take(&mut book, 1, 0, 0), DONE);
    assert_eq!(refresh(&mut book, 1, 1), DONE);
    assert_eq!(read(&mut book, 1, 1), reads(30, [2, 0, 0, 0]), "(b)");
    book
}

#[test]
fn listing() {
    assert_eq!(String::from_utf8(desk(LISTING.as_bytes())).unwrap(), ANSWERS);
}

#[test]
fn case_a_hidden() {
    let mut book = after(12);
    assert_eq!(take(&mut book, 1, 1, 0), DONE);
    assert_eq!(refresh(&mut book, 1, 1), DONE);
    assert_eq!(read(&mut book, 1, 1), Ok(Reading { value: None, diameter: 0, width: 0, vector: [0; 4] }));
}

#[test]
fn cases_a_to_d() {
    let mut book = after_b();
    assert_eq!(book[stable(1, 0)], 1);
    assert_eq!(read(&mut book, 1, 0), reads(20, [1, 0, 0, 0]), "(c)");
    assert_eq!(book[stable(1, 0)], 2, "(c) the stable entry rises");
    assert_eq!(write(&mut book, 1, 0, 40), Ok(Written { stamp: 1, current: true }), "(d)");
    assert_eq!(read(&mut book, 1, 0), reads(40, [2, 1, 0, 0]), "(d)");
}

#[test]
fn case_e_superseded() {
    let mut book = after(11);
    assert_eq!(write(&mut book, 1, 0, 40), Ok(Written { stamp: 1, current: false }));
    assert_eq!(book[layout::crew_vector(1)..][..2], [0, 1]);
    assert_eq!(read(&mut book, 1, 0), reads(20, [1, 0, 0, 0]));
}

#[test]
fn case_f_both_depots_agree() {
    let mut book = fresh();
    assert_eq!(write(&mut book, 0, 0, 7), Ok(Written { stamp: 1, current: true }));
    assert_eq!(write(&mut book, 1, 0, 9), Ok(Written { stamp: 1, current: true }));
    assert_eq!(read(&mut book, 1, 0), reads(9, [0, 1, 0, 0]));
    round(&mut book, 2, 2);
    round(&mut book, 2, 2);
    assert_eq!(read(&mut book, 0, 0), reads(7, [1, 0, 0, 0]));
    assert_eq!(read(&mut book, 1, 0), reads(7, [1, 0, 0, 0]));
}

#[test]
fn case_g_link_full() {
    let mut book = fresh();
    for _ in 0..16 {
        assert_eq!(tick(&mut book, 0, 0), DONE);
    }
    assert_eq!(tick(&mut book, 0, 0), Err(Refusal::LinkFull));
    assert_eq!(book[clock(0, 0)], 16);
    assert_eq!(take(&mut book, 1, 0, 0), DONE);
    assert_eq!(tick(&mut book, 0, 0), DONE);
    assert_eq!(book[clock(0, 0)], 17);
}

#[test]
fn case_h_clock_at_end() {
    let mut book = fresh();
    book[clock(0, 0)] = 2_147_483_646;
    assert_eq!(tick(&mut book, 0, 0), DONE);
    assert_eq!(tick(&mut book, 0, 0), Err(Refusal::ClockAtEnd));
    assert_eq!(write(&mut book, 0, 0, 1), Err(Refusal::ClockAtEnd));
    assert_eq!(book[clock(0, 0)], 2_147_483_647);
}

#[test]
fn case_i_one_depot() {
    let mut book = vec![0; WORDS];
    assert_eq!(setup(&mut book, 1, 1, 1, 1, &[0]), DONE);
    for stamp in 1..100 {
        assert_eq!(write(&mut book, 0, 0, stamp), Ok(Written { stamp, current: true }), "the home entry equals the clock");
    }
    assert_eq!(tick(&mut book, 0, 0), DONE);
    assert_eq!(take(&mut book, 0, 0, 0), Err(Refusal::SameDepot));
}

#[test]
fn dates_beyond_the_calendar() {
    let mut book = fresh();
    let before = book.clone();
    for late in [LAST_DAY + 1, 1 << 31, u32::MAX] {
        assert_eq!(write(&mut book, 0, 0, late), Err(Refusal::BadDate), "{}", late);
    }
    assert!(book == before, "a refusal moves no word");
    assert_eq!(Refusal::BadDate as u32, 16);
    for (stamp, day) in [(1, LAST_DAY - 1), (2, LAST_DAY)] {
        assert_eq!(write(&mut book, 0, 0, day), Ok(Written { stamp, current: true }));
        assert_eq!(read(&mut book, 0, 0), reads(day, [stamp, 0, 0, 0]));
    }
}

/// The order of a write's checks: 1, 5, 4, 16, 14, 8, 10, 9. BAD CARD has its own test.
#[test]
fn bad_date_in_its_place() {
    let late = LAST_DAY + 1;
    assert_eq!(write(&mut [0; WORDS], 0, 0, late), Err(Refusal::BadBook));
    let mut book = fresh();
    assert_eq!(write(&mut book[1..], 0, 0, late), Err(Refusal::BadBook));
    assert_eq!(write(&mut book, 2, 4, late), Err(Refusal::BadCrew));
    assert_eq!(write(&mut book, 0, 4, late), Err(Refusal::BadKey));
    for (day, wait, end, full) in [
        (late, Refusal::BadDate, Refusal::BadDate, Refusal::BadDate),
        (LAST_DAY, Refusal::Wait, Refusal::ClockAtEnd, Refusal::LinkFull),
    ] {
        let mut book = fresh();
        book[crew_vector(0)] = 1;
        assert_eq!(write(&mut book, 0, 0, day), Err(wait));
        let mut book = fresh();
        book[clock(0, 0)] = END;
        assert_eq!(write(&mut book, 0, 0, day), Err(end));
        let mut book = fresh();
        (0..16).for_each(|_| assert_eq!(tick(&mut book, 0, 0), DONE));
        assert_eq!(write(&mut book, 0, 0, day), Err(full));
    }
}

/// A book from before may hold any value: it is fit, and the value is read, taken and shown as before.
#[test]
fn late_dates_of_old_books() {
    for late in [LAST_DAY + 1, u32::MAX] {
        let mut book = fresh();
        assert_eq!(write(&mut book, 0, 0, 20), Ok(Written { stamp: 1, current: true }));
        let copy = slot(link(0, 0, 1), 0);
        assert_eq!((book[held(link(0, 0, 1))], book[copy]), (1, COPY));
        book[stored(0, 0) + VALUE] = late;
        book[copy + 1 + VALUE] = late;
        assert!(is_fit(&book));
        assert_eq!(line(&mut book, b"R 0 0"), format!("0 {} 1065353216 1065353216 1 0\n", late));
        assert_eq!(tick(&mut book, 0, 1), DONE);
        round(&mut book, 2, 2);
        assert!(is_fit(&book));
        assert_eq!(read(&mut book, 1, 0), reads(late, [1, 0, 0, 0]));
        assert_eq!(write(&mut book, 1, 0, late), Err(Refusal::BadDate), "and cannot be written again");
    }
}

#[test]
fn setup_looks_at_no_old_word() {
    let mut book = vec![u32::MAX; WORDS];
    assert_eq!(read(&mut book, 0, 0), Err(Refusal::BadBook));
    assert_eq!(setup(&mut book, 4, 4, 160, 16, &[3; 16]), DONE);
    assert_eq!(book.iter().filter(|&&word| word != 0).count(), 20);
    assert!(is_fit(&book));
    assert!(!is_fit(&[0; WORDS]), "a book of zeros");
    assert!(!is_fit(&book[1..]), "a short book");
}

#[test]
fn setup_refusals() {
    let mut book = vec![0; WORDS];
    for (counts, homes) in
        [([0, 1, 1, 1], 1), ([5, 1, 1, 1], 1), ([1, 5, 1, 1], 1), ([1, 1, 161, 1], 1), ([1, 1, 1, 17], 17), ([1, 1, 1, 1], 2)]
    {
        let [depots, shelves, bearings, crews] = counts;
        assert_eq!(setup(&mut book, depots, shelves, bearings, crews, &vec![0; homes]), Err(Refusal::BadCounts), "{:?}", counts);
    }
    assert_eq!(setup(&mut book, 2, 1, 1, 2, &[0, 2]), Err(Refusal::BadDepot));
    assert_eq!(setup(&mut book[1..], 0, 0, 0, 0, &[]), Err(Refusal::BadBook), "the length goes first");
    assert!(book.iter().all(|&word| word == 0));
}

#[test]
fn the_order() {
    let version = |origin: u32, vector: [u32; 4]| [0, 9, 0, 0, origin, vector[0], vector[1], vector[2], vector[3]];
    let above = |a: &[u32], b: &[u32]| straight::above(a, b, 2);
    assert!(above(&version(1, [0, 5, 0, 0]), &version(0, [1, 0, 0, 0])), "the greater sum decides");
    assert!(!above(&version(0, [1, 0, 0, 0]), &version(1, [0, 5, 0, 0])), "and the lesser is below");
    assert!(above(&version(0, [u32::MAX, 1, 0, 0]), &version(1, [0, 5, 0, 0])), "a sum of 33 bits counts whole");
    assert!(!above(&version(1, [0, 5, 0, 0]), &version(0, [u32::MAX, 1, 0, 0])), "on either side");
    assert!(above(&version(0, [3, 2, 0, 0]), &version(1, [2, 3, 0, 0])), "equal sums: entry by entry from depot 0 on");
    assert!(!above(&version(1, [2, 3, 0, 0]), &version(0, [3, 2, 0, 0])), "and not from the last");
    assert!(above(&version(0, [1, 0, 0, 0]), &version(1, [0, 1, 0, 0])), "the two versions of case (f)");
    assert!(straight::above(&version(0, [1, 2, 0, 3]), &version(1, [1, 1, 4, 0]), 4), "the first difference of equal sums");
    assert!(above(&version(1, [1, 1, 0, 0]), &version(0, [1, 1, 0, 0])), "then the higher origin");
    assert!(!above(&version(1, [1, 1, 0, 0]), &version(1, [1, 1, 9, 9])), "words past the depots count for nothing");
    assert!(!above(&version(1, [0, 0, 7, 7]), &version(0, [0; 4])), "unwritten is above nothing");
    let card = |diameter, width| [0, 9, diameter, width, 1, 1, 1, 0, 0];
    assert!(!above(&card(2, 2), &card(1, 1)) && !above(&card(1, 1), &card(2, 2)), "the card counts for nothing");
    assert!(above(&version(0, [1, 0, 0, 0]), &[9; 8]), "the wrong length counts as unwritten");
    let (a, b) = (version(0, [1, 0, 0, 0]), version(0, [1, 0, 0, 0]));
    assert!(std::ptr::eq(straight::greater(&a, &b, 2), &a[..]), "the first if neither is greater");
}

#[test]
fn lines_that_are_bad() {
    let answer = |text: &str| line(&mut fresh(), text.as_bytes());
    let long = |bytes: usize| {
        let mut text = "S 4 4 160 16".to_string();
        for home in 0..16 {
            let left = bytes - text.len() - 2 * (15 - home);
            text += &format!(" {}", "4000000000".get(..(left - 1).min(10)).unwrap());
        }
        assert_eq!(text.len(), bytes);
        text
    };
    assert_eq!(answer(&long(120)), "2\n");
    assert_eq!(answer(&long(121)), "13\n");
    for good in ["R 0 0", "W 0 0 146096 1065353216 1", "K 0 0", "F 1 1", "S 1 1 1 1 0"] {
        assert!(answer(good).starts_with('0'), "{}", good);
    }
    assert_eq!(answer("W 0 0 146097 1 1"), "16\n");
    assert_eq!(answer("W 0 0 4294967295 0 0"), "16\n", "a number in the right form");
    assert_eq!(answer("W 0 0 20 4294967295 1"), "14\n", "and so is this");
    assert_eq!(answer("S 1 1 1 0"), "11\n");
    assert_eq!(answer(&format!("S 4 4 160 17{}", " 0".repeat(16))), "11\n", "20 numbers");
    let bad = [
        "", " ", "R", "R ", "R 0", "R 0 ", "R 0 0 ", "R 0 0 0", " R 0 0", "R  0 0", "R 0  0", "R 00 0", "R 01 0", "R -1 0",
        "R +1 0", "R 0 0\r", "r 0 0", "RR 0 0", "R0 0", "W 0 0 4294967296 1 1", "W 0 0 9999999999 1 1", "W 0 0 00000000001 1 1",
        "W 0 0 1 4294967296 1", "W 0 0 1 1 01", "W 0 0", "W 0 0 1", "W 0 0 1 1", "W 0 0 1 1 1 1", "W 0 0 1 1.0 1", "S 1 1 1",
        "R\t0 0", "X 0 0", "R 0 \u{0660}", "L", "l 0 0", "S",
    ];
    for text in bad {
        assert_eq!(answer(text), "13\n", "{:?}", text);
    }
    assert_eq!(answer(&format!("S 4 4 160 16{}", " 0".repeat(17))), "13\n", "21 numbers");
}

#[test]
fn the_last_line() {
    assert_eq!(desk(b""), b"");
    assert_eq!(desk(b"\n"), b"13\n");
    assert_eq!(desk(b"S 1 1 1 1 0"), b"0\n");
    assert_eq!(desk(b"S 1 1 1 1 0\n\nK 0 0"), b"0\n13\n0\n");
    assert_eq!(desk(b"R 0 0\n"), b"1\n", "the book starts as zeros");
}
