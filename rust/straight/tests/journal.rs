//! The journal: the worked journal of `docs/JOURNAL.md`, cuts at every byte, records that are strange or refused, calls with
//! their records, and desks that are killed.

use straight::calendar::LAST_DAY;
use straight::layout::{clock, crew_vector, home, END};
use straight::{call, call_with_record, desk_with_journal, is_fit, line, record, record_length, recover};
use straight::{Answer, Reading, Recovered, Refusal, Request, Written, BAD_RECORD, CUT, NO_ROOM, WHOLE, WORDS};

/// The bits of 1, 15, 52 and 2,000 millimetres.
const ONE: u32 = 1_065_353_216;
const FIFTEEN: u32 = 1_097_859_072;
const FIFTY_TWO: u32 = 1_112_539_136;
const MOST: u32 = 1_157_234_688;

/// The lines of the worked journal, their answers, their records, and where these end.
const WORKED: [(&str, &str, &str, usize); 12] = [
    ("S 2 2 4 2 0 1", "0", "01 02 02 00 00 00 02 00 00 00 04 00 00 00 02 00 00 00 00 00 00 00 01 00 00 00", 26),
    ("R 0 0", "0 - 0 0", "02 00 00 00 00 00 00 00 00", 35),
    ("W 0 0 20 1065353216 1065353216", "0 1 C", "03 00 00 00 00 00 00 00 00 14 00 00 00 00 00 80 3F 00 00 80 3F", 56),
    ("W 0 1 30 1065353216 1065353216", "8", "", 56),
    ("K 0 1", "0", "04 00 00 00 00 01 00 00 00", 65),
    ("W 0 1 30 1065353216 1065353216", "0 2 C", "03 00 00 00 00 01 00 00 00 1E 00 00 00 00 00 80 3F 00 00 80 3F", 86),
    ("T 1 0 0", "0", "05 01 00 00 00 00 00 00 00 00 00 00 00", 99),
    ("F 1 0", "0", "06 01 00 00 00 00 00 00 00", 108),
    ("R 1 0", "0 - 0 0", "02 01 00 00 00 00 00 00 00", 117),
    ("T 1 1 0", "0", "05 01 00 00 00 01 00 00 00 00 00 00 00", 130),
    ("F 1 0", "0", "06 01 00 00 00 00 00 00 00", 139),
    ("R 1 0", "0 20 1065353216 1065353216 1 0", "02 01 00 00 00 00 00 00 00", 148),
];

fn hex(text: &str) -> Vec<u8> {
    text.split_whitespace().map(|byte| u8::from_str_radix(byte, 16).unwrap()).collect()
}

fn zeros() -> Vec<u32> {
    vec![0; WORDS]
}

/// The bytes of the worked journal, from the page.
fn worked() -> Vec<u8> {
    WORKED.iter().flat_map(|(_, _, record, _)| hex(record)).collect()
}

/// The book after the first lines of the worked journal.
fn after(lines: usize) -> Vec<u32> {
    let mut book = zeros();
    for (text, answer, _, _) in &WORKED[..lines] {
        assert_eq!(line(&mut book, text.as_bytes()), format!("{}\n", answer));
    }
    book
}

/// What recovery tells of these bytes, and the book.
fn recovered(start: &[u32], bytes: &[u8]) -> (Recovered, Vec<u32>) {
    let mut book = start.to_vec();
    (recover(&mut book, bytes), book)
}

fn ends(records: usize, bytes: usize, ended: u32) -> Recovered {
    Recovered { records, bytes, ended }
}

fn setup(counts: [u32; 4], homes: &[u32]) -> Request {
    let [depots, shelves, bearings, crews] = counts;
    Request::Setup { depots, shelves, bearings, crews, homes: homes.to_vec() }
}

fn write(crew: u32, bearing: u32, value: u32) -> Request {
    Request::Write { crew, bearing, value, diameter: ONE, width: ONE }
}

fn list(crew: u32, bearings: &[u32]) -> Request {
    Request::List { crew, bearings: bearings.to_vec() }
}

/// Calls of every kind that are all done, one after the other from the book of zeros; the eleventh is another setup.
fn history() -> Vec<Request> {
    vec![
        setup([3, 2, 4, 3], &[0, 1, 2]),
        Request::Read { crew: 0, bearing: 3 },
        write(0, 1, 30),
        Request::Tick { depot: 0, shelf: 0 },
        Request::Take { depot: 1, shelf: 1, from: 0 },
        Request::Take { depot: 1, shelf: 0, from: 0 },
        Request::Refresh { depot: 1, shelf: 1 },
        list(1, &[1, 0, 1]),
        Request::Move { crew: 0, depot: 1 },
        Request::Write { crew: 1, bearing: 2, value: 9_131, diameter: FIFTY_TWO, width: FIFTEEN },
        setup([2, 1, 160, 1], &[1]),
        Request::Write { crew: 0, bearing: 159, value: LAST_DAY, diameter: 1, width: MOST },
        Request::Take { depot: 0, shelf: 0, from: 1 },
        Request::Move { crew: 0, depot: 0 },
        list(0, &[159, 0, 159, 1, 2, 3, 4, 158]),
        Request::Read { crew: 0, bearing: 159 },
    ]
}

/// The books before the first call of a history, and after each.
fn books(history: &[Request]) -> Vec<Vec<u32>> {
    let mut books = vec![zeros()];
    for request in history {
        let mut book = books.last().unwrap().clone();
        assert!(call(&mut book, request).is_ok(), "{:?}", request);
        books.push(book);
    }
    books
}

/// The journal of a history, and where its records end; 0 is where the first begins.
fn journal(history: &[Request]) -> (Vec<u8>, Vec<usize>) {
    let (mut bytes, mut ends) = (Vec::new(), vec![0]);
    for request in history {
        bytes.extend(record(request));
        ends.push(bytes.len());
    }
    (bytes, ends)
}

#[test]
fn the_numbers() {
    assert_eq!([WHOLE, BAD_RECORD, CUT, NO_ROOM], [0, 110, 111, 100]);
}

#[test]
fn the_example() {
    let example = hex("01 02 02 00 00 00 02 00 00 00 04 00 00 00 02 00 00 00 00 00 00 00 01 00 00 00
         02 00 00 00 00 00 00 00 00
         04 00 00 00 00 01 00 00 00");
    let calls = [setup([2, 2, 4, 2], &[0, 1]), Request::Read { crew: 0, bearing: 0 }, Request::Tick { depot: 0, shelf: 1 }];
    assert_eq!(journal(&calls).0, example);
    assert_eq!(example.len(), 44);
    assert_eq!(recovered(&zeros(), &example), (ends(3, 44, WHOLE), books(&calls).pop().unwrap()));
}

/// Each row of the worked journal: the answer of the desk, and what its journal holds then.
#[test]
fn the_worked_journal() {
    let (mut book, mut journal) = (zeros(), Vec::new());
    let mut expected = Vec::new();
    for (at, (text, answer, record, end)) in WORKED.iter().enumerate() {
        assert_eq!(desk_with_journal(&mut book, &mut journal, text.as_bytes()), format!("{}\n", answer), "{}", text);
        expected.extend(hex(record));
        assert_eq!(journal, expected, "{}", text);
        assert_eq!(journal.len(), *end, "{}", text);
        assert!(book == after(at + 1), "the journal moves no word");
    }
}

/// Each row of the table of what recovery tells.
#[test]
fn the_worked_recoveries() {
    let all = worked();
    let then = |first: usize, more: &str| [all[..first].to_vec(), hex(more)].concat();
    let listed = {
        let mut book = after(2);
        assert_eq!(line(&mut book, b"L 0 0 1"), "0 - 0 0 - 0 0\n");
        book
    };
    for (bytes, expected, book) in [
        (vec![], ends(0, 0, 0), zeros()),
        (all[..25].to_vec(), ends(0, 0, 111), zeros()),
        (all[..26].to_vec(), ends(1, 26, 0), after(1)),
        (all[..27].to_vec(), ends(1, 26, 111), after(1)),
        (then(56, "03 00 00 00 00 01 00 00 00 1E 00 00 00 00 00 80 3F 00 00 80 3F"), ends(3, 56, 8), after(3)),
        (then(35, "09"), ends(2, 35, 110), after(2)),
        (then(35, "09 02 00 00 00 00 00 00 00 00"), ends(2, 35, 110), after(2)),
        (then(35, "08 02 00 00 00 00 00 00 00 00 01 00 00 00"), ends(3, 49, 0), listed),
        (then(35, "08 00 00 00 00 00"), ends(2, 35, 15), after(2)),
        (hex("02 00 00 00 00 00 00 00 00"), ends(0, 0, 1), zeros()),
        (hex("01 02 02 00 00 00 02 00 00 00 04 00 00 00 03 00 00 00 00 00 00 00 01 00 00 00"), ends(0, 0, 11), zeros()),
        (all.clone(), ends(11, 148, 0), after(12)),
    ] {
        let (told, recovered) = recovered(&zeros(), &bytes);
        assert_eq!(told, expected, "{:02X?}", bytes);
        assert!(recovered == book, "{:02X?}", bytes);
    }
}

/// The record of each kind, every number of it another and every byte of a number.
#[test]
fn the_records() {
    let n = |number: u32| 0x1020_3040 + 0x0101_0101 * number;
    let byte = |number: u32| format!("{:02X} {:02X} {:02X} {:02X}", 0x40 + number, 0x30 + number, 0x20 + number, 0x10 + number);
    let (a, b, c, d, e, f) = (byte(1), byte(2), byte(3), byte(4), byte(5), byte(6));
    for (request, bytes) in [
        (setup([n(1), n(2), n(3), n(4)], &[]), format!("01 00 {} {} {} {}", a, b, c, d)),
        (setup([n(1), n(2), n(3), n(4)], &[n(5), n(6)]), format!("01 02 {} {} {} {} {} {}", a, b, c, d, e, f)),
        (Request::Read { crew: n(1), bearing: n(2) }, format!("02 {} {}", a, b)),
        (
            Request::Write { crew: n(1), bearing: n(2), value: n(3), diameter: n(4), width: n(5) },
            format!("03 {} {} {} {} {}", a, b, c, d, e),
        ),
        (Request::Tick { depot: n(1), shelf: n(2) }, format!("04 {} {}", a, b)),
        (Request::Take { depot: n(1), shelf: n(2), from: n(3) }, format!("05 {} {} {}", a, b, c)),
        (Request::Refresh { depot: n(1), shelf: n(2) }, format!("06 {} {}", a, b)),
        (Request::Move { crew: n(1), depot: n(2) }, format!("07 {} {}", a, b)),
        (list(n(1), &[]), format!("08 00 {}", a)),
        (list(n(1), &[n(2), n(3), n(4)]), format!("08 03 {} {} {} {}", a, b, c, d)),
    ] {
        assert_eq!(record(&request), hex(&bytes), "{:?}", request);
        assert_eq!(record_length(&request), hex(&bytes).len(), "{:?}", request);
    }
    assert_eq!(record(&setup([0; 4], &[0; 255])).len(), 1_038);
    assert_eq!(record(&setup([0; 4], &[0; 16])).len(), 82);
    assert_eq!(record(&list(0, &[0; 8])).len(), 38);
    assert_eq!(record(&list(0, &[0; 255]))[1], 255);
}

/// Cut at any byte: the book after the whole records before the cut, and their number; with none the starting book.
#[test]
fn every_cut() {
    let history = history();
    let books = books(&history);
    let (journal, ends_at) = journal(&history);
    assert!(books.iter().skip(1).all(|book| is_fit(book)));
    for cut in 0..=journal.len() {
        let whole = ends_at.iter().filter(|&&end| end <= cut).count() - 1;
        let ended = if ends_at[whole] == cut { WHOLE } else { CUT };
        let (told, book) = recovered(&zeros(), &journal[..cut]);
        assert_eq!(told, ends(whole, ends_at[whole], ended), "cut at {}", cut);
        assert!(book == books[whole], "cut at {}", cut);
    }
    let worked = worked();
    for cut in 0..=worked.len() {
        let lines = WORKED.iter().filter(|row| row.3 <= cut).count();
        let (told, book) = recovered(&zeros(), &worked[..cut]);
        let end = if lines == 0 { 0 } else { WORKED[lines - 1].3 };
        let records = WORKED[..lines].iter().filter(|row| !row.2.is_empty()).count();
        assert_eq!(told, ends(records, end, if end == cut { WHOLE } else { CUT }), "cut at {}", cut);
        assert!(book == after(lines), "cut at {}", cut);
    }
}

/// From a book that is not of zeros, as from an image: with no whole record it is the result, and no setup is asked for.
#[test]
fn from_another_book() {
    let history = history();
    let books = books(&history);
    for first in 0..history.len() {
        let (journal, ends_at) = journal(&history[first..]);
        for (records, end) in ends_at.iter().enumerate() {
            assert_eq!(recovered(&books[first], &journal[..*end]), (ends(records, *end, WHOLE), books[first + records].clone()));
        }
        assert_eq!(recovered(&books[first], &journal[..1]), (ends(0, 0, CUT), books[first].clone()));
    }
    let strange: Vec<u32> = (0..WORDS as u32).collect();
    for start in [&strange[..], &strange[..WORDS - 1], &[]] {
        assert_eq!(recovered(start, &[]), (ends(0, 0, WHOLE), start.to_vec()), "no bytes, no look at the book");
        let read = record(&Request::Read { crew: 0, bearing: 0 });
        assert_eq!(recovered(start, &read), (ends(0, 0, 1), start.to_vec()));
    }
    let begin = record(&setup([1, 1, 1, 1], &[0]));
    assert_eq!(recovered(&strange, &begin).0, ends(1, 22, WHOLE), "a setup asks for the length alone");
    assert_eq!(recovered(&strange[1..], &begin), (ends(0, 0, 1), strange[1..].to_vec()));
}

/// The byte of no kind stops recovery before every record and behind the last, whatever comes behind.
#[test]
fn strange_kinds() {
    let history = history();
    let books = books(&history);
    let (journal, ends_at) = journal(&history);
    for (records, &end) in ends_at.iter().enumerate() {
        for kind in (0..=255).filter(|kind| !(1..=8).contains(kind)) {
            for behind in [&[][..], &[kind], &[0xFF; 40], &journal[end..], &journal] {
                let bytes = [&journal[..end], &[kind], behind].concat();
                let (told, book) = recovered(&zeros(), &bytes);
                assert_eq!(told, ends(records, end, BAD_RECORD), "kind {}", kind);
                assert!(book == books[records], "kind {}", kind);
            }
        }
        for kind in 1..=8 {
            let bytes = [&journal[..end], &[kind]].concat();
            assert_eq!(recovered(&zeros(), &bytes).0, ends(records, end, CUT), "kind {} is one", kind);
        }
    }
}

/// A whole record whose call is refused stops recovery with the refusal's number, whatever comes behind. Without its last byte
/// it is cut.
#[test]
fn refused_records() {
    let fresh = after(1);
    let full = {
        let mut book = fresh.clone();
        for _ in 0..16 {
            call(&mut book, &Request::Tick { depot: 0, shelf: 0 }).unwrap();
        }
        book
    };
    let changed = |at: usize, word: u32| {
        let mut book = fresh.clone();
        book[at] = word;
        book
    };
    let worked = worked();
    for (book, request, number) in [
        (&zeros(), Request::Tick { depot: 9, shelf: 9 }, 1),
        (&changed(home(1), 2), Request::Move { crew: 0, depot: 0 }, 1),
        (&fresh, setup([2, 2, 4, 2], &[0, 2]), 2),
        (&fresh, Request::Tick { depot: 2, shelf: 2 }, 2),
        (&fresh, Request::Take { depot: 0, shelf: 2, from: 2 }, 2),
        (&fresh, Request::Move { crew: 1, depot: 2 }, 2),
        (&fresh, Request::Refresh { depot: 1, shelf: 2 }, 3),
        (&fresh, Request::Read { crew: 0, bearing: 4 }, 4),
        (&fresh, list(0, &[0, u32::MAX]), 4),
        (&fresh, Request::Read { crew: 2, bearing: 4 }, 5),
        (&fresh, list(2, &[]), 5),
        (&fresh, Request::Take { depot: 1, shelf: 0, from: 1 }, 6),
        (&fresh, Request::Take { depot: 1, shelf: 0, from: 0 }, 7),
        (&changed(crew_vector(0), 1), write(0, 0, 20), 8),
        (&full, Request::Tick { depot: 0, shelf: 0 }, 9),
        (&changed(clock(0, 1), END), Request::Tick { depot: 0, shelf: 1 }, 10),
        (&fresh, setup([5, 2, 4, 2], &[0, 1]), 11),
        (&fresh, setup([2, 2, 4, 2], &[0; 255]), 11),
        (&changed(crew_vector(0), 1), Request::Move { crew: 0, depot: 1 }, 12),
        (&fresh, Request::Write { crew: 0, bearing: 0, value: LAST_DAY, diameter: MOST + 1, width: ONE }, 14),
        (&fresh, Request::Write { crew: 0, bearing: 0, value: LAST_DAY, diameter: ONE, width: MOST + 1 }, 14),
        (&fresh, list(0, &[]), 15),
        (&fresh, list(0, &[0; 9]), 15),
        (&fresh, list(0, &[7; 255]), 15),
        (&fresh, write(0, 0, LAST_DAY + 1), 16),
    ] {
        let bytes = record(&request);
        for behind in [&[][..], &[0], &[0xFF; 1_100], &worked] {
            let all = [&bytes[..], behind].concat();
            assert_eq!(recovered(book, &all), (ends(0, 0, number), book.clone()), "{:?}", request);
        }
        for cut in 1..bytes.len() {
            assert_eq!(recovered(book, &bytes[..cut]), (ends(0, 0, CUT), book.clone()), "{:?} at {}", request, cut);
        }
    }
    // Behind records that are done the count goes on, and the book stands before the refused one.
    let twice = [&worked[..], &record(&Request::Take { depot: 1, shelf: 0, from: 0 }), &worked].concat();
    assert_eq!(recovered(&zeros(), &twice), (ends(11, 148, 7), after(12)));
}

/// A setup behind other records starts afresh; the records before it count all the same.
#[test]
fn another_setup() {
    let twice = [worked(), worked()].concat();
    assert_eq!(recovered(&zeros(), &twice), (ends(22, 296, WHOLE), after(12)));
}

/// The same in pieces, cut anywhere: what does not count of one goes before the next.
#[test]
fn pieces() {
    let history = history();
    let (journal, _) = journal(&history);
    let strange = [&journal[..], &[9, 9, 9]].concat();
    let refused = [&journal[..], &record(&list(0, &[])), &journal].concat();
    for (bytes, fault) in [(journal, None), (strange, Some(BAD_RECORD)), (refused, Some(15))] {
        let (whole, book) = recovered(&zeros(), &bytes);
        assert_eq!(whole.ended, fault.unwrap_or(WHOLE));
        for first in 0..=bytes.len() {
            for second in [first, (first + 1).min(bytes.len()), (first + bytes.len()) / 2] {
                let mut again = zeros();
                let mut total = ends(0, 0, WHOLE);
                for end in [first, second, bytes.len()] {
                    let piece = recover(&mut again, &bytes[total.bytes..end]);
                    total = ends(total.records + piece.records, total.bytes + piece.bytes, piece.ended);
                }
                assert_eq!(total, whole, "cut at {} and {}", first, second);
                assert!(again == book, "cut at {} and {}", first, second);
            }
        }
    }
}

/// A call with its record, in a buffer of any room, and looks that nothing else moves.
fn makes(room: usize, book: &[u32], request: &Request) -> Result<(Answer, Vec<u8>, Vec<u32>), u32> {
    let before: Vec<u8> = (0..room).map(|at| 0xA0 ^ at as u8).collect();
    let (mut buffer, mut after) = (before.clone(), book.to_vec());
    match call_with_record(&mut after, request, &mut buffer) {
        Ok((answer, length)) => {
            assert_eq!(buffer[length..], before[length..], "the bytes past it stay");
            Ok((answer, buffer[..length].to_vec(), after))
        }
        Err(number) => {
            assert_eq!(buffer, before, "a refusal moves no byte");
            assert!(after == book, "a refusal moves no word");
            Err(number)
        }
    }
}

/// Each call answers as by itself and leaves the same book; its record is there, and recovery makes the call again.
#[test]
fn calls_with_records() {
    let history = history();
    let mut answers = Vec::new();
    for (request, book) in history.iter().zip(books(&history)) {
        let mut plain = book.clone();
        let expected = call(&mut plain, request).unwrap();
        let length = record(request).len();
        for room in [length, length + 1, length + 100] {
            let (answer, bytes, after) = makes(room, &book, request).unwrap();
            assert_eq!(answer, expected, "{:?}", request);
            assert_eq!(bytes, record(request), "{:?}", request);
            assert!(after == plain, "{:?}", request);
            assert_eq!(recovered(&book, &bytes), (ends(1, length, WHOLE), after), "{:?}", request);
        }
        for room in 0..length {
            assert_eq!(makes(room, &book, request), Err(NO_ROOM), "{:?}", request);
        }
        answers.push(expected);
    }
    let unwritten = Reading { value: None, diameter: 0, width: 0, vector: [0; 4] };
    let late = Reading { value: Some(LAST_DAY), diameter: 1, width: MOST, vector: [0, 1, 0, 0] };
    assert_eq!(answers[0], Answer::Done);
    assert_eq!(answers[1], Answer::Read(unwritten));
    assert_eq!(answers[2], Answer::Written(Written { stamp: 1, current: true }));
    assert_eq!(answers[8], Answer::Done);
    assert_eq!(answers[14], Answer::List([vec![late, unwritten, late], vec![unwritten; 5]].concat()));
    assert_eq!(answers[15], Answer::Read(late));
}

/// The room is looked at first of all, then the call refuses as by itself, and then it is done.
#[test]
fn the_room_first() {
    let fresh = after(1);
    for (request, number) in [
        (setup([2, 2, 4, 2], &[0]), 11),
        (setup([0; 4], &[]), 11),
        (setup([2, 2, 4, 2], &[0, 2]), 2),
        (setup([2, 2, 4, 2], &[0; 256]), 11),
        (setup([1, 1, 1, 300], &[0; 300]), 11),
        (Request::Read { crew: 2, bearing: 0 }, 5),
        (write(0, 4, 20), 4),
        (Request::Tick { depot: 2, shelf: 0 }, 2),
        (Request::Take { depot: 1, shelf: 0, from: 0 }, 7),
        (Request::Refresh { depot: 0, shelf: 2 }, 3),
        (Request::Move { crew: 2, depot: 0 }, 5),
        (list(0, &[]), 15),
        (list(0, &[0; 9]), 15),
        (list(0, &[0; 256]), 15),
        (list(0, &[0; 1_000]), 15),
    ] {
        let length = match &request {
            Request::Setup { homes, .. } => 18 + 4 * homes.len(),
            Request::List { bearings, .. } => 6 + 4 * bearings.len(),
            other => record(other).len(),
        };
        for (book, number) in
            [(&fresh[..], number), (&zeros(), if let Request::Setup { .. } = request { number } else { 1 }), (&[], 1)]
        {
            assert_eq!(makes(length, book, &request), Err(number), "{:?}", request);
            assert_eq!(makes(length + 1, book, &request), Err(number), "{:?}", request);
            assert_eq!(makes(length - 1, book, &request), Err(NO_ROOM), "{:?}", request);
            assert_eq!(makes(0, book, &request), Err(NO_ROOM), "{:?}", request);
        }
    }
}

/// Lines that are refused, or are none, add nothing; there is no line for a move.
#[test]
fn lines_without_records() {
    let mut book = after(3);
    let mut journal = vec![1, 2, 3];
    for (text, answer) in [
        ("W 0 1 30 1065353216 1065353216", "8\n"),
        ("R 2 0", "5\n"),
        ("L 0", "15\n"),
        ("S 5 1 1 1 0", "11\n"),
        ("T 0 0 1", "7\n"),
        ("M 0 1", "13\n"),
        ("", "13\n"),
        ("R 0 0 ", "13\n"),
        ("hello", "13\n"),
    ] {
        assert_eq!(desk_with_journal(&mut book, &mut journal, text.as_bytes()), answer, "{:?}", text);
        assert_eq!(journal, [1, 2, 3], "{:?}", text);
        assert!(book == after(3), "{:?}", text);
    }
    assert_eq!(desk_with_journal(&mut book, &mut journal, b"L 0 0 1"), "0 20 1065353216 1065353216 1 0 - 0 0\n");
    assert_eq!(journal[3..], hex("08 02 00 00 00 00 00 00 00 00 01 00 00 00"));
}

/// Numbers in no order that anybody chose.
struct Numbers(u64);

impl Numbers {
    fn below(&mut self, most: u32) -> u32 {
        self.0 = self.0.wrapping_mul(6_364_136_223_846_793_005).wrapping_add(1_442_695_040_888_963_407);
        (self.0 >> 33) as u32 % most
    }
}

/// Lines with a setup first, mostly good.
fn some_lines(numbers: &mut Numbers, count: usize) -> Vec<String> {
    let (depots, shelves) = (2 + numbers.below(3), 1 + numbers.below(2));
    let begin = format!("S {} {} 5 3 0 1 {}", depots, shelves, numbers.below(depots));
    let mut lines = vec![begin.clone()];
    while lines.len() < count {
        let (depot, shelf, from) = (numbers.below(depots), numbers.below(shelves), numbers.below(depots));
        let (crew, bearing, other) = (numbers.below(3), numbers.below(6), numbers.below(5));
        lines.push(match numbers.below(12) {
            0 | 1 => format!("R {} {}", crew, bearing),
            2 | 3 => format!("W {} {} {} {} {}", crew, bearing, numbers.below(150_000), ONE, FIFTEEN),
            4 | 5 => format!("K {} {}", depot, shelf),
            6 | 7 => format!("T {} {} {}", depot, shelf, from),
            8 | 9 => format!("F {} {}", depot, shelf),
            10 => format!("L {} {} {} {}", crew, bearing, other, other),
            _ if numbers.below(20) == 0 => begin.clone(),
            _ => "K".to_string(),
        });
    }
    lines
}

/// A desk that is killed at any byte of its journal: recovery gives the book after the lines whose records are whole, and a
/// desk that goes on from there answers every line behind them as the one that was not killed.
#[test]
fn a_killed_desk() {
    for seed in 0..40 {
        let mut numbers = Numbers(seed);
        let lines = some_lines(&mut numbers, 60);
        let (mut book, mut journal) = (zeros(), Vec::new());
        let (mut answers, mut ends_at, mut books) = (Vec::new(), Vec::new(), Vec::new());
        let mut plain = zeros();
        for text in &lines {
            let answer = desk_with_journal(&mut book, &mut journal, text.as_bytes());
            assert_eq!(answer, line(&mut plain, text.as_bytes()));
            assert!(book == plain);
            answers.push(answer);
            ends_at.push(journal.len());
            books.push(book.clone());
        }
        for _ in 0..20 {
            let cut = numbers.below(journal.len() as u32 + 1) as usize;
            let (told, mut again) = recovered(&zeros(), &journal[..cut]);
            // The lines that the journal tells of, those refused right behind them too.
            let kept = ends_at.iter().filter(|&&end| end <= cut).count();
            let done = answers[..kept].iter().filter(|answer| answer.starts_with("0")).count();
            let end = if kept == 0 { 0 } else { ends_at[kept - 1] };
            assert_eq!(told, ends(done, end, if cut == end { WHOLE } else { CUT }), "seed {} at {}", seed, cut);
            assert!(again == if kept == 0 { zeros() } else { books[kept - 1].clone() }, "seed {} at {}", seed, cut);

            let mut rest = journal[..told.bytes].to_vec();
            for at in kept..lines.len() {
                assert_eq!(desk_with_journal(&mut again, &mut rest, lines[at].as_bytes()), answers[at], "seed {}", seed);
            }
            assert_eq!(rest, journal, "seed {} at {}", seed, cut);
            assert!(again == book, "seed {} at {}", seed, cut);
        }
    }
}

/// Whatever the bytes are: those that count are the journal of as many done calls as are told, and lead to the same book.
#[test]
fn any_bytes() {
    let (journal, _) = journal(&history());
    let mut numbers = Numbers(7);
    let mut endings = std::collections::BTreeMap::new();
    for _ in 0..3_000 {
        let mut bytes = journal.clone();
        for _ in 0..1 + numbers.below(2) {
            let at = numbers.below(bytes.len() as u32) as usize;
            match numbers.below(4) {
                0 => bytes[at] = numbers.below(256) as u8,
                1 => bytes[at] ^= 1 << numbers.below(8),
                2 => bytes.insert(at, numbers.below(10) as u8),
                _ => {
                    bytes.remove(at);
                }
            }
        }
        let (told, book) = recovered(&zeros(), &bytes);
        assert_eq!(recovered(&zeros(), &bytes[..told.bytes]), (ends(told.records, told.bytes, WHOLE), book));
        assert_eq!(told.ended == WHOLE, told.bytes == bytes.len());
        *endings.entry(told.ended).or_insert(0) += 1;
    }
    for ended in [WHOLE, 2, 4, 5, 11, CUT, BAD_RECORD] {
        assert!(endings.contains_key(&ended), "{:?}", endings);
    }
    let known: Vec<u32> = (0..=16).filter(|&number| number != Refusal::BadLine as u32).chain([CUT, BAD_RECORD]).collect();
    assert!(endings.keys().all(|ended| known.contains(ended)), "{:?}", endings);
}
