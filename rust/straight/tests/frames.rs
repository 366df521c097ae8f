//! Frames for the radio link: the worked frames and answers of `docs/FRAMES.md`, every refusal and the order, damage, and
//! streams of frames.

use straight::layout::*;
use straight::{frame_read, frame_write, is_card, setup, take, tick, write, Refusal, WORDS};
use straight::{BAD_COUNT, BAD_FRAME, GAP, LONGEST_FRAME, MOST_MESSAGES, NO_ROOM, OLD};

/// The bits of 1 and of 2,000 millimetres.
const ONE: u32 = 1_065_353_216;
const MOST: u32 = 1_157_234_688;

const BAD_BOOK: u32 = Refusal::BadBook as u32;
const BAD_DEPOT: u32 = Refusal::BadDepot as u32;
const BAD_SHELF: u32 = Refusal::BadShelf as u32;
const SAME_DEPOT: u32 = Refusal::SameDepot as u32;
const EMPTY_LINK: u32 = Refusal::EmptyLink as u32;

const FIRST: &str = "51 01 02 01 06 00 02 01 00 00 00";
const SECOND: &str = "41 01 00 00 06 00 01 00 14 00 00 00 00 00 80 3F 00 00 80 3F 01 00 00 00 00 00 00 00";
const THIRD: &str = "41 02 FF FF 08 00 1E 00 01 00 14 00 00 00 00 00 80 3F 00 00 80 3F 01 00 00 00 00 00 00 00 02 02 00 00 00";
const FOURTH: &str = "FC 02 01 00 08 00 0D 00 02 05 00 00 00 02 FF FF FF 7F";

fn hex(text: &str) -> Vec<u8> {
    text.split(' ').map(|byte| u8::from_str_radix(byte, 16).unwrap()).collect()
}

/// The worked register: `S 2 2 4 2 0 1`.
fn fresh() -> Vec<u32> {
    let mut book = vec![0; WORDS];
    setup(&mut book, 2, 2, 4, 2, &[0, 1]).unwrap();
    book
}

/// Four depots of four shelves, and as many bearings as there can be.
fn large() -> Vec<u32> {
    let mut book = vec![0; WORDS];
    setup(&mut book, 4, 4, 160, 1, &[0]).unwrap();
    book
}

/// The worked register after crew 0 wrote bearing 0 := 20, and a tick of that shelf.
fn worked() -> Vec<u32> {
    let mut book = fresh();
    write(&mut book, 0, 0, 20, ONE, ONE).unwrap();
    tick(&mut book, 0, 0).unwrap();
    book
}

fn heartbeat(stamp: u32) -> [u32; SLOT] {
    [HEARTBEAT, stamp, 0, 0, 0, 0, 0, 0, 0, 0]
}

fn copy(bearing: u32, value: u32, card: [u32; 2], origin: u32, vector: [u32; 4]) -> [u32; SLOT] {
    let [x0, x1, x2, x3] = vector;
    [COPY, bearing, value, card[0], card[1], origin, x0, x1, x2, x3]
}

/// Puts these messages on a link, the first ones taken.
fn lay(book: &mut [u32], link: usize, taken_now: usize, messages: &[[u32; SLOT]]) {
    book[held(link)] = messages.len() as u32;
    book[taken(link)] = taken_now as u32;
    for (place, message) in messages.iter().enumerate() {
        book[slot(link, place)..][..SLOT].copy_from_slice(message);
    }
}

/// Writes a frame to a buffer of any room, and looks that nothing is written but the frame.
fn writes_to(room: usize, book: &[u32], link: [u32; 3], count: u32, serial: u16) -> Result<Vec<u8>, u32> {
    let [depot, shelf, from] = link;
    let before: Vec<u8> = (0..room).map(|at| 0xA0 ^ at as u8).collect();
    let mut out = before.clone();
    let answer = frame_write(book, depot, shelf, from, count, serial, &mut out);
    let length = answer.unwrap_or(0);
    assert_eq!(out[length..], before[length..], "past the frame, and on a refusal, every byte stays");
    answer.map(|length| out[..length].to_vec())
}

fn writes(book: &[u32], link: [u32; 3], count: u32, serial: u16) -> Result<Vec<u8>, u32> {
    writes_to(LONGEST_FRAME + 3, book, link, count, serial)
}

/// Reads a frame to a buffer of any room, and looks that nothing is written but the messages.
fn reads_to(room: usize, book: &[u32], link: [u32; 3], expected: u16, frame: &[u8]) -> Result<Vec<[u32; SLOT]>, u32> {
    let [depot, shelf, from] = link;
    let before: Vec<u32> = (0..room).map(|at| 0xA0A0_A0A0 ^ at as u32).collect();
    let mut out = before.clone();
    let answer = frame_read(book, depot, shelf, from, expected, frame, &mut out);
    let length = SLOT * answer.unwrap_or(0);
    assert_eq!(out[length..], before[length..], "past the messages, and on a refusal, every word stays");
    answer.map(|_| out[..length].chunks(SLOT).map(|message| message.try_into().unwrap()).collect())
}

fn reads(book: &[u32], link: [u32; 3], expected: u16, frame: &[u8]) -> Result<Vec<[u32; SLOT]>, u32> {
    reads_to(SLOT * MOST_MESSAGES + 3, book, link, expected, frame)
}

fn serial(frame: &[u8]) -> u16 {
    u16::from_le_bytes([frame[2], frame[3]])
}

#[test]
fn the_worked_frames() {
    let mut book = fresh();
    tick(&mut book, 0, 1).unwrap();
    assert_eq!(writes(&book, [1, 1, 0], 1, 258), Ok(hex(FIRST)));
    assert_eq!(reads(&book, [1, 1, 0], 258, &hex(FIRST)), Ok(vec![heartbeat(1)]));

    let book = worked();
    let twenty = copy(0, 20, [ONE, ONE], 0, [1, 0, 0, 0]);
    assert_eq!(writes(&book, [1, 0, 0], 1, 0), Ok(hex(SECOND)));
    assert_eq!(writes(&book, [1, 0, 0], 2, 65_535), Ok(hex(THIRD)));
    assert_eq!(reads(&fresh(), [1, 0, 0], 0, &hex(SECOND)), Ok(vec![twenty]));
    assert_eq!(reads(&fresh(), [1, 0, 0], 65_535, &hex(THIRD)), Ok(vec![twenty, heartbeat(2)]));

    let mut book = large();
    lay(&mut book, link(3, 3, 0), 0, &[heartbeat(5), heartbeat(END)]);
    assert_eq!(writes(&book, [0, 3, 3], 2, 1), Ok(hex(FOURTH)));
    assert_eq!(reads(&large(), [0, 3, 3], 1, &hex(FOURTH)), Ok(vec![heartbeat(5), heartbeat(END)]));
}

#[test]
fn the_worked_answers() {
    let book = fresh();
    let (second, third) = (hex(SECOND), hex(THIRD));
    let answers = |frame: &[u8], expected| reads(&book, [1, 0, 0], expected, frame).map(|messages| messages.len());
    assert_eq!(answers(&second, 0), Ok(1));
    assert_eq!(answers(&second, 1), Err(OLD));
    assert_eq!(answers(&second, 32_767), Err(OLD));
    assert_eq!(answers(&second, 32_768), Err(GAP));
    assert_eq!(answers(&second, 65_535), Err(GAP));
    assert_eq!(answers(&third, 65_535), Ok(2));
    assert_eq!(answers(&third, 0), Err(OLD));

    let changed = |at: usize, byte| {
        let mut frame = hex(SECOND);
        frame[at] = byte;
        frame
    };
    let bad = [
        ([&second[..], &[0]].concat(), "a byte more"),
        (second[..second.len() - 1].to_vec(), "without its last byte"),
        (changed(4, 7), "an offset that is not where the message begins"),
        (changed(7, 1), "bearing 1 lies on shelf 1"),
        (changed(20, 0), "a stamp of 0"),
        (hex(FIRST), "of another link"),
        (Vec::new(), "no bytes"),
    ];
    for (frame, why) in bad {
        for expected in [0, 1, 258, 32_767, 32_768, 65_535] {
            assert_eq!(answers(&frame, expected), Err(BAD_FRAME), "{}", why);
        }
    }
    assert_eq!([NO_ROOM, BAD_COUNT, BAD_FRAME, OLD, GAP], [100, 101, 102, 103, 104]);
}

/// Every distance of the serials.
#[test]
fn distances() {
    let book = fresh();
    for of in [0_u16, 1, 258, 32_767, 32_768, 65_535] {
        let mut frame = hex(SECOND);
        frame[2..4].copy_from_slice(&of.to_le_bytes());
        for expected in 0..=65_535_u16 {
            let behind = (i64::from(expected) - i64::from(of)).rem_euclid(65_536);
            let answer = match behind {
                0 => Ok(1),
                1..=32_767 => Err(OLD),
                _ => Err(GAP),
            };
            assert_eq!(frame_read(&book, 1, 0, 0, expected, &frame, &mut [0; SLOT]), answer, "{} and {}", expected, of);
        }
    }
}

#[test]
fn lengths() {
    for depots in 2..=4 {
        let mut book = large();
        book[0] = depots;
        let message = copy(158, u32::MAX, [MOST, 1], 1, [END, 1, END, END]);
        lay(&mut book, link(2, 1, 0), 0, &[message; MOST_MESSAGES]);
        for count in 1..=16 {
            let frame = writes(&book, [0, 2, 1], count, 77).unwrap();
            assert_eq!(frame.len() as u32, 4 + (2 + 14 + 4 * depots) * count);
            let mut sent = message;
            sent[6 + depots as usize..].fill(0);
            assert_eq!(reads(&book, [0, 2, 1], 77, &frame), Ok(vec![sent; count as usize]), "entries past D are not sent");
        }
        let frame = writes(&book, [0, 2, 1], 16, 77).unwrap();
        assert_eq!(frame.len(), [388, 452, 516][depots as usize - 2]);
        lay(&mut book, link(2, 1, 0), 0, &[heartbeat(0)]);
        assert_eq!(writes(&book, [0, 2, 1], 1, 77).unwrap().len(), 11);
    }
    assert_eq!(LONGEST_FRAME, 516);
}

/// The two refuse in the order of the page: each row breaks one thing more than the next.
#[test]
fn the_order_of_the_writer() {
    let good = worked();
    let link = link(0, 0, 1);
    let mut bad = good.clone();
    bad[2] = 161;
    assert_eq!(writes_to(0, &bad, [2, 2, 2], 0, 0), Err(BAD_BOOK), "before every other");
    assert_eq!(writes_to(0, &good, [2, 2, 2], 0, 0), Err(BAD_DEPOT));
    assert_eq!(writes_to(0, &good, [2, 2, 0], 0, 0), Err(BAD_DEPOT));
    assert_eq!(writes_to(0, &good, [0, 2, 2], 0, 0), Err(BAD_DEPOT));
    assert_eq!(writes_to(0, &good, [0, 2, 0], 0, 0), Err(BAD_SHELF));
    assert_eq!(writes_to(0, &good, [0, 1, 0], 0, 0), Err(SAME_DEPOT));
    for count in [0, 1, 17] {
        assert_eq!(writes_to(0, &good, [1, 1, 0], count, 0), Err(EMPTY_LINK), "before the count");
    }
    for count in [0, 3, 16, 17, 256, 257, 65_537, u32::MAX] {
        assert_eq!(writes_to(0, &good, [1, 0, 0], count, 0), Err(BAD_COUNT), "{} of 2, before the room", count);
    }
    for (count, length) in [(1, 28), (2, 35)] {
        for room in 0..length {
            assert_eq!(writes_to(room, &good, [1, 0, 0], count, 0), Err(NO_ROOM), "{} bytes", room);
        }
        assert_eq!(writes_to(length, &good, [1, 0, 0], count, 0).unwrap().len(), length);
    }

    // An unfit link is BAD BOOK where the numbers name it, and nothing where they name none.
    let mut bad = good;
    bad[slot(link, 0)] = 3;
    assert_eq!(writes_to(0, &bad, [1, 0, 0], 0, 0), Err(BAD_BOOK), "before the count");
    assert_eq!(writes_to(0, &bad, [2, 0, 0], 0, 0), Err(BAD_DEPOT));
    assert_eq!(writes_to(0, &bad, [1, 0, 2], 0, 0), Err(BAD_DEPOT));
    assert_eq!(writes_to(0, &bad, [1, 2, 0], 0, 0), Err(BAD_SHELF));
    assert_eq!(writes_to(0, &bad, [1, 0, 1], 0, 0), Err(SAME_DEPOT));
    assert_eq!(writes_to(0, &bad, [0, 0, 1], 0, 0), Err(EMPTY_LINK), "another link");
}

#[test]
fn the_order_of_the_reader() {
    let good = fresh();
    let second = hex(SECOND);
    let mut bad = good.clone();
    bad[4] = 2;
    assert_eq!(reads_to(0, &bad, [2, 2, 2], 1, &[]), Err(BAD_BOOK), "before every other");
    assert_eq!(reads_to(0, &good, [2, 2, 2], 1, &[]), Err(BAD_DEPOT));
    assert_eq!(reads_to(0, &good, [2, 2, 0], 1, &[]), Err(BAD_DEPOT));
    assert_eq!(reads_to(0, &good, [0, 2, 2], 1, &[]), Err(BAD_DEPOT));
    assert_eq!(reads_to(0, &good, [0, 2, 0], 1, &[]), Err(BAD_SHELF));
    assert_eq!(reads_to(0, &good, [0, 1, 0], 1, &[]), Err(SAME_DEPOT));
    assert_eq!(reads_to(0, &good, [1, 0, 0], 1, &second[1..]), Err(BAD_FRAME), "before the serial");
    assert_eq!(reads_to(0, &good, [1, 0, 0], 1, &second), Err(OLD), "before the room");
    assert_eq!(reads_to(0, &good, [1, 0, 0], 65_535, &second), Err(GAP), "before the room");
    for (frame, words) in [(&second, SLOT), (&hex(THIRD), 2 * SLOT)] {
        for room in 0..words {
            assert_eq!(reads_to(room, &good, [1, 0, 0], serial(frame), frame), Err(NO_ROOM), "{} words", room);
        }
        assert!(reads_to(words, &good, [1, 0, 0], serial(frame), frame).is_ok());
    }
}

/// What the writer looks at: the length, the counts, the homes, the head of the link and its untaken messages.
#[test]
fn the_parts_of_the_writer() {
    let link = link(0, 0, 1);
    let twenty = copy(0, 20, [ONE, ONE], 0, [1, 0, 0, 0]);
    let mut good = fresh();
    lay(&mut good, link, 2, &[twenty, twenty, twenty, heartbeat(2)]);
    assert_eq!(writes(&good, [1, 0, 0], 2, 65_535), Ok(hex(THIRD)), "taken copies are not sent again");
    for count in [3, 4] {
        assert_eq!(writes(&good, [1, 0, 0], count, 0), Err(BAD_COUNT), "nor do they count: {} of 2", count);
    }

    // Words that are looked at, each with a value that is not fit; the last message too, if it is not sent.
    let copy_at = slot(link, 2);
    let unfit = [
        (0, 0),
        (0, 5),
        (1, 0),
        (1, 5),
        (2, 0),
        (2, 161),
        (3, 0),
        (3, 17),
        (home(0), 2),
        (home(1), 2),
        (held(link), 17),
        (held(link), 1),
        (held(link), u32::MAX),
        (taken(link), 5),
        (copy_at, 0),
        (copy_at, 3),
        (copy_at, 257),
        (copy_at + 1, 1),
        (copy_at + 1, 4),
        (copy_at + 1, 256),
        (copy_at + 3, 0),
        (copy_at + 4, MOST + 1),
        (copy_at + 5, 1),
        (copy_at + 6, 0),
        (copy_at + 6, END + 1),
        (copy_at + 7, END + 1),
        (slot(link, 3), 0),
        (slot(link, 3) + 1, END + 1),
    ];
    for (at, value) in unfit {
        let mut book = good.clone();
        book[at] = value;
        assert_eq!(writes(&book, [1, 0, 0], 1, 0), Err(BAD_BOOK), "word {} is {}", at, value);
    }
    for length in [0, 1, WORDS - 1, WORDS + 1] {
        let mut book = good.clone();
        book.resize(length, 0);
        assert_eq!(writes(&book, [1, 0, 0], 1, 0), Err(BAD_BOOK), "{} words", length);
    }

    // Everything else may hold anything: the taken copies, and of a message the words that mean nothing.
    let looked_at = |at: usize| {
        at < 6
            || at == held(link)
            || at == taken(link)
            || (copy_at..copy_at + 8).contains(&at)
            || (slot(link, 3)..slot(link, 3) + 2).contains(&at)
    };
    let mut book = good;
    for at in (0..WORDS).filter(|&at| !looked_at(at)) {
        book[at] = u32::MAX - at as u32;
    }
    assert_eq!(writes(&book, [1, 0, 0], 2, 65_535), Ok(hex(THIRD)));
}

/// What the reader looks at: the length, the counts and the homes.
#[test]
fn the_parts_of_the_reader() {
    let good = fresh();
    for (at, value) in [(0, 0), (0, 5), (1, 0), (1, 5), (2, 0), (2, 161), (3, 0), (3, 17), (4, 2), (5, 2)] {
        let mut book = good.clone();
        book[at] = value;
        assert_eq!(reads(&book, [1, 0, 0], 65_535, &hex(THIRD)), Err(BAD_BOOK), "word {} is {}", at, value);
    }
    for length in [0, 1, WORDS - 1, WORDS + 1] {
        let mut book = good.clone();
        book.resize(length, 0);
        assert_eq!(reads(&book, [1, 0, 0], 65_535, &hex(THIRD)), Err(BAD_BOOK), "{} words", length);
    }
    let mut book = good;
    book[6..].fill(u32::MAX);
    assert_eq!(reads(&book, [1, 0, 0], 65_535, &hex(THIRD)).map(|messages| messages.len()), Ok(2));

    // What it needs of the register: the depots, the shelves and the bearings.
    for (at, value) in [(0, 3), (1, 1), (1, 4), (2, 1), (2, 160)] {
        let mut book = fresh();
        book[at] = value;
        let answer = reads(&book, [1, 0, 0], 65_535, &hex(THIRD));
        assert_eq!(answer.is_ok(), at != 0, "word {} is {}: {:?}", at, value, answer);
    }
}

/// Each fact of a message, at its edges.
#[test]
fn messages_at_their_edges() {
    let book = large();
    let link = [2, 1, 3];
    let frame_of = |kind: u8, bearing: u8, words: &[u32]| {
        let mut frame = vec![64 * 3 + 16 + 4 * 3 + 2, 1, 9, 0, 6, 0, kind];
        if kind != 2 {
            frame.push(bearing);
        }
        words.iter().for_each(|word| frame.extend(word.to_le_bytes()));
        frame
    };
    let is_good = |frame: &[u8]| match reads(&book, link, 9, frame) {
        Ok(messages) => messages.len() == 1,
        Err(number) => {
            assert_eq!(number, BAD_FRAME);
            false
        }
    };
    for bearing in 0..=255 {
        let good = bearing < 160 && bearing % 4 == 1;
        assert_eq!(is_good(&frame_of(1, bearing, &[7, ONE, ONE, 0, 0, 0, 1])), good, "bearing {}", bearing);
    }
    for kind in 0..=255 {
        assert_eq!(is_good(&frame_of(kind, 1, &[7, ONE, ONE, 0, 0, 0, 1])), kind == 1, "kind {} as a copy", kind);
        let mut beat = frame_of(2, 0, &[7]);
        beat[6] = kind;
        assert_eq!(is_good(&beat), kind == 2, "kind {} as a heartbeat", kind);
    }
    for bits in [0, 1, ONE, MOST, MOST + 1, 0x7F80_0000, 0x7FC0_0000, 0x8000_0001, u32::MAX] {
        let good = (1..=MOST).contains(&bits);
        assert_eq!(good, is_card(bits, bits));
        assert_eq!(is_good(&frame_of(1, 1, &[7, bits, ONE, 0, 0, 0, 1])), good, "diameter {:x}", bits);
        assert_eq!(is_good(&frame_of(1, 1, &[7, ONE, bits, 0, 0, 0, 1])), good, "width {:x}", bits);
    }
    for edge in [0, 1, END - 1, END, END + 1, u32::MAX] {
        assert!(is_good(&frame_of(1, 1, &[edge, ONE, ONE, 0, 0, 0, 1])), "any value");
        assert_eq!(is_good(&frame_of(2, 0, &[edge])), edge <= END, "stamp {}", edge);
        for x in 0..4 {
            let mut words = [7, ONE, ONE, 0, 0, 0, 1];
            words[3 + x] = edge;
            assert_eq!(is_good(&frame_of(1, 1, &words)), edge <= END && (x != 3 || edge > 0), "entry {} is {}", x, edge);
        }
    }
}

/// No message and seventeen are no frame, whatever the bytes are.
#[test]
fn how_many_messages() {
    let book = large();
    for count in 0..=255_usize {
        let mut frame = vec![192 + 4, count as u8, 9, 0];
        for at in 0..count {
            frame.extend((4 + 2 * count as u16 + 5 * at as u16).to_le_bytes());
        }
        for at in 0..count {
            frame.push(2);
            frame.extend((at as u32).to_le_bytes());
        }
        let answer = frame_read(&book, 0, 0, 1, 9, &frame, &mut [0; 3_000]);
        assert_eq!(answer, if (1..=16).contains(&count) { Ok(count) } else { Err(BAD_FRAME) });
    }
}

/// Byte 0 is for one link of one number of depots alone.
#[test]
fn for_whom() {
    for depots in 2..=4 {
        let mut book = large();
        book[0] = depots;
        for (shelf, from, to) in (0..64).map(|any| (any / 16, any / 4 % 4, any % 4)) {
            let sound = from < depots && to < depots && from != to;
            let good: Vec<u8> = (0..=255)
                .filter(|&whom| {
                    let mut frame = hex(FIRST);
                    frame[0] = whom;
                    reads(&book, [to, shelf, from], 258, &frame).is_ok()
                })
                .collect();
            let whom = 64 * (depots - 1) + 16 * shelf + 4 * from + to;
            assert_eq!(good, if sound { vec![whom as u8] } else { vec![] });
        }
    }
}

/// Some links, and all their messages in one frame with serial 300: the book, the link and the frame.
fn samples() -> Vec<(Vec<u32>, [u32; 3], Vec<u8>)> {
    let twenty = copy(0, 20, [ONE, MOST], 0, [1, 0, 0, 0]);
    let mut samples = Vec::new();
    for messages in [
        vec![heartbeat(0)],
        vec![twenty],
        vec![twenty, heartbeat(2)],
        vec![heartbeat(END), twenty, heartbeat(7), copy(2, u32::MAX, [1, 1], 0, [END, END, 0, 0])],
    ] {
        let mut book = fresh();
        lay(&mut book, link(0, 0, 1), 0, &messages);
        samples.push((book, [1, 0, 0], messages.len()));
    }
    let mut book = large();
    let messages: Vec<_> = (0..16_u32)
        .map(|at| if at % 3 == 0 { heartbeat(at) } else { copy(3 + 4 * at, at << 9, [ONE, 1 + at], 2, [at, 0, 1 + at, END]) })
        .collect();
    lay(&mut book, link(3, 2, 0), 0, &messages);
    samples.push((book, [0, 3, 2], 16));
    samples
        .into_iter()
        .map(|(book, link, count)| {
            let frame = writes(&book, link, count as u32, 300).unwrap();
            (book, link, frame)
        })
        .collect()
}

/// Reads bytes as a frame. If they are one, then they are the only one for its messages and its serial: a link with these
/// messages makes the same bytes again.
fn is_frame(book: &[u32], [to, shelf, from]: [u32; 3], frame: &[u8]) -> bool {
    let expected = if frame.len() < 4 { 0 } else { serial(frame) };
    match reads(book, [to, shelf, from], expected, frame) {
        Err(number) => {
            assert_eq!(number, BAD_FRAME);
            false
        }
        Ok(messages) => {
            let mut again = book.to_vec();
            lay(&mut again, link(shelf as usize, from as usize, to as usize), 0, &messages);
            assert_eq!(writes(&again, [to, shelf, from], messages.len() as u32, expected).as_deref(), Ok(frame));
            true
        }
    }
}

#[test]
fn every_changed_byte() {
    for (book, link, frame) in samples() {
        assert!(is_frame(&book, link, &frame));
        let (mut others, mut refused) = (0, 0);
        for at in 0..frame.len() {
            for byte in (0..=255).filter(|&byte| byte != frame[at]) {
                let mut changed = frame.clone();
                changed[at] = byte;
                match is_frame(&book, link, &changed) {
                    true => others += 1,
                    false => refused += 1,
                }
                // With the serial of the frame expected, a changed serial is OLD or GAP.
                let answer = reads(&book, link, 300, &changed);
                if at == 2 || at == 3 {
                    assert!(answer == Err(OLD) || answer == Err(GAP));
                } else {
                    assert!(answer == Err(BAD_FRAME) || answer.is_ok());
                }
            }
        }
        assert!(others > 0 && refused > 0);
        for at in (0..2).chain(4..4 + 2 * frame[1] as usize) {
            let mut changed = frame.clone();
            changed[at] ^= 1;
            assert!(!is_frame(&book, link, &changed), "for whom, how many, where: none of these can be another");
        }
    }
}

#[test]
fn every_cut() {
    for (book, link, frame) in samples() {
        for length in 0..frame.len() {
            assert_eq!(reads(&book, link, 300, &frame[..length]), Err(BAD_FRAME), "{} bytes of {}", length, frame.len());
        }
        for first in 1..=frame.len() {
            assert_eq!(reads(&book, link, 300, &frame[first..]), Err(BAD_FRAME), "without the first {}", first);
        }
        for at in 0..frame.len() {
            let without = [&frame[..at], &frame[at + 1..]].concat();
            assert_eq!(reads(&book, link, 300, &without), Err(BAD_FRAME), "without byte {}", at);
            for byte in [0, 1, 2, frame[at], 255] {
                let more = [&frame[..at], &[byte], &frame[at..]].concat();
                assert_eq!(reads(&book, link, 300, &more), Err(BAD_FRAME), "{} before byte {}", byte, at);
            }
        }
    }
}

/// Two messages whose offsets and bytes are exchanged together: what stands at the offsets are messages, and yet no frame.
#[test]
fn messages_out_of_order() {
    let book = fresh();
    let frame = hex("41 02 09 00 0D 00 08 00 02 05 00 00 00 02 06 00 00 00");
    assert_eq!(reads(&book, [1, 0, 0], 9, &frame), Err(BAD_FRAME));
    let frame = hex("41 02 09 00 08 00 08 00 02 05 00 00 00");
    assert_eq!(reads(&book, [1, 0, 0], 9, &frame), Err(BAD_FRAME), "one message twice");
    let frame = hex("41 02 09 00 08 00 0E 00 02 05 00 00 00 00 02 06 00 00 00");
    assert_eq!(reads(&book, [1, 0, 0], 9, &frame), Err(BAD_FRAME), "a byte between two");
    let frame = hex("41 02 09 00 08 00 0D 00 02 05 00 00 00 02 06 00 00 00");
    assert_eq!(reads(&book, [1, 0, 0], 9, &frame), Ok(vec![heartbeat(5), heartbeat(6)]));
}

/// Random numbers for the streams.
struct Random(u64);

impl Random {
    fn below(&mut self, count: usize) -> usize {
        self.0 = self.0.wrapping_mul(6_364_136_223_846_793_005).wrapping_add(1_442_695_040_888_963_407);
        ((self.0 >> 33) % count as u64) as usize
    }
}

/// What the far box keeps: the serial that it expects, and what it was handed.
struct Far {
    book: Vec<u32>,
    expected: u16,
    done: usize,
    messages: Vec<[u32; SLOT]>,
}

impl Far {
    fn hear(&mut self, frame: &[u8]) -> Result<usize, u32> {
        let messages = reads(&self.book, [1, 0, 0], self.expected, frame)?;
        self.expected = self.expected.wrapping_add(1);
        self.done += 1;
        self.messages.extend(&messages);
        Ok(messages.len())
    }
}

/// Frames of one link, in the order of their serials from the first one on, and the messages of each. The near box ticks and
/// writes, and lets go of what it has sent by takes.
fn sent(first: u16, count: usize, random: &mut Random) -> (Vec<Vec<u8>>, Vec<Vec<[u32; SLOT]>>) {
    let mut book = fresh();
    let link = link(0, 0, 1);
    let (mut frames, mut messages) = (Vec::new(), Vec::new());
    for at in 0..count {
        let untaken = |book: &[u32]| (book[held(link)] - book[taken(link)]) as usize;
        while untaken(&book) == 0 || (book[held(link)] < 16 && random.below(3) > 0) {
            if random.below(2) == 0 {
                tick(&mut book, 0, 0).unwrap();
            } else {
                write(&mut book, 0, 2 * random.below(2) as u32, at as u32, ONE, ONE).unwrap();
            }
        }
        let some = 1 + random.below(untaken(&book));
        let first_slot = slot(link, book[taken(link)] as usize);
        messages.push(book[first_slot..][..SLOT * some].chunks(SLOT).map(|message| message.try_into().unwrap()).collect());
        frames.push(writes(&book, [1, 0, 0], some as u32, first.wrapping_add(at as u16)).unwrap());
        for _ in 0..some {
            take(&mut book, 1, 0, 0).unwrap();
            // A few taken copies stay, in front of what is sent next; the oldest goes, as if it were shown.
            if book[taken(link)] > 3 {
                let (from, to) = (slot(link, 1), slot(link, book[held(link)] as usize));
                book.copy_within(from..to, slot(link, 0));
                book[held(link)] -= 1;
                book[taken(link)] -= 1;
            }
        }
    }
    (frames, messages)
}

/// Frames lost, repeated and shuffled, none over 32,767 from the one expected: what is handed out are the messages of a first
/// stretch of the frames sent, in order and once each.
#[test]
fn streams_around_the_wrap() {
    for (seed, first) in [(1, 65_500_u16), (2, 32_700), (3, 0), (4, 65_535)] {
        let random = &mut Random(seed);
        let (frames, messages) = sent(first, 70_000, random);
        let mut far = Far { book: fresh(), expected: first, done: 0, messages: Vec::new() };
        let mut answers = [0; 3];
        for _ in 0..140_000 {
            let lowest = far.done.saturating_sub(32_767);
            let highest = (far.done + 32_767).min(frames.len() - 1);
            let at = match random.below(10) {
                0 => lowest,
                1 => highest,
                2 => lowest + random.below(highest - lowest + 1),
                3 => (far.done + random.below(20)).saturating_sub(10).min(highest),
                _ => far.done.min(highest),
            };
            let answer = far.hear(&frames[at]);
            let (which, right) = match answer {
                Ok(count) => (0, at + 1 == far.done && count == messages[at].len()),
                Err(OLD) => (1, at < far.done),
                Err(GAP) => (2, at > far.done),
                Err(_) => (0, false),
            };
            assert!(right, "frame {} heard, {} done: {:?}", at, far.done, answer);
            answers[which] += 1;
        }
        assert_eq!(far.messages, messages[..far.done].concat(), "a first stretch, in order and once each");
        assert!(far.done == frames.len() && answers.iter().all(|&count| count > 10_000), "{} done, {:?}", far.done, answers);
    }
}

/// A frame that never comes ends the stretch there; farther than 32,767 from the one expected nothing is promised.
#[test]
fn a_lost_frame() {
    let (frames, messages) = sent(65_000, 40_000, &mut Random(9));
    let mut far = Far { book: fresh(), expected: 65_000, done: 0, messages: Vec::new() };
    for frame in &frames[..700] {
        far.hear(frame).unwrap();
    }
    for at in 701..=700 + 32_767 {
        assert_eq!(far.hear(&frames[at]), Err(GAP));
        assert_eq!(far.hear(&frames[at % 700]), Err(OLD));
    }
    assert_eq!(far.messages, messages[..700].concat());
    assert_eq!(far.hear(&frames[700]), Ok(messages[700].len()));
    assert_eq!(far.hear(&frames[700]), Err(OLD));
}
