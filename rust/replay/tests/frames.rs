//! The library and the straight version write and read frames alike: random links, damaged books and frames, every changed byte and
//! every cut of a frame, and long streams over a bad radio. Every buffer that the library is lent, the book too, lies between two
//! pages that nobody may touch, once flush with the first and once with the last byte.
#![cfg(feature = "library")]

use depot_register::raw;
use replay::frames::cases::{any_link, any_serial, lay_book, lay_link};
use replay::frames::{cases, streams, Frames, Link, Pair, Straight, Tally, MARKS, READER, WRITER};
use replay::random::Random;
use straight::layout::Counts;
use straight::{BAD_FRAME, LONGEST_FRAME, MOST_MESSAGES, NO_ROOM};

mod guarded;

use guarded::Guarded;

/// The library, with every buffer flush with the page before it, or behind it.
struct Library {
    behind: bool,
}

/// What stands in the word for what is told before a call.
const UNTOLD: u32 = 0xDEAD_BEEF;

impl Library {
    fn words(&self, words: &[u32]) -> Guarded {
        guarded::words(words, self.behind)
    }

    fn bytes(&self, bytes: &[u8]) -> Guarded {
        guarded::bytes(bytes, self.behind)
    }
}

fn answer(number: u32, told: u32) -> Result<usize, u32> {
    if number == 0 {
        return Ok(told as usize);
    }
    assert_eq!(told, UNTOLD, "a refusal tells nothing");
    Err(number)
}

impl Frames for Library {
    fn write(&self, book: &[u32], link: Link, count: u32, serial: u16, out: &mut [u8]) -> Result<usize, u32> {
        let (mut lent, mut frame, mut told) = (self.words(book), self.bytes(out), self.words(&[UNTOLD]));
        let number =
            raw::write_frame(lent.words(), link.depot, link.shelf, link.from, count, serial, frame.bytes(), told.words());
        assert_eq!(lent.words(), book);
        out.copy_from_slice(frame.bytes());
        answer(number, told.words()[0])
    }

    fn read(&self, book: &[u32], link: Link, expected: u16, frame: &[u8], out: &mut [u32]) -> Result<usize, u32> {
        let (mut lent, mut sent, mut handed, mut told) =
            (self.words(book), self.bytes(frame), self.words(out), self.words(&[UNTOLD]));
        let number =
            raw::read_frame(lent.words(), link.depot, link.shelf, link.from, expected, sent.bytes(), handed.words(), told.words());
        assert_eq!(lent.words(), book);
        assert_eq!(sent.bytes(), frame);
        out.copy_from_slice(handed.words());
        answer(number, told.words()[0])
    }
}

/// The seeds of the random links.
const SEEDS: u64 = 3_000;

#[test]
fn random_links() {
    let mut tally = Tally::default();
    for seed in 1..=SEEDS {
        if let Err(difference) = cases::replay(&Straight, &Library { behind: seed % 2 == 0 }, seed, &mut tally) {
            panic!("{}", difference);
        }
    }
    println!("{}", tally);
    for number in WRITER {
        assert!(tally.of("write", number) > 100, "the writer answers {}", number);
    }
    for number in READER {
        assert!(tally.of("read", number) > 100, "the reader answers {}", number);
    }
    for mark in MARKS {
        assert!(tally.of(mark, 0) > 100, "{}", mark);
    }
}

#[test]
fn long_streams() {
    for (seed, behind) in [(1, false), (2, true)] {
        match streams::replay(&Straight, &Library { behind }, seed, 200_000, &mut Tally::default()) {
            Err(streams::Trouble::Differ(difference)) => panic!("{}", difference),
            Err(streams::Trouble::Order(text)) => panic!("seed {}: {}", seed, text),
            Ok(heard) => {
                println!("seed {}: {:?}", seed, heard);
                assert!(heard.wraps >= 3 && heard.old > 10_000 && heard.gaps > 10_000 && heard.cut > 1_000);
            }
        }
    }
}

/// Every single byte of a frame changed to every other, and every cut of it: refused, or read as another frame, by both alike.
#[test]
fn every_change_and_every_cut() {
    let (mut changed, mut read) = (0, 0);
    for seed in 1..=6 {
        let random = &mut Random::new(seed);
        let mut book = lay_book(random);
        book[0] = book[0].max(2);
        (0..book[3] as usize).for_each(|crew| book[straight::layout::home(crew)] %= book[0]);
        let link = any_link(random, Counts::of(&book));
        lay_link(random, &mut book, link);
        let library = Library { behind: seed % 2 == 0 };
        let pair = Pair::new(seed, &Straight, &library, book);
        let serial = any_serial(random);
        let written = |count| pair.write(link, count, serial, LONGEST_FRAME).unwrap_or_else(|difference| panic!("{}", difference));
        let Some(frame) = (1..=3).rev().find_map(|count| written(count).ok()) else { continue };
        let mut bytes = frame.clone();
        for at in 0..frame.len() {
            for other in 0..=255 {
                bytes[at] = other;
                let heard = pair.read(link, serial, &bytes, 10 * MOST_MESSAGES).unwrap_or_else(|difference| panic!("{}", difference));
                changed += 1;
                read += u32::from(heard.is_ok() && other != frame[at]);
            }
            bytes[at] = frame[at];
            let cut = pair.read(link, serial, &frame[..at], 10 * MOST_MESSAGES).unwrap_or_else(|difference| panic!("{}", difference));
            assert_eq!(cut, Err(BAD_FRAME), "cut to {} bytes", at);
        }
    }
    println!("{} changes, {} read as another frame", changed, read);
    assert!(changed > 10_000 && read > 1_000);
}

/// Without a word to tell in nothing is done, whatever else is wrong.
#[test]
fn nothing_to_tell_in() {
    let (mut frame, mut words) = ([7; LONGEST_FRAME], [7; 160]);
    assert_eq!(raw::write_frame(&[], 9, 9, 9, 0, 0, &mut frame, &mut []), NO_ROOM);
    assert_eq!(raw::read_frame(&[], 9, 9, 9, 0, &[], &mut words, &mut []), NO_ROOM);
    assert_eq!((frame, words), ([7; LONGEST_FRAME], [7; 160]));
}
