//! The library and the straight version keep a register alike: calls with their records, journals cut at every byte, damaged
//! and in pieces, images with every word changed; and both do as the worked journal of `docs/JOURNAL.md` says. Every buffer that
//! the library is lent, the book too, lies between two pages that nobody may touch, once flush with the first and once with the
//! last byte.
#![cfg(feature = "library")]

use depot_register::raw;
use replay::journal::{self, images, journals, recorded, told, Call, Keeper, Outcome, Straight, Tally};
use replay::journal::{LOAD, RECORDED, RECOVER, SAVE};
use straight::WORDS;

mod guarded;

/// The library, with every buffer flush with the page before it, or behind it.
struct Library {
    behind: bool,
}

impl Keeper for Library {
    fn recorded(&self, book: &mut [u32], kind: u32, numbers: &[u32], record: &mut [u8], out: &mut [u32]) -> u32 {
        let (mut lent, mut asked) = (guarded::words(book, self.behind), guarded::words(numbers, self.behind));
        let (mut bytes, mut told) = (guarded::bytes(record, self.behind), guarded::words(out, self.behind));
        let number = raw::recorded(lent.words(), kind, asked.words(), bytes.bytes(), told.words());
        assert_eq!(asked.words(), numbers);
        book.copy_from_slice(lent.words());
        record.copy_from_slice(bytes.bytes());
        out.copy_from_slice(told.words());
        number
    }

    fn recover(&self, book: &mut [u32], bytes: &[u8], out: &mut [u64]) -> u32 {
        let (mut lent, mut read) = (guarded::words(book, self.behind), guarded::bytes(bytes, self.behind));
        let mut told = guarded::long_words(out, self.behind);
        let number = raw::recover(lent.words(), read.bytes(), told.long_words());
        assert_eq!(read.bytes(), bytes);
        book.copy_from_slice(lent.words());
        out.copy_from_slice(told.long_words());
        number
    }

    fn save_image(&self, book: &[u32], image: &mut [u8]) -> u32 {
        let (mut lent, mut bytes) = (guarded::words(book, self.behind), guarded::bytes(image, self.behind));
        let number = raw::save_image(lent.words(), bytes.bytes());
        assert_eq!(lent.words(), book);
        image.copy_from_slice(bytes.bytes());
        number
    }

    fn load_image(&self, book: &mut [u32], image: &[u8]) -> u32 {
        let (mut lent, mut bytes) = (guarded::words(book, self.behind), guarded::bytes(image, self.behind));
        let number = raw::load_image(lent.words(), bytes.bytes());
        assert_eq!(bytes.bytes(), image);
        book.copy_from_slice(lent.words());
        number
    }
}

/// A library for each seed: the pages before and behind by turns.
fn library(seed: u64) -> Library {
    Library { behind: seed % 2 == 0 }
}

fn all_answers(tally: &Tally, call: &'static str, answers: &[u32]) {
    println!("{}", tally);
    for &number in answers {
        assert!(tally.of(call, number) > 20, "{} answers {}", call, number);
    }
}

#[test]
fn calls_with_their_records() {
    let mut tally = Tally::default();
    for seed in 1..=600 {
        recorded::replay(&Straight, &library(seed), seed, &mut tally).unwrap_or_else(|trouble| panic!("{}", trouble));
    }
    all_answers(&tally, "recorded", &RECORDED);
}

/// Journals of 100 records, some 1,300 bytes each.
#[test]
fn random_journals() {
    let mut tally = Tally::default();
    for seed in 1..=12 {
        journals::replay(&Straight, &library(seed), seed, 100, &mut tally).unwrap_or_else(|trouble| panic!("{}", trouble));
    }
    all_answers(&tally, "recover", &RECOVER);
}

#[test]
fn random_images() {
    let mut tally = Tally::default();
    for seed in 1..=60 {
        images::replay(&Straight, &library(seed), seed, &mut tally).unwrap_or_else(|trouble| panic!("{}", trouble));
    }
    all_answers(&tally, "load", &LOAD);
    all_answers(&tally, "save", &SAVE);
}

/// One word of the book of an image changed, in every place and every way: accepted exactly if the book is fit.
#[test]
fn every_word_of_an_image() {
    let mut tally = Tally::default();
    for seed in 0..images::WAYS as u64 {
        images::every_word(&Straight, &journal::Library, seed, 1, &mut tally).unwrap_or_else(|trouble| panic!("{}", trouble));
    }
    assert_eq!(tally.of("load", 0) + tally.of("load", 1), (images::WAYS * WORDS) as u64);
    assert!(tally.of("load", 0) > 1_000 && tally.of("load", 1) > 1_000);
}

const PAGE: &str = include_str!("../../../docs/JOURNAL.md");

/// The rows of the table of the page that has these columns.
fn rows(columns: &str) -> Vec<Vec<&'static str>> {
    let table = PAGE.split_once(columns).expect("the page has the table").1;
    let rows = table.lines().skip(2).take_while(|line| line.starts_with("| "));
    rows.map(|row| row.trim_matches('|').split(" | ").map(str::trim).collect()).collect()
}

fn hex(text: &str) -> Vec<u8> {
    text.trim_matches('`').split_whitespace().map(|byte| u8::from_str_radix(byte, 16).unwrap()).collect()
}

/// The kind and the numbers that a line asks for.
fn asked(line: &str) -> (u32, Vec<u32>) {
    let mut words = line.trim_matches('`').split(' ');
    let kind = 1 + "SRWKTF".find(words.next().unwrap()).unwrap() as u32;
    (kind, words.map(|number| number.parse().unwrap()).collect())
}

/// The bytes of the worked journal, and the books after its records, by this keeper.
fn worked(keeper: &dyn Keeper) -> (Vec<u8>, Vec<Vec<u32>>) {
    let (mut journal, mut books) = (Vec::new(), vec![vec![0; WORDS]]);
    let table = rows("| line | record | ends at byte |");
    assert_eq!(table.len(), 12);
    for row in table {
        let (kind, numbers) = asked(row[0]);
        let outcome = Call::Recorded { kind, numbers, room: 82, out: 65 }.run(keeper, books.last().unwrap(), WORDS);
        if row[1].starts_with("none") {
            assert_eq!(outcome.number, 8, "{:?}", row);
        } else {
            assert_eq!(outcome.number, 0, "{:?}", row);
            let record = &outcome.bytes[..outcome.out[0] as usize];
            assert_eq!(record, hex(row[1]), "{:?}", row);
            journal.extend(record);
            books.push(outcome.book);
        }
        assert_eq!(journal.len().to_string(), row[2], "{:?}", row);
    }
    (journal, books)
}

#[test]
fn the_worked_journal() {
    for keeper in [&Straight as &dyn Keeper, &library(0), &library(1)] {
        let (journal, books) = worked(keeper);
        let table = rows("| bytes, from the book of zeros | records | bytes that count | ended |");
        assert_eq!(table.len(), 11);
        for row in table {
            let quoted: Vec<&str> = row[0].split('`').skip(1).step_by(2).collect();
            let bytes = match (row[0].split(' ').collect::<Vec<_>>()[..].to_vec(), &quoted[..]) {
                (words, []) if words == ["none"] => Vec::new(),
                (words, []) if words == ["all"] => journal.clone(),
                (words, []) => journal[..words[2].parse().unwrap()].to_vec(),
                (words, [behind, ..]) if words[..2] == ["the", "first"] => {
                    let first: usize = words[2].trim_matches(',').parse().unwrap();
                    // The refused line's record is given by its beginning.
                    let behind = if behind.ends_with("..") { journal[65..86].to_vec() } else { hex(behind) };
                    [&journal[..first], &behind].concat()
                }
                (_, [alone, ..]) => hex(alone),
            };
            let outcome = Call::Recover { bytes, out: 2 }.run(keeper, &books[0], WORDS);
            let number = |text: &str| text.split(';').next().unwrap().parse::<usize>().unwrap();
            assert_eq!(
                (outcome.number, &outcome.out),
                (number(row[3]) as u32, &told(number(row[1]), number(row[2]), 2)),
                "{:?}",
                row
            );
            if let Some(book) = books.get(number(row[1])).filter(|_| !row[0].contains("`08 02")) {
                assert!(outcome.book == *book, "{:?}", row);
            }
        }
        let Outcome { number, bytes, .. } = Call::Save { room: straight::IMAGE }.run(keeper, &books[1], WORDS);
        let begins: Vec<&str> = PAGE.split("The image of the book after the setup begins `").nth(1).unwrap().split('`').collect();
        assert_eq!((number, &bytes[..32]), (0, &hex(begins[0])[..]));
        assert_eq!(bytes[32..48], hex(begins[2]));
    }
}
