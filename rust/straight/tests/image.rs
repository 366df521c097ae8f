//! Images of a book: the worked image of `docs/JOURNAL.md`, every number of the header, books that are not fit, and a journal
//! that goes on from an image.

use straight::layout::*;
use straight::{is_fit, load_image, move_crew, record, recover, refresh, save_image, setup, take, tick, write};
use straight::{Recovered, Request, BAD_IMAGE, CUT, IMAGE, NO_ROOM, WHOLE, WORDS};

/// The bits of 1 millimetre, both lengths of every card here.
const ONE: u32 = 1_065_353_216;

const BAD_BOOK: u32 = 1;

const HEADER: &str = "\
    49 4D 47 31 02 00 00 00 02 00 00 00 04 00 00 00 02 00 00 00 00 40 00 00 20 00 00 00 20 00 01 00";

fn hex(text: &str) -> Vec<u8> {
    text.split_whitespace().map(|byte| u8::from_str_radix(byte, 16).unwrap()).collect()
}

/// The worked register: `S 2 2 4 2 0 1`.
fn fresh() -> Vec<u32> {
    let mut book = vec![0; WORDS];
    setup(&mut book, 2, 2, 4, 2, &[0, 1]).unwrap();
    book
}

/// With messages on links, taken and not, versions and stamps.
fn busy() -> Vec<u32> {
    let mut book = fresh();
    write(&mut book, 0, 0, 20, ONE, ONE).unwrap();
    tick(&mut book, 0, 1).unwrap();
    write(&mut book, 0, 1, 30, ONE, ONE).unwrap();
    take(&mut book, 1, 0, 0).unwrap();
    take(&mut book, 1, 1, 0).unwrap();
    refresh(&mut book, 1, 0).unwrap();
    take(&mut book, 1, 1, 0).unwrap();
    assert_eq!(book[held(link(1, 0, 1))..][..2], [1, 1]);
    book
}

/// Saves to a buffer of any room, and looks that nothing is written but the image.
fn saves(room: usize, book: &[u32]) -> Result<Vec<u8>, u32> {
    let before: Vec<u8> = (0..room).map(|at| 0xA0 ^ at as u8).collect();
    let mut buffer = before.clone();
    let answer = save_image(book, &mut buffer);
    let length = if answer.is_ok() { IMAGE } else { 0 };
    assert!(buffer[length..] == before[length..], "past the image, and on a refusal, every byte stays");
    answer.map(|()| buffer[..length].to_vec())
}

/// Loads into a book of so many words, and looks that on a refusal none moves.
fn loads_into(words: usize, image: &[u8]) -> Result<Vec<u32>, u32> {
    let before: Vec<u32> = (0..words as u32).map(|at| at ^ 0xA5A5_A5A5).collect();
    let mut book = before.clone();
    let answer = load_image(&mut book, image);
    assert!(answer.is_ok() || book == before, "a refusal moves no word");
    answer.map(|()| book)
}

fn loads(image: &[u8]) -> Result<Vec<u32>, u32> {
    loads_into(WORDS, image)
}

/// An image with another number at a byte.
fn with(image: &[u8], at: usize, number: u32) -> Vec<u8> {
    let mut changed = image.to_vec();
    changed[at..at + 4].copy_from_slice(&number.to_le_bytes());
    changed
}

/// Where a word of the book lies in an image.
fn place(word: usize) -> usize {
    32 + 4 * word
}

#[test]
fn the_worked_image() {
    assert_eq!([IMAGE as u32, BAD_IMAGE, NO_ROOM], [65_568, 112, 100]);
    let image = saves(IMAGE, &fresh()).unwrap();
    assert_eq!(image.len(), 65_568);
    assert_eq!(image[..32], hex(HEADER));
    assert_eq!(image[32..48], hex("02 00 00 00 02 00 00 00 04 00 00 00 02 00 00 00"));
    assert_eq!(image[48..56], hex("00 00 00 00 01 00 00 00"), "the homes");
    assert!(image[56..].iter().all(|&byte| byte == 0));
    assert_eq!(image[..4], *b"IMG1");
}

/// A fit book comes back as it was, its unused words too.
#[test]
fn there_and_back() {
    let mut largest = vec![0; WORDS];
    setup(&mut largest, 4, 4, 160, 16, &[3; 16]).unwrap();
    let mut unused = fresh();
    for at in (0..WORDS).filter(|at| !(0..6).contains(at)) {
        let word = std::mem::replace(&mut unused[at], 0x8182_8384);
        if !is_fit(&unused) {
            unused[at] = word;
        }
    }
    assert!(unused.iter().filter(|&&word| word == 0x8182_8384).count() > 10_000);
    for book in [fresh(), busy(), largest, unused] {
        for room in [IMAGE, IMAGE + 1, IMAGE + 1_000] {
            let image = saves(room, &book).unwrap();
            assert!(loads(&image).as_ref() == Ok(&book));
            for word in 0..WORDS {
                assert_eq!(image[place(word)..][..4], book[word].to_le_bytes());
            }
        }
    }
}

/// Saving: 1, 100.
#[test]
fn saving_refused() {
    let book = busy();
    for room in [0, 1, 31, 32, IMAGE - 1] {
        assert_eq!(saves(room, &book), Err(NO_ROOM));
    }
    let mut long = book.clone();
    long.push(0);
    let mut unfit = book.clone();
    unfit[crew_vector(1)] = END + 1;
    for bad in [&[][..], &book[1..], &book[..WORDS - 1], &long, &unfit, &vec![0; WORDS]] {
        for room in [0, IMAGE - 1, IMAGE, IMAGE + 1] {
            assert_eq!(saves(room, bad), Err(BAD_BOOK), "and before the room");
        }
    }
}

/// Loading: 100, 112, 1.
#[test]
fn loading_refused() {
    let image = saves(IMAGE, &busy()).unwrap();
    let unfit = with(&image, place(crew_vector(1)), END + 1);
    let other = with(&image, 0, 826_756_426);
    let other_and_unfit = with(&unfit, 0, 826_756_426);
    for words in [0, 1, WORDS - 1, WORDS + 1] {
        for bytes in [&image[..], &unfit, &other, &other_and_unfit, &image[1..], &[]] {
            assert_eq!(loads_into(words, bytes), Err(NO_ROOM), "the room goes first");
        }
    }
    let long = [&image[..], &[0]].concat();
    for bytes in [&other[..], &other_and_unfit, &[], &image[..1], &image[..32], &image[1..], &image[..IMAGE - 1], &long] {
        assert_eq!(loads(bytes), Err(BAD_IMAGE));
    }
    assert_eq!(loads(&unfit), Err(BAD_BOOK));
    assert_eq!(loads(&vec![0; IMAGE]), Err(BAD_IMAGE));
    assert!(loads(&image) == Ok(busy()));
}

/// Every byte of the header has to be as it is.
#[test]
fn the_header() {
    let image = saves(IMAGE, &busy()).unwrap();
    for at in 0..32 {
        for bit in 0..8 {
            let mut changed = image.clone();
            changed[at] ^= 1 << bit;
            assert_eq!(loads(&changed), Err(BAD_IMAGE), "byte {}", at);
        }
    }
}

/// The counts of the header are the book's. Where they differ it is no image; where they agree, the book is fit or not.
#[test]
fn the_counts() {
    let image = saves(IMAGE, &fresh()).unwrap();
    for (which, most) in [4, 4, 160, 16].into_iter().enumerate() {
        let present = fresh()[which];
        for count in [0, 1, present + 1, most, most + 1, u32::MAX].into_iter().filter(|&count| count != present) {
            let (header, book) = (4 + 4 * which, place(which));
            assert_eq!(loads(&with(&image, header, count)), Err(BAD_IMAGE), "count {} in the header", which);
            assert_eq!(loads(&with(&image, book, count)), Err(BAD_IMAGE), "count {} in the book", which);
            let mut expected = fresh();
            expected[which] = count;
            let answer = if is_fit(&expected) { Ok(expected) } else { Err(BAD_BOOK) };
            assert!(loads(&with(&with(&image, header, count), book, count)) == answer, "count {} in both: {}", which, count);
        }
    }
    // The header is right of zeros too, and then the book is not fit.
    let mut zeros = vec![0; IMAGE];
    zeros[..4].copy_from_slice(b"IMG1");
    zeros[20..32].copy_from_slice(&image[20..32]);
    assert_eq!(loads(&zeros), Err(BAD_BOOK));
}

/// Accepted exactly if the book is fit, whichever of its words is another; then it is that book, and has that image.
#[test]
fn another_word() {
    let book = busy();
    let image = saves(IMAGE, &book).unwrap();
    let mut accepted = 0;
    let links = [link(0, 0, 1), link(1, 0, 1)].map(|link| slot(link, 0)..slot(link, 2));
    let words = (4..356).chain(links.into_iter().flatten()).chain(stored(0, 0)..stored(0, 4)).chain(stored(1, 0)..stored(1, 4));
    for at in words.chain(16_356..WORDS) {
        let mut changed = book.clone();
        changed[at] = !changed[at];
        let bytes = with(&image, place(at), changed[at]);
        if is_fit(&changed) {
            accepted += 1;
            assert!(loads(&bytes).as_ref() == Ok(&changed), "word {}", at);
            assert!(saves(IMAGE, &changed) == Ok(bytes), "word {}", at);
        } else {
            assert_eq!(loads(&bytes), Err(BAD_BOOK), "word {}", at);
            assert_eq!(saves(IMAGE, &changed), Err(BAD_BOOK), "word {}", at);
        }
    }
    assert!(accepted > 100);
}

/// A journal goes on from an image: with no whole record it is the image's book, and no setup is asked for.
#[test]
fn a_journal_goes_on() {
    let mut book = busy();
    let mut loaded = loads(&saves(IMAGE, &book).unwrap()).unwrap();
    let mut journal = record(&Request::Tick { depot: 0, shelf: 0 });
    journal.extend(record(&Request::Move { crew: 1, depot: 0 }));
    assert_eq!(recover(&mut loaded, &journal[..8]), Recovered { records: 0, bytes: 0, ended: CUT });
    assert!(loaded == book);
    assert_eq!(recover(&mut loaded, &journal), Recovered { records: 2, bytes: 18, ended: WHOLE });
    tick(&mut book, 0, 0).unwrap();
    move_crew(&mut book, 1, 0).unwrap();
    assert!(loaded == book);
}
