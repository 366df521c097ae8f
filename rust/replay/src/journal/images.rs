//! Images of random books: there and back, with every number of the header and every word of the book changed, and of every
//! wrong length.

use super::{fresh_bytes, lent, odd_length, Call, Keeper, Outcome, Pair, Tally, Trouble};
use crate::books::{counts, lay};
use crate::event::Step;
use crate::random::Random;
use crate::register;
use straight::layout::*;
use straight::{is_fit, BAD_IMAGE, IMAGE, NO_ROOM, WORDS};

const BAD_BOOK: u32 = 1;
/// The bytes of the header.
const HEADER: usize = 32;

/// The ways in which a word is changed: out of every range, just out of the range of stamps, 0, and one more.
pub const WAYS: usize = 4;

fn changed(way: usize, word: u32) -> u32 {
    [u32::MAX, END + 1, 0, word.wrapping_add(1)][way]
}

/// The bytes of the image that a book has, fit or not.
fn image(book: &[u32]) -> Vec<u8> {
    let head = [0x3147_4D49, book[0], book[1], book[2], book[3], 16_384, 32, 65_568];
    head.iter().chain(&book[..WORDS]).flat_map(|number| number.to_le_bytes()).collect()
}

/// A fit book with words behind it.
fn book(random: &mut Random) -> Vec<u32> {
    let mut book = vec![0; WORDS];
    let counts = counts(random);
    Step::new(lay(random, counts)).run(&register::Straight, &mut book);
    lent(random, &book)
}

/// A book that is saved and loaded in many ways.
pub fn replay(left: &dyn Keeper, right: &dyn Keeper, seed: u64, tally: &mut Tally) -> Result<(), Trouble> {
    let pair = Pair { seed, left, right };
    let random = &mut Random::new(seed);
    let book = book(random);
    saved(&pair, &book, random, tally)?;
    let image = image(&book);
    loaded(&pair, &image, random, tally)?;
    headers(&pair, &image, random, tally)
}

/// Saved to every room: 1, 100.
fn saved(pair: &Pair, book: &[u32], random: &mut Random, tally: &mut Tally) -> Result<(), Trouble> {
    for _ in 0..12 {
        let mut book = book.to_vec();
        if random.percent(40) {
            let words = if random.percent(50) { 356 } else { WORDS };
            let at = random.below(words);
            book[at] = changed(random.below(WAYS), book[at]);
        }
        let (room, words) = (random.choose(&[0, 31, IMAGE - 1, IMAGE, IMAGE, IMAGE + 1, IMAGE + 100]), odd_length(random));
        let call = Call::Save { room };
        let expected = if words != WORDS || !is_fit(&book[..WORDS]) {
            call.untouched(BAD_BOOK, &book)
        } else if room < IMAGE {
            call.untouched(NO_ROOM, &book)
        } else {
            let mut bytes = fresh_bytes(room);
            bytes[..IMAGE].copy_from_slice(&image(&book));
            Outcome { number: 0, bytes, out: Vec::new(), book: book.clone() }
        };
        tally.count("save", expected.number);
        pair.expect(&call, &book, words, &expected)?;
    }
    Ok(())
}

/// Loads bytes over any book, and expects a number. Done, the book is the image's.
fn load(pair: &Pair, over: &[u32], words: usize, image: Vec<u8>, number: u32, tally: &mut Tally) -> Result<(), Trouble> {
    tally.count("load", number);
    let mut book = over.to_vec();
    if number == 0 {
        let words = image[HEADER..].chunks(4).map(|four| u32::from_le_bytes([four[0], four[1], four[2], four[3]]));
        book.iter_mut().zip(words).for_each(|(word, loaded)| *word = loaded);
    }
    pair.expect(&Call::Load { image }, over, words, &Outcome { number, bytes: Vec::new(), out: Vec::new(), book })
}

/// Over books of every kind and length, and from too many bytes or too few: 100, 112.
fn loaded(pair: &Pair, image: &[u8], random: &mut Random, tally: &mut Tally) -> Result<(), Trouble> {
    let any: Vec<u32> = (0..WORDS).map(|_| random.word()).collect();
    let over = [lent(random, &vec![0; WORDS]), lent(random, &any)];
    for over in &over {
        load(pair, over, WORDS, image.to_vec(), 0, tally)?;
        for words in [0, 1, WORDS - 1, WORDS + 1] {
            load(pair, over, words, image.to_vec(), NO_ROOM, tally)?;
            load(pair, over, words, image[1..].to_vec(), NO_ROOM, tally)?;
        }
        for length in [0, 1, 4, HEADER - 1, HEADER, IMAGE - 4, IMAGE - 1, random.below(IMAGE)] {
            load(pair, over, WORDS, image[..length].to_vec(), BAD_IMAGE, tally)?;
        }
        for more in [1, 4, 100] {
            let longer = [image, &vec![random.bits() as u8; more]].concat();
            load(pair, over, WORDS, longer, BAD_IMAGE, tally)?;
        }
    }
    Ok(())
}

/// Every number of the header changed: 112, before the book is judged. The counts changed in header and book alike: as the book
/// is fit or not.
fn headers(pair: &Pair, image: &[u8], random: &mut Random, tally: &mut Tally) -> Result<(), Trouble> {
    let over = lent(random, &vec![7; WORDS]);
    let with = |image: &[u8], at: usize, number: u32| {
        let mut changed = image.to_vec();
        changed[at..at + 4].copy_from_slice(&number.to_le_bytes());
        changed
    };
    let unfit = with(image, HEADER + 4 * crew_vector(0), u32::MAX);
    load(pair, &over, WORDS, unfit.clone(), BAD_BOOK, tally)?;
    for at in (0..HEADER).step_by(4) {
        let number = u32::from_le_bytes([image[at], image[at + 1], image[at + 2], image[at + 3]]);
        let bit = number ^ 1 << random.below(32);
        for other in [0, number.wrapping_add(1), number.wrapping_sub(1), number.swap_bytes(), bit, u32::MAX, random.word()] {
            if other == number {
                continue;
            }
            load(pair, &over, WORDS, with(image, at, other), BAD_IMAGE, tally)?;
            load(pair, &over, WORDS, with(&unfit, at, other), BAD_IMAGE, tally)?;
            if (4..20).contains(&at) {
                load(pair, &over, WORDS, with(image, HEADER + at - 4, other), BAD_IMAGE, tally)?;
                let both = with(&with(image, HEADER + at - 4, other), at, other);
                let fit = is_fit(&words(&both));
                load(pair, &over, WORDS, both, if fit { 0 } else { BAD_BOOK }, tally)?;
            }
        }
    }
    Ok(())
}

fn words(image: &[u8]) -> Vec<u32> {
    image[HEADER..].chunks(4).map(|four| u32::from_le_bytes([four[0], four[1], four[2], four[3]])).collect()
}

/// One word of the book changed, in every place, in one way: accepted exactly if the book is fit. Of every so many words one.
pub fn every_word(left: &dyn Keeper, right: &dyn Keeper, seed: u64, step: usize, tally: &mut Tally) -> Result<(), Trouble> {
    let pair = Pair { seed, left, right };
    let random = &mut Random::new(seed / WAYS as u64);
    let book = book(random);
    let over = lent(random, &vec![0; WORDS]);
    let image = image(&book);
    let way = (seed % WAYS as u64) as usize;
    for at in (seed as usize % step..WORDS).step_by(step) {
        let word = changed(way, book[at]);
        let mut bytes = image.clone();
        bytes[HEADER + 4 * at..][..4].copy_from_slice(&word.to_le_bytes());
        if at < 4 {
            bytes[4 + 4 * at..][..4].copy_from_slice(&word.to_le_bytes());
        }
        let fit = is_fit(&words(&bytes));
        load(&pair, &over, WORDS, bytes, if fit { 0 } else { BAD_BOOK }, tally)?;
    }
    Ok(())
}
