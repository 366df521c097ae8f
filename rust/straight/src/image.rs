//! Images, from `docs/JOURNAL.md`: one book with a header, as bytes, and back. A journal may go on from one.
//!
//! ```
//! use straight::{load_image, save_image, setup, BAD_IMAGE, IMAGE, WORDS};
//!
//! let (mut book, mut image) = (vec![0; WORDS], vec![0; IMAGE]);
//! setup(&mut book, 2, 2, 4, 2, &[0, 1]).unwrap();
//! assert_eq!(save_image(&book, &mut image), Ok(()));
//! assert_eq!(image[..4], *b"IMG1");
//!
//! let mut loaded = vec![0; WORDS];
//! assert_eq!(load_image(&mut loaded, &image), Ok(()));
//! assert!(loaded == book);
//! assert_eq!(load_image(&mut loaded, &image[1..]), Err(BAD_IMAGE));
//! ```

use crate::fit::is_fit;
use crate::journal::{numbers, push};
use crate::layout::WORDS;
use crate::{Refusal, NO_ROOM};

/// BAD IMAGE, of loading: there are too few bytes or too many, or the header is not right.
pub const BAD_IMAGE: u32 = 112;

/// The bytes of an image: the header, then the book.
pub const IMAGE: usize = 65_568;

/// The numbers of a header, and its bytes.
const HEADER: usize = 8;
const BOOK_BEGINS: u32 = 32;

/// The first number: `IMG1`, for this layout.
const NAME: u32 = 826_756_425;

/// Puts the image of a book into the buffer, from its first byte on.
pub fn save_image(book: &[u32], buffer: &mut [u8]) -> Result<(), u32> {
    if !is_fit(book) {
        return Err(Refusal::BadBook as u32);
    }
    if buffer.len() < IMAGE {
        return Err(NO_ROOM);
    }
    let mut bytes = Vec::new();
    push(&mut bytes, &header(book));
    push(&mut bytes, book);
    buffer[..IMAGE].copy_from_slice(&bytes);
    Ok(())
}

/// Puts the book of an image into a book. What it says of the past is taken on trust.
pub fn load_image(book: &mut [u32], image: &[u8]) -> Result<(), u32> {
    if book.len() != WORDS {
        return Err(NO_ROOM);
    }
    if image.len() != IMAGE {
        return Err(BAD_IMAGE);
    }
    let numbers = numbers(image);
    let (head, words) = numbers.split_at(HEADER);
    if head != header(words) {
        return Err(BAD_IMAGE);
    }
    if !is_fit(words) {
        return Err(Refusal::BadBook as u32);
    }
    book.copy_from_slice(words);
    Ok(())
}

/// The header that the image of a book has.
fn header(book: &[u32]) -> [u32; HEADER] {
    [NAME, book[0], book[1], book[2], book[3], WORDS as u32, BOOK_BEGINS, IMAGE as u32]
}
