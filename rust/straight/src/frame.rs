//! Frames for the radio link, from `docs/FRAMES.md`: the oldest untaken messages of one link, as bytes for another box, and
//! back. Neither side moves a word of a book.
//!
//! Both are refused by a number: one of [`Refusal`]'s, [`NO_ROOM`], or one of those below. A refusal leaves the buffer as it was.
//!
//! ```
//! use straight::{frame_read, frame_write, setup, tick, OLD, WORDS};
//!
//! let mut book = vec![0; WORDS];
//! setup(&mut book, 2, 2, 4, 2, &[0, 1]).unwrap();
//! tick(&mut book, 0, 1).unwrap();
//!
//! // Shelf 1, from depot 0 to depot 1: one message, a heartbeat with stamp 1, as the frame with serial 258.
//! let (mut frame, mut words) = ([0; 11], [0; 10]);
//! assert_eq!(frame_write(&book, 1, 1, 0, 1, 258, &mut frame), Ok(11));
//! assert_eq!(frame, [0x51, 1, 2, 1, 6, 0, 2, 1, 0, 0, 0]);
//! assert_eq!(frame_read(&book, 1, 1, 0, 258, &frame, &mut words), Ok(1));
//! assert_eq!(words, [2, 1, 0, 0, 0, 0, 0, 0, 0, 0]);
//! assert_eq!(frame_read(&book, 1, 1, 0, 259, &frame, &mut words), Err(OLD));
//! ```

use crate::calls::{below, counts, fit};
use crate::fit::message_is_fit;
use crate::layout::*;
use crate::{looks, Refusal, NO_ROOM};

/// BAD COUNT, of the writer: the count is 0, over 16, or over what stands untaken.
pub const BAD_COUNT: u32 = 101;
/// BAD FRAME, of the reader: the bytes are no frame of this link.
pub const BAD_FRAME: u32 = 102;
/// OLD, of the reader: the serial is 1 to 32,767 behind the expected one.
pub const OLD: u32 = 103;
/// GAP, of the reader: the serial is any other but the expected one.
pub const GAP: u32 = 104;

/// The most messages of a frame, and the most bytes.
pub const MOST_MESSAGES: usize = 16;
pub const LONGEST_FRAME: usize = 516;

/// The bytes of a frame before its offsets.
const HEADER: usize = 4;

/// A link that a frame is for, in a register with these counts.
struct Link {
    n: Counts,
    shelf: usize,
    from: usize,
    to: usize,
}

/// Puts the `count` oldest untaken messages of the link from depot `from` to depot `depot` into `out`, as the frame with this
/// serial, and answers its length.
pub fn frame_write(
    book: &[u32],
    depot: u32,
    shelf: u32,
    from: u32,
    count: u32,
    serial: u16,
    out: &mut [u8],
) -> Result<usize, u32> {
    let on = named(book, depot, shelf, from).map_err(number)?;
    fit(looks::frame(book, on.n, on.to, on.shelf, on.from)).map_err(number)?;
    let link = link(on.shelf, on.from, on.to);
    let (held, taken) = (book[held(link)] as usize, book[taken(link)] as usize);
    if held == taken {
        return Err(number(Refusal::EmptyLink));
    }
    let count = count as usize;
    if count == 0 || count > MOST_MESSAGES || count > held - taken {
        return Err(BAD_COUNT);
    }

    let mut offsets = Vec::new();
    let mut messages = Vec::new();
    for place in taken..taken + count {
        let begin = HEADER + 2 * count + messages.len();
        offsets.extend((begin as u16).to_le_bytes());
        messages.extend(bytes(&book[slot(link, place)..][..SLOT], on.n));
    }
    let mut frame = vec![for_whom(&on), count as u8];
    frame.extend(serial.to_le_bytes());
    frame.extend(offsets);
    frame.extend(messages);

    if out.len() < frame.len() {
        return Err(NO_ROOM);
    }
    out[..frame.len()].copy_from_slice(&frame);
    Ok(frame.len())
}

/// Puts the messages of a frame for the link from depot `from` to depot `depot` into `out`, ten words each, and answers how
/// many there are. Of the book it reads the length, the counts and the homes alone.
pub fn frame_read(
    book: &[u32],
    depot: u32,
    shelf: u32,
    from: u32,
    expected: u16,
    frame: &[u8],
    out: &mut [u32],
) -> Result<usize, u32> {
    let on = named(book, depot, shelf, from).map_err(number)?;
    let (serial, messages) = parse(frame, &on).ok_or(BAD_FRAME)?;
    match expected.wrapping_sub(serial) {
        0 => {}
        1..=32_767 => return Err(OLD),
        _ => return Err(GAP),
    }
    if out.len() < SLOT * messages.len() {
        return Err(NO_ROOM);
    }
    for (place, message) in messages.iter().enumerate() {
        out[SLOT * place..][..SLOT].copy_from_slice(message);
    }
    Ok(messages.len())
}

/// The link that the numbers name, checked as a take checks them.
fn named(book: &[u32], depot: u32, shelf: u32, from: u32) -> Result<Link, Refusal> {
    let n = counts(book)?;
    let to = below(depot, n.depots, Refusal::BadDepot)?;
    let from = below(from, n.depots, Refusal::BadDepot)?;
    let shelf = below(shelf, n.shelves, Refusal::BadShelf)?;
    if to == from {
        return Err(Refusal::SameDepot);
    }
    Ok(Link { n, shelf, from, to })
}

fn number(refusal: Refusal) -> u32 {
    refusal as u32
}

/// The first byte of every frame of a link.
fn for_whom(on: &Link) -> u8 {
    (64 * (on.n.depots - 1) + 16 * on.shelf + 4 * on.from + on.to) as u8
}

/// A fit message of a slot, as bytes.
fn bytes(message: &[u32], n: Counts) -> Vec<u8> {
    let mut bytes = vec![message[0] as u8];
    if message[0] == HEARTBEAT {
        bytes.extend(message[1].to_le_bytes());
        return bytes;
    }
    let record = &message[1..];
    bytes.push(record[BEARING] as u8);
    for word in [record[VALUE], record[DIAMETER], record[WIDTH]] {
        bytes.extend(word.to_le_bytes());
    }
    for entry in &record[VECTOR..][..n.depots] {
        bytes.extend(entry.to_le_bytes());
    }
    bytes
}

/// The serial of a frame of this link and its messages, as the words of slots; none if the bytes are no such frame.
fn parse(frame: &[u8], on: &Link) -> Option<(u16, Vec<[u32; SLOT]>)> {
    let header = frame.get(..HEADER)?;
    let count = header[1] as usize;
    if header[0] != for_whom(on) || count == 0 || count > MOST_MESSAGES {
        return None;
    }
    let offsets = frame.get(HEADER..HEADER + 2 * count)?;
    let mut begin = HEADER + 2 * count;
    let mut messages = Vec::new();
    for offset in offsets.chunks(2) {
        if u16::from_le_bytes([offset[0], offset[1]]) as usize != begin {
            return None;
        }
        let (message, length) = words(&frame[begin..], on)?;
        if !message_is_fit(&message, on.n, on.shelf, on.from) {
            return None;
        }
        messages.push(message);
        begin += length;
    }
    if begin != frame.len() {
        return None;
    }
    Some((u16::from_le_bytes([header[2], header[3]]), messages))
}

/// The message that these bytes begin with, as the words of a slot, and how many bytes it has; none if its kind is no kind or
/// some of its bytes are missing.
fn words(bytes: &[u8], on: &Link) -> Option<([u32; SLOT], usize)> {
    let word = |at: usize| bytes.get(at..at + 4).map(|four| u32::from_le_bytes([four[0], four[1], four[2], four[3]]));
    let kind = u32::from(*bytes.first()?);
    let mut message = [0; SLOT];
    message[0] = kind;
    match kind {
        HEARTBEAT => {
            message[1] = word(1)?;
            Some((message, 5))
        }
        COPY => {
            let record = &mut message[1..];
            record[BEARING] = u32::from(*bytes.get(1)?);
            record[VALUE] = word(2)?;
            record[DIAMETER] = word(6)?;
            record[WIDTH] = word(10)?;
            record[ORIGIN] = on.from as u32;
            for x in 0..on.n.depots {
                record[VECTOR + x] = word(14 + 4 * x)?;
            }
            Some((message, 14 + 4 * on.n.depots))
        }
        _ => None,
    }
}
