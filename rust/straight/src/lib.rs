//! The depot register, written a second time: plainly, from the specification and `docs/LAYOUT.md` alone.
//!
//! It shares no line with the proved core. Where the two differ, one of them has misread the specification;
//! `replay` looks for such a difference.
//!
//! A book is any `&mut [u32]`; a call on one of the wrong length answers [`Refusal::BadBook`], and so does a call that looks at
//! a part that is not fit. Whether the whole book is fit is a call of its own, [`is_fit`].
//!
//! ```
//! use straight::{read, setup, write, Reading, Written, WORDS};
//!
//! let mut book = vec![0; WORDS];
//! setup(&mut book, 2, 2, 4, 2, &[0, 1]).unwrap();
//! let (diameter, width) = (52.0_f32.to_bits(), 15.0_f32.to_bits());
//! assert_eq!(write(&mut book, 0, 0, 20, diameter, width), Ok(Written { stamp: 1, current: true }));
//! assert_eq!(read(&mut book, 0, 0), Ok(Reading { value: Some(20), diameter, width, vector: [1, 0, 0, 0] }));
//! ```

mod audit;
pub mod calendar;
mod calls;
mod card;
mod desk;
mod fit;
mod frame;
mod image;
mod journal;
pub mod layout;
mod looks;
mod order;
mod request;

pub use audit::{audit, audit_lines, Verdict, ENTRY, MOST_ENTRIES, READ_ENTRY, WRITE_ENTRY};
pub use calls::{
    below, list, move_crew, read, refresh, setup, take, tick, vector, who_has, write, Reading, Written, LONGEST_LIST,
};
pub use card::{grams, is_card};
pub use desk::{desk, desk_with_journal, line, LONGEST_LINE};
pub use fit::{counts_and_homes, is_fit};
pub use frame::{frame_read, frame_write, BAD_COUNT, BAD_FRAME, GAP, LONGEST_FRAME, MOST_MESSAGES, OLD};
pub use image::{load_image, save_image, BAD_IMAGE, IMAGE};
pub use journal::{call_with_record, record, record_length, recover, Recovered, BAD_RECORD, CUT, WHOLE};
pub use layout::{Counts, WORDS};
pub use order::{above, greater};
pub use request::{call, Answer, Request};

/// NO ROOM, a number outside the specification's table. In C and in the library an answer with words in it is put into a
/// buffer. If that is shorter than the answer's room, the call is refused by this number, before every other check, and changes
/// no word of book or buffer. The calls here hand their answers back and have no buffers, so none of them says it. But it is
/// said where bytes or messages are put into a buffer: by [`frame_write`], [`frame_read`] and [`save_image`] after every other
/// check, by [`call_with_record`] before; and by [`load_image`] of a book of the wrong length.
pub const NO_ROOM: u32 = 100;

/// The refusals of the specification's table, with their numbers.
#[derive(Clone, Copy, Debug, PartialEq, Eq)]
pub enum Refusal {
    BadBook = 1,
    BadDepot = 2,
    BadShelf = 3,
    BadKey = 4,
    BadCrew = 5,
    SameDepot = 6,
    EmptyLink = 7,
    Wait = 8,
    LinkFull = 9,
    ClockAtEnd = 10,
    BadCounts = 11,
    NotHereYet = 12,
    BadLine = 13,
    BadCard = 14,
    BadList = 15,
    BadDate = 16,
}
