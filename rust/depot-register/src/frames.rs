//! Frames for the radio link: the oldest untaken messages of a link as bytes for another box, and back. `docs/FRAMES.md` has
//! every byte and says what the far box does with a message. No word of a book moves.
//!
//! ```
//! use depot_register::frames::{Link, NotRead, NotWritten};
//! use depot_register::{Counts, Depot, Refusal, Register, Shelf};
//!
//! # fn main() -> Result<(), Refusal> {
//! let counts = Counts { depots: 2, shelves: 2, bearings: 4, crews: 2 };
//! let mut register = Register::setup(counts, &[Depot(0), Depot(1)])?;
//! register.tick(Depot(0), Shelf(1))?;
//!
//! let link = Link { to: Depot(1), shelf: Shelf(1), from: Depot(0) };
//! let frame = register.write_frame(link, 1, 258).unwrap();
//! assert_eq!(frame, [0x51, 1, 2, 1, 6, 0, 2, 1, 0, 0, 0]);
//! assert_eq!(register.read_frame(link, 258, &frame).unwrap(), [[2, 1, 0, 0, 0, 0, 0, 0, 0, 0]]);
//!
//! assert_eq!(register.read_frame(link, 259, &frame), Err(NotRead::Old));
//! assert_eq!(register.read_frame(link, 257, &frame), Err(NotRead::Gap));
//! assert_eq!(register.read_frame(link, 258, &frame[1..]), Err(NotRead::BadFrame));
//! assert_eq!(register.write_frame(link, 2, 259), Err(NotWritten::BadCount));
//! let other = Link { to: Depot(0), ..link };
//! assert_eq!(register.write_frame(other, 1, 0), Err(NotWritten::Refused(Refusal::SameDepot)));
//! # Ok(())
//! # }
//! ```

use crate::{raw, Depot, Refusal, Register, Shelf};

/// The words of a message, as a slot of the book has them; unused ones are 0.
pub const MESSAGE: usize = 10;
/// The most messages of a frame, and the bytes of the longest.
pub const MOST_MESSAGES: usize = 16;
pub const LONGEST: usize = 516;

const BAD_COUNT: u32 = 101;
const BAD_FRAME: u32 = 102;
const OLD: u32 = 103;
const GAP: u32 = 104;

/// A link, as a take names it: the depot that takes, the shelf, the depot that sends.
#[derive(Clone, Copy, Debug, PartialEq, Eq, Hash)]
pub struct Link {
    pub to: Depot,
    pub shelf: Shelf,
    pub from: Depot,
}

/// Why no frame was written.
#[derive(Clone, Copy, Debug, PartialEq, Eq, Hash)]
pub enum NotWritten {
    /// As a take is refused.
    Refused(Refusal),
    /// The count is 0, over 16, or over what stands untaken.
    BadCount,
}

/// Why a frame handed out nothing.
#[derive(Clone, Copy, Debug, PartialEq, Eq, Hash)]
pub enum NotRead {
    /// The numbers of the link are refused.
    Refused(Refusal),
    /// The bytes are no frame of this link.
    BadFrame,
    /// The serial is 1 to 32,767 behind the expected one: the frame was read before.
    Old,
    /// The serial is any other but the expected one: a frame is missing.
    Gap,
}

impl Register {
    /// The frame with this serial of the `count` oldest untaken messages of a link.
    pub fn write_frame(&self, link: Link, count: u32, serial: u16) -> Result<Vec<u8>, NotWritten> {
        let (mut frame, mut told) = (vec![0; LONGEST], [0]);
        match raw::write_frame(self.words(), link.to.0, link.shelf.0, link.from.0, count, serial, &mut frame, &mut told) {
            BAD_COUNT => Err(NotWritten::BadCount),
            number => {
                Refusal::check(number).map_err(NotWritten::Refused)?;
                frame.truncate(told[0] as usize);
                Ok(frame)
            }
        }
    }

    /// The messages of a frame of a link, where this serial is expected.
    pub fn read_frame(&self, link: Link, expected: u16, frame: &[u8]) -> Result<Vec<[u32; MESSAGE]>, NotRead> {
        let (mut words, mut told) = ([0; MESSAGE * MOST_MESSAGES], [0]);
        match raw::read_frame(self.words(), link.to.0, link.shelf.0, link.from.0, expected, frame, &mut words, &mut told) {
            BAD_FRAME => Err(NotRead::BadFrame),
            OLD => Err(NotRead::Old),
            GAP => Err(NotRead::Gap),
            number => {
                Refusal::check(number).map_err(NotRead::Refused)?;
                let message = |at: &[u32]| <[u32; MESSAGE]>::try_from(at).expect("ten words");
                Ok(words.chunks(MESSAGE).take(told[0] as usize).map(message).collect())
            }
        }
    }
}
