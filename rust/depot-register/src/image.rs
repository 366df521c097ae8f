//! Images: one book with a header, as bytes, and back. A journal may go on from one. `docs/JOURNAL.md` has every byte.
//!
//! ```
//! use depot_register::image::{NotLoaded, IMAGE_BYTES};
//! use depot_register::{Counts, Depot, Register};
//!
//! let counts = Counts { depots: 2, shelves: 2, bearings: 4, crews: 2 };
//! let register = Register::setup(counts, &[Depot(0), Depot(1)]).unwrap();
//! let image = register.save_image();
//! assert_eq!((image.len(), &image[..4]), (IMAGE_BYTES, &b"IMG1"[..]));
//! assert_eq!(Register::load_image(&image), Ok(register));
//!
//! assert_eq!(Register::load_image(&image[1..]), Err(NotLoaded::BadImage));
//! let mut unfit = image.clone();
//! unfit[48] = 2; // the home of crew 0
//! assert_eq!(Register::load_image(&unfit), Err(NotLoaded::BadBook));
//! ```

use std::error::Error;
use std::fmt;

use crate::{raw, Refusal, Register};

/// The bytes of an image.
pub const IMAGE_BYTES: usize = 65_568;

const BAD_BOOK: u32 = 1;
const BAD_IMAGE: u32 = 112;

/// Why bytes are not loaded as an image.
#[derive(Clone, Copy, Debug, PartialEq, Eq, Hash)]
pub enum NotLoaded {
    /// The length or the header is not that of an image.
    BadImage = 112,
    /// The header is right, and the book is not fit.
    BadBook = 1,
}

impl NotLoaded {
    /// The number of the refusal.
    pub fn number(self) -> u32 {
        self as u32
    }
}

impl fmt::Display for NotLoaded {
    fn fmt(&self, f: &mut fmt::Formatter<'_>) -> fmt::Result {
        f.write_str(match self {
            NotLoaded::BadImage => "the bytes are no image: their number or their header is another",
            NotLoaded::BadBook => "the book of the image is not fit",
        })
    }
}

impl Error for NotLoaded {}

impl Register {
    /// The image of the book.
    pub fn save_image(&self) -> Vec<u8> {
        let mut image = vec![0; IMAGE_BYTES];
        Refusal::check(raw::save_image(&self.book, &mut image)).expect("a register's book is fit");
        image
    }

    /// The register of an image. What it says of the past is taken on trust.
    pub fn load_image(image: &[u8]) -> Result<Register, NotLoaded> {
        let mut register = Register::zeros();
        match raw::load_image(&mut register.book, image) {
            0 => Ok(register),
            BAD_IMAGE => Err(NotLoaded::BadImage),
            BAD_BOOK => Err(NotLoaded::BadBook),
            number => panic!("the library answered {}, which is no number of an image", number),
        }
    }
}
