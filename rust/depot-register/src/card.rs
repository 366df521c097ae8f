//! Cards, and the grams of grease for one.

use crate::{raw, Refusal};

/// A bearing's card: its outside diameter and its width in millimetres, each finite, above 0 and at most 2,000.
#[derive(Clone, Copy, Debug, PartialEq)]
pub struct Card {
    pub diameter: f32,
    pub width: f32,
}

impl Card {
    /// The card of the bits of two floats, as a book holds them. Any bits make floats; whether they are a card's is judged
    /// where it is used.
    pub fn from_bits(diameter: u32, width: u32) -> Card {
        Card { diameter: f32::from_bits(diameter), width: f32::from_bits(width) }
    }

    /// The grams of grease for it, by the house rule: outside diameter times width, then times 0.005, in 64-bit floats, each
    /// step rounded once.
    ///
    /// ```
    /// # use depot_register::{Card, Refusal};
    /// assert_eq!(Card { diameter: 52.0, width: 15.0 }.grams(), Ok(3.9));
    /// assert_eq!(Card { diameter: 47.0, width: 14.0 }.grams().unwrap().to_bits(), 0x400A_51EB_851E_B852);
    /// assert_eq!(Card { diameter: f32::NAN, width: 15.0 }.grams(), Err(Refusal::BadCard));
    /// ```
    pub fn grams(self) -> Result<f64, Refusal> {
        let mut out = [0; 2];
        Refusal::check(raw::grams(self.diameter.to_bits(), self.width.to_bits(), &mut out))?;
        Ok(f64::from_bits(u64::from(out[0]) | u64::from(out[1]) << 32))
    }
}
