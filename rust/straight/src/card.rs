//! The card of a version: the outside diameter and the width of the bearing in millimetres, two 32-bit floats. A book holds
//! them as their bits, and so do the calls.
//!
//! ```
//! use straight::grams;
//!
//! let (diameter, width) = (52.0_f32, 15.0_f32);
//! assert_eq!(grams(diameter.to_bits(), width.to_bits()), Ok(3.9));
//! ```

use crate::Refusal;

/// The longest that a diameter or a width can be.
const LONGEST: f32 = 2_000.0;

/// Whether these are the bits of a card's two lengths: each finite, above 0 and at most 2,000.
pub fn is_card(diameter: u32, width: u32) -> bool {
    is_length(diameter) && is_length(width)
}

fn is_length(bits: u32) -> bool {
    let length = f32::from_bits(bits);
    length.is_finite() && length > 0.0 && length <= LONGEST
}

/// The grams of grease for a card, by the house rule: diameter times width, then times 0.005. Both are widened to 64 bits
/// first, which is exact, and each product is rounded once.
pub fn grams(diameter: u32, width: u32) -> Result<f64, Refusal> {
    if !is_card(diameter, width) {
        return Err(Refusal::BadCard);
    }
    let diameter = f64::from(f32::from_bits(diameter));
    let width = f64::from(f32::from_bits(width));
    let area = diameter * width;
    Ok(area * 0.005)
}
