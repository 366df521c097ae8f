//! Values of versions: days of the calendar, the days around its end, and numbers far beyond; and cards: lengths, their limits,
//! and floats of every kind.

use crate::random::Random;
use straight::calendar::LAST_DAY;

/// The last two days that can be written, the first number that cannot, and the greatest.
pub const EDGES: [u32; 4] = [LAST_DAY - 1, LAST_DAY, LAST_DAY + 1, u32::MAX];

/// A value to write, mostly one that can be.
pub fn to_write(random: &mut Random) -> u32 {
    match random.below(100) {
        0..=84 => random.below(100) as u32,
        85..=89 => day(random),
        90..=97 => random.choose(&EDGES),
        _ => random.word(),
    }
}

/// A value of a version in a book. The book may be an old one, so any is fit.
pub fn in_book(random: &mut Random) -> u32 {
    match random.below(4) {
        0 => day(random),
        1 => random.choose(&EDGES),
        _ => random.word(),
    }
}

/// Any day of the calendar.
pub fn day(random: &mut Random) -> u32 {
    random.below(LAST_DAY as usize + 1) as u32
}

/// Lengths that a card may have, as bits: the least float above 0, the greatest without a leading digit, the least with one,
/// 0.1, 1, 52, 1,999.9999, 2,000.
pub const LENGTHS: [u32; 8] = [1, 0x007F_FFFF, 0x0080_0000, 0x3DCC_CCCD, 0x3F80_0000, 0x4250_0000, 0x44F9_FFFF, 0x44FA_0000];
/// Floats that are no length: 0, negative 0, negative lengths, the float after 2,000, the greatest, infinities, and NaNs.
pub const NO_LENGTHS: [u32; 14] = [
    0, 0x8000_0000, 0x8000_0001, 0xBF80_0000, 0xC4FA_0000, 0x44FA_0001, 0x44FA_8000, 0x7F7F_FFFF, 0x7F80_0000, 0xFF80_0000, 0x7F80_0001, 0x7FC0_0000,
    0xFFC0_0000, u32::MAX,
];

/// A card to write, mostly one that can be.
pub fn card_to_write(random: &mut Random) -> [u32; 2] {
    let mut card = card(random);
    if random.percent(8) {
        let at = random.below(2);
        card[at] = if random.percent(80) { random.choose(&NO_LENGTHS) } else { random.word() };
    }
    card
}

/// A card that a version may have.
pub fn card(random: &mut Random) -> [u32; 2] {
    let mut length = || if random.percent(50) { random.choose(&LENGTHS) } else { random.between(1, 0x44FA_0000) as u32 };
    [length(), length()]
}
