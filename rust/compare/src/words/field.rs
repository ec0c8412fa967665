//! Fields of a word, counted from its most significant bit as document 01 does.

use crate::refusal::Refusal;

/// The field of `width` bits that begins `at` bits from the left.
pub const fn field(word: u32, at: u32, width: u32) -> u32 {
    (word << at) >> (32 - width)
}

/// A word that holds `value` in that field and 0 elsewhere.
pub const fn place(value: u32, at: u32, width: u32) -> u32 {
    value << (32 - at - width)
}

/// Refuses a field that must be 0 and isn't.
pub const fn zero(word: u32, at: u32, width: u32) -> Result<(), Refusal> {
    if field(word, at, width) == 0 {
        Ok(())
    } else {
        Err(Refusal::Field)
    }
}

/// The upper and lower half of a word.
pub fn halves(word: u32) -> [u16; 2] {
    let [a, b, c, d] = word.to_be_bytes();
    [u16::from_be_bytes([a, b]), u16::from_be_bytes([c, d])]
}
