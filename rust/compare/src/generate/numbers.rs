//! The numbers of sheets that cases are drawn with.

use super::rng::Rng;
use crate::case::Case;
use crate::words::read::sheet_number;
use crate::words::write;

/// Numbers of sheets: that of a sheet without one, small ones, those around the width of the count beside it, and the greatest.
pub const SHEETS: [u16; 6] = [0, 1, 7, 4_095, 4_096, 65_535];

/// Numbers that no record carries.
const BEYOND: [u32; 4] = [65_536, 65_543, 0x1000_7000, u32::MAX];

/// Gives each case a number. A record that has none gets one, and its call expects that four times in five.
///
/// They come from a source of their own, so that the cases are otherwise as they were.
pub fn give(seed: u64, mut cases: Vec<Case>) -> Vec<Case> {
    let mut rng = Rng::new(!seed);
    for case in &mut cases {
        let sheet = rng.pick(&SHEETS);
        let right = if case.call.reads_sheet() {
            u32::from(sheet)
        } else {
            number_record(sheet, &mut case.words);
            sheet_number(&case.words)
        };
        if case.call.writes() {
            case.number = drawn(&mut rng, right, case.call.reads_sheet());
        }
    }
    cases
}

/// Damaged leads keep the number that the damage gave them, and words that begin otherwise are no record's.
fn number_record(sheet: u16, words: &mut Vec<u32>) {
    if words.first().is_some_and(|lead| lead >> 28 >= 14) && sheet_number(words) == 0 {
        *words = write::numbered(sheet, std::mem::take(words));
    }
}

/// The right number, or another: for a sheet every number is right that a record can carry.
fn drawn(rng: &mut Rng, right: u32, sheet: bool) -> u32 {
    let wrong = if sheet { 5 } else { 20 };
    if !rng.percent(wrong) {
        return right;
    }
    let beyond = rng.pick(&BEYOND);
    if sheet || rng.percent(25) {
        return rng.pick(&[beyond, right + 65_536]);
    }
    let off = right ^ 1 << rng.below(16);
    let other = u32::from(rng.pick(&SHEETS));
    let found = rng.pick(&[off, other, 0]);
    if found == right { off } else { found }
}
