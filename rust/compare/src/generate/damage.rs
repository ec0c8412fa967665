//! Damaged copies of sheets and records.

use super::rng::Rng;

/// Damages the words in one place. What comes of it may still be a sheet or a record.
pub fn damage(rng: &mut Rng, words: &mut Vec<u32>) {
    match rng.below(6) {
        0 => words.truncate(rng.below(words.len())),
        1 => append(rng, words),
        2 => change(rng, words, |rng, word| word ^ 1 << rng.below(32)),
        3 => change(rng, words, set_a_zero),
        4 => change(rng, words, another_kind),
        _ => change(rng, words, another_count),
    }
}

fn append(rng: &mut Rng, words: &mut Vec<u32>) {
    let copied = words[rng.below(words.len())];
    let word = rng.word();
    words.push(rng.pick(&[0, copied, word]));
}

fn change(rng: &mut Rng, words: &mut [u32], change: impl Fn(&mut Rng, u32) -> u32) {
    let at = rng.below(words.len());
    words[at] = change(rng, words[at]);
}

/// Most bits that are 0 stand in fields that must be.
fn set_a_zero(rng: &mut Rng, word: u32) -> u32 {
    let zeros: Vec<u32> = (0..32).filter(|bit| word >> bit & 1 == 0).collect();
    if zeros.is_empty() {
        word
    } else {
        word | 1 << rng.pick(&zeros)
    }
}

fn another_kind(rng: &mut Rng, word: u32) -> u32 {
    word & 0x0FFF_FFFF | rng.word() & 0xF000_0000
}

/// One more or less in the place of a count of arms, facts or obligations.
fn another_count(rng: &mut Rng, word: u32) -> u32 {
    let one = 1 << rng.pick(&[0, 20]);
    if rng.percent(50) {
        word.wrapping_add(one)
    } else {
        word.wrapping_sub(one)
    }
}
