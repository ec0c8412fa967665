//! Registers of sheets: few groups, days and numbers, so that ties, withdrawals and repeats are common.

use crate::generate::rng::Rng;
use crate::register::Question;

/// Entries of the longest register.
const MOST: usize = 256;
/// Days that meet each other, and the ends of their range.
const DAYS: [u32; 9] = [
    0,
    1,
    2,
    100,
    101,
    1 << 31,
    (1 << 31) - 1,
    u32::MAX - 1,
    u32::MAX,
];
/// The bit that withdraws an entry.
const WITHDRAWN: u32 = 1 << 23;

/// Registers from a seed, about one in four of them damaged, each with a question.
pub fn draw(seed: u64, count: usize) -> impl Iterator<Item = Question> {
    let mut rng = Rng::new(seed);
    (0..count).map(move |_| question(&mut rng))
}

fn question(rng: &mut Rng) -> Question {
    let entries = match rng.below(100) {
        0 => MOST,
        1 => rng.between(MOST - 3, MOST + 2),
        2..10 => rng.between(9, 64),
        _ => rng.below(9),
    };
    let groups = rng.pick(&[1, 2, 3, 256]);
    let mut words = register(rng, entries, groups);
    if rng.percent(25) {
        damage(rng, &mut words);
    }
    Question {
        group: u32::from(rng.small(groups)),
        day: day(rng, &words),
        words,
    }
}

/// Entries without a repeat, in any order.
fn register(rng: &mut Rng, entries: usize, groups: u16) -> Vec<u32> {
    // Numbers enough, from 0 on, to the last, or far apart.
    let numbers: Vec<u16> = match rng.below(3) {
        0 => (0..=u16::try_from(entries).expect("few entries")).collect(),
        1 => (0..300).map(|step| u16::MAX - step).collect(),
        _ => (0..300).map(|step| step * 217).collect(),
    };
    let mut words = Vec::with_capacity(2 * entries);
    for number in rng.choose(&numbers, entries) {
        let group = u32::from(rng.small(groups)) << 24;
        let withdrawn = if rng.percent(20) { WITHDRAWN } else { 0 };
        let drawn = if rng.percent(90) {
            rng.pick(&DAYS)
        } else {
            rng.word()
        };
        words.extend([group | withdrawn | u32::from(number), drawn]);
    }
    words
}

/// A day of an entry, or one beside it.
fn day(rng: &mut Rng, words: &[u32]) -> u32 {
    let days: Vec<u32> = words.iter().skip(1).step_by(2).copied().collect();
    if days.is_empty() || rng.percent(20) {
        return rng.pick(&DAYS);
    }
    rng.pick(&days).wrapping_add(rng.pick(&[0, 0, 1, u32::MAX]))
}

/// A word too few or too many, a bit of a first word turned, an entry once more with another day or withdrawn.
fn damage(rng: &mut Rng, words: &mut Vec<u32>) {
    let at = rng.below(words.len() / 2 + 1) * 2;
    match rng.below(4) {
        0 if !words.is_empty() => {
            words.pop();
        }
        1 if at < words.len() => words[at] ^= 1 << rng.below(32),
        2 if !words.is_empty() => {
            let again = words[rng.below(words.len() / 2) * 2];
            let turned = if rng.percent(50) { WITHDRAWN } else { 0 };
            words.splice(at..at, [again ^ turned, rng.pick(&DAYS)]);
        }
        _ => words.insert(at, rng.word()),
    }
}
