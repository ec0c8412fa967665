//! All small sheets over a few nodes.

type Words = Vec<u32>;

/// Conditions of one word: Always, Never and two facts.
const CONDITIONS: [u32; 4] = [0x0000_0000, 0x1000_0000, 0x2000_0000, 0x2000_0001];
/// Policies of one word. With the grants' outcome 2 these outcomes contain each other or overlap.
const POLICIES: [u32; 3] = [0x6000_0001, 0x6000_0003, 0x7000_0000];
/// What stands before a grant's condition: a bare grant, and one with all that a grant can have.
const GRANTS: [&[u32]; 2] = [
    &[0x8000_0002, 0x0000_0000],
    &[0x8810_0002, 0x8001_8001, 0x0700_0000],
];

/// All sheets of at most this many words over facts 0 and 1.
pub fn sheets(words: usize) -> Vec<Words> {
    let conditions = conditions(words);
    let mut found: Vec<Vec<Words>> = vec![Vec::new()];
    for size in 1..=words {
        let mut trees = lists(&[9, 10], size, &found);
        if size == 1 {
            trees.extend(POLICIES.map(|word| vec![word]));
        }
        trees.extend(or_elses(size, &found));
        trees.extend(grants(size, &conditions));
        found.push(trees);
    }
    found.concat()
}

/// All conditions, by their number of words.
fn conditions(words: usize) -> Vec<Vec<Words>> {
    let mut found: Vec<Vec<Words>> = vec![Vec::new()];
    for size in 1..=words {
        let mut trees = lists(&[4, 5], size, &found);
        if size == 1 {
            trees.extend(CONDITIONS.map(|word| vec![word]));
        }
        let nots = found[size - 1].iter();
        trees.extend(nots.map(|inner| [&[3 << 28], inner.as_slice()].concat()));
        found.push(trees);
    }
    found
}

/// List nodes of these kinds whose arms are smaller trees.
fn lists(kinds: &[u32], size: usize, smaller: &[Vec<Words>]) -> Vec<Words> {
    let mut found = Vec::new();
    for (count, arms) in sequences(size - 1, smaller) {
        for kind in kinds {
            found.push([&[kind << 28 | count], arms.as_slice()].concat());
        }
    }
    found
}

/// Trees one after the other that fill this many words, and how many they are.
fn sequences(words: usize, trees: &[Vec<Words>]) -> Vec<(u32, Words)> {
    if words == 0 {
        return vec![(0, Vec::new())];
    }
    let mut found = Vec::new();
    for size in 1..=words {
        let rests = sequences(words - size, trees);
        for first in &trees[size] {
            for (count, rest) in &rests {
                found.push((count + 1, [first.as_slice(), rest].concat()));
            }
        }
    }
    found
}

fn or_elses(size: usize, smaller: &[Vec<Words>]) -> Vec<Words> {
    let pairs = sequences(size - 1, smaller);
    let pairs = pairs.into_iter().filter(|(count, _)| *count == 2);
    pairs
        .map(|(_, pair)| [&[11 << 28], pair.as_slice()].concat())
        .collect()
}

fn grants(size: usize, conditions: &[Vec<Words>]) -> Vec<Words> {
    let mut found = Vec::new();
    for lead in GRANTS {
        let left = size.saturating_sub(lead.len());
        found.extend(conditions[left].iter().map(|rest| [lead, rest].concat()));
    }
    found
}
