//! Fields of words, and where a tree ends. A word past the end reads 0, which valid words never need.

use crate::Products;

/// The word at a place.
pub fn word(words: &[u32], at: usize) -> u32 {
    words.get(at).copied().unwrap_or_default()
}

/// The words from a place on.
pub fn tail(words: &[u32], from: usize) -> &[u32] {
    words.get(from..).unwrap_or_default()
}

/// The kind of the node that begins the words.
pub fn kind(words: &[u32]) -> u32 {
    word(words, 0) >> 28
}

/// The count of arms or entries that a word has in its last 12 bits.
pub const fn count(word: u32) -> usize {
    (word & 0xFFF) as usize
}

/// The count of obligations in the first word of a grant or permit.
pub const fn obligations(word: u32) -> usize {
    (word >> 20 & 0x7F) as usize
}

/// The outcome in the last 16 bits of a node's first word.
pub fn outcome(words: &[u32]) -> Products {
    Products::from_bits((word(words, 0) & 0xFFFF) as u16)
}

/// How many words so many 16-bit fields take.
pub const fn halves(count: usize) -> usize {
    count.div_ceil(2)
}

/// How many words so many 8-bit fields take.
pub const fn quarters(count: usize) -> usize {
    count.div_ceil(4)
}

/// How many words the tree that begins the words takes.
pub fn extent(words: &[u32]) -> usize {
    let mut at = 0;
    let mut open = 1;
    while open > 0 && at < words.len() {
        let node = tail(words, at);
        at += own(node);
        open = open - 1 + arms(node);
    }
    at.min(words.len())
}

/// How many words a node takes without its arms.
fn own(node: &[u32]) -> usize {
    let first = word(node, 0);
    match kind(node) {
        8 => 2 + quarters(obligations(first)),
        12 => 2 + quarters(obligations(first)) + halves(count(word(node, 1))),
        13 => 3 + halves(count(word(node, 2))),
        _ => 1,
    }
}

/// How many trees follow a node as its arms.
pub fn arms(node: &[u32]) -> usize {
    match kind(node) {
        3 | 8 => 1,
        4 | 5 | 9 | 10 => count(word(node, 0)),
        11 => 2,
        _ => 0,
    }
}
