//! Nodes as document 01 packs them: fields from the most significant bit on.

use vierskof::read::Reading;
use vierskof::{Fact, Label, Obligation, Products, Reason};

use super::fields::Clause;

/// A node's first word, with what its low bits say.
pub const fn lead(kind: u32, low: u32) -> u32 {
    kind << 28 | low
}

/// A record's first word before its consulted entries are counted.
pub fn record(kind: u32, sheet: u16) -> u32 {
    lead(kind, u32::from(sheet) << 12)
}

/// A count of at most 4,095, which a list's reader has seen to.
pub fn count(items: usize) -> u32 {
    u32::try_from(items).expect("a list of the text form is short")
}

/// The words of a Grant before its condition.
pub fn grant(outcome: Products, clause: &Clause) -> Vec<u32> {
    let obligations = count(clause.obligations.len()) << 20;
    let first = shape(clause) | obligations | u32::from(outcome.bits());
    let mut words = vec![lead(8, first), label(clause) | reason(clause)];
    words.extend(bytes(&clause.obligations));
    words
}

/// A node 12.
pub fn permit_with_trace(outcome: Products, clause: &Clause) -> Vec<u32> {
    let obligations = count(clause.obligations.len()) << 20;
    let first = lead(12, obligations | u32::from(outcome.bits()));
    let mut words = vec![first, label(clause) | count(clause.facts.len())];
    words.extend(bytes(&clause.obligations));
    words.extend(halves(clause.facts.iter().copied().map(fact)));
    words
}

/// A node 13.
pub fn deny_with_trace(clause: &Clause) -> Vec<u32> {
    let denied = |outcome: Products| 1 << 26 | u32::from(outcome.bits());
    let first = lead(13, shape(clause) | clause.denied.map_or(0, denied));
    let facts = count(clause.facts.len());
    let mut words = vec![first, label(clause) | reason(clause), facts];
    words.extend(halves(clause.facts.iter().copied().map(fact)));
    words
}

/// Consulted entries.
pub fn consulted(entries: &[(Fact, Reading)]) -> Vec<u32> {
    let entry = |entry: &(Fact, Reading)| u32::from(entry.1.number()) << 14 | fact(entry.0);
    halves(entries.iter().map(entry))
}

fn shape(clause: &Clause) -> u32 {
    u32::from(clause.hidden) << 27
}

fn label(clause: &Clause) -> u32 {
    let field = |label: Label| 1 << 31 | u32::from(label.number()) << 16;
    clause.label.map_or(0, field)
}

fn reason(clause: &Clause) -> u32 {
    let field = |reason: Reason| 1 << 15 | u32::from(reason.number());
    clause.reason.map_or(0, field)
}

fn fact(fact: Fact) -> u32 {
    u32::from(fact.number())
}

/// Obligations, four a word.
fn bytes(obligations: &[Obligation]) -> Vec<u32> {
    let numbers = obligations.iter().map(|item| u32::from(item.number()));
    fields(numbers, 8)
}

/// Facts or entries, two a word.
fn halves(items: impl Iterator<Item = u32>) -> Vec<u32> {
    fields(items, 16)
}

/// Fields of one width, the last word filled up with zeros.
fn fields(items: impl Iterator<Item = u32>, width: u32) -> Vec<u32> {
    let mut words = Vec::new();
    let mut shift = 0;
    for item in items {
        if shift == 0 {
            shift = 32;
            words.push(0);
        }
        shift -= width;
        *words.last_mut().expect("a word was begun") |= item << shift;
    }
    words
}
