//! Writing trees and records as words.
//!
//! The counts are written as they are: a list that its count can't hold is the caller's to refuse.

use std::convert::Infallible;

use gatekeep::DenyShape;

use super::field::place;
use super::tree::{Condition, Decided, Deny, Entry, Grant, Permit, Record, Seen, Tree};

/// A record's words with this number of its sheet, in place of the one in them.
pub fn numbered(number: u16, mut record: Vec<u32>) -> Vec<u32> {
    if let Some(lead) = record.first_mut() {
        *lead = *lead & !place(0xFFFF, 4, 16) | place(u32::from(number), 4, 16);
    }
    record
}

/// The words of a record of a sheet without a number.
pub fn record(record: &Record) -> Vec<u32> {
    let mut words = Vec::new();
    match record {
        Record::Resolved { consulted, decided } => {
            put_lead(14, consulted, &mut words);
            decided.put(&mut words);
        }
        Record::Pending {
            consulted,
            residual,
        } => {
            put_lead(15, consulted, &mut words);
            put_tree(residual, &mut words);
        }
    }
    words
}

/// The words of a tree.
pub fn tree<S: Stored>(tree: &Tree<S>) -> Vec<u32> {
    let mut words = Vec::new();
    put_tree(tree, &mut words);
    words
}

/// The words of a condition.
pub fn condition(condition: &Condition) -> Vec<u32> {
    let mut words = Vec::new();
    put_condition(condition, &mut words);
    words
}

/// What a tree's nodes 12 and 13 hold.
pub trait Stored {
    /// Appends the node's words.
    fn put(&self, words: &mut Vec<u32>);
}

impl Stored for Infallible {
    fn put(&self, _words: &mut Vec<u32>) {
        match *self {}
    }
}

impl Stored for Decided {
    fn put(&self, words: &mut Vec<u32>) {
        match self {
            Self::Permit(permit) => put_permit(permit, words),
            Self::Deny(deny) => put_deny(deny, words),
        }
    }
}

fn put_lead(kind: u32, consulted: &[Entry], words: &mut Vec<u32>) {
    words.push(lead(kind) | count(consulted.len()));
    put_pairs(consulted.iter().copied().map(entry), words);
}

fn put_tree<S: Stored>(tree: &Tree<S>, words: &mut Vec<u32>) {
    match tree {
        Tree::Permit(outcome) => words.push(lead(6) | u32::from(outcome.0)),
        Tree::Deny => words.push(lead(7)),
        Tree::Grant(grant) => put_grant(grant, words),
        Tree::All(arms) => put_arms(9, arms, put_tree, words),
        Tree::Any(arms) => put_arms(10, arms, put_tree, words),
        Tree::OrElse(primary, fallback) => {
            words.push(lead(11));
            put_tree(primary, words);
            put_tree(fallback, words);
        }
        Tree::Stored(stored) => stored.put(words),
    }
}

fn put_condition(condition: &Condition, words: &mut Vec<u32>) {
    match condition {
        Condition::Always => words.push(lead(0)),
        Condition::Never => words.push(lead(1)),
        Condition::Has(fact) => words.push(lead(2) | u32::from(*fact)),
        Condition::Not(inner) => {
            words.push(lead(3));
            put_condition(inner, words);
        }
        Condition::All(arms) => put_arms(4, arms, put_condition, words),
        Condition::Any(arms) => put_arms(5, arms, put_condition, words),
    }
}

fn put_arms<T>(kind: u32, arms: &[T], put: fn(&T, &mut Vec<u32>), words: &mut Vec<u32>) {
    words.push(lead(kind) | count(arms.len()));
    for arm in arms {
        put(arm, words);
    }
}

fn put_grant(grant: &Grant, words: &mut Vec<u32>) {
    let obligations = place(count(grant.obligations.len()), 5, 7);
    words.push(lead(8) | shape(grant.shape) | obligations | u32::from(grant.outcome.0));
    words.push(name(grant.label, 0) | name(grant.reason, 16));
    put_obligations(&grant.obligations, words);
    put_condition(&grant.condition, words);
}

fn put_permit(permit: &Permit, words: &mut Vec<u32>) {
    let obligations = place(count(permit.obligations.len()), 5, 7);
    words.push(lead(12) | obligations | u32::from(permit.outcome.0));
    words.push(name(permit.label, 0) | count(permit.satisfied.len()));
    put_obligations(&permit.obligations, words);
    put_pairs(permit.satisfied.iter().copied(), words);
}

fn put_deny(deny: &Deny, words: &mut Vec<u32>) {
    let denied = deny
        .denied
        .map_or(0, |outcome| place(1, 5, 1) | u32::from(outcome.0));
    words.push(lead(13) | shape(deny.shape) | denied);
    words.push(name(deny.label, 0) | name(deny.reason, 16));
    words.push(count(deny.unsatisfied.len()));
    put_pairs(deny.unsatisfied.iter().copied(), words);
}

/// Obligations, four a word, with zeros in the last one's tail.
fn put_obligations(obligations: &[u8], words: &mut Vec<u32>) {
    for four in obligations.chunks(4) {
        let mut bytes = [0; 4];
        bytes[..four.len()].copy_from_slice(four);
        words.push(u32::from_be_bytes(bytes));
    }
}

/// 16-bit fields, two a word, with zeros in the last one's tail.
fn put_pairs(fields: impl Iterator<Item = u16>, words: &mut Vec<u32>) {
    let mut fields = fields.map(u32::from);
    while let Some(left) = fields.next() {
        words.push(left << 16 | fields.next().unwrap_or(0));
    }
}

const fn lead(kind: u32) -> u32 {
    place(kind, 0, 4)
}

fn count(length: usize) -> u32 {
    u32::try_from(length).expect("no list is as long as that")
}

const fn shape(shape: DenyShape) -> u32 {
    match shape {
        DenyShape::Forbidden => 0,
        DenyShape::Hidden => place(1, 4, 1),
    }
}

fn name(number: Option<u16>, at: u32) -> u32 {
    number.map_or(0, |number| place(0x8000 | u32::from(number), at, 16))
}

const fn entry((fact, seen): Entry) -> u16 {
    let presence = match seen {
        Seen::Absent => 0,
        Seen::Present => 1,
        Seen::Unknown => 2,
        Seen::Silent => 3,
    };
    presence << 14 | fact
}
