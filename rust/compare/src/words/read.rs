//! Reading sheets and records, with document 01's checks in document 01's order.

use std::convert::Infallible;

use gatekeep::DenyShape;

use super::field::{field, halves, zero};
use super::tree::{
    Condition, Decided, Deny, Entry, Grant, Permit, Record, Residual, Seen, Sheet, Tree,
};
use super::{GRANT_OBLIGATIONS, LEVELS, OBLIGATIONS, RECORD_WORDS, SHEET_WORDS};
use crate::levels::is_outcome;
use crate::products::Products;
use crate::refusal::Refusal;

/// Refuses a sheet whose length is out of range.
pub fn sheet_length(words: &[u32]) -> Result<(), Refusal> {
    length(words, SHEET_WORDS)
}

/// Refuses a record whose length is out of range.
pub fn record_length(words: &[u32]) -> Result<(), Refusal> {
    length(words, RECORD_WORDS)
}

/// Reads a sheet.
pub fn sheet(words: &[u32]) -> Result<Sheet, Refusal> {
    sheet_length(words)?;
    whole(words, |reader| reader.tree(1))
}

/// Reads a record, whatever its sheet's number.
pub fn record(words: &[u32]) -> Result<Record, Refusal> {
    record_length(words)?;
    whole(words, Reader::record)
}

/// The number of the sheet that a record is of.
pub fn sheet_number(record: &[u32]) -> u32 {
    record.first().map_or(0, |lead| field(*lead, 4, 16))
}

fn length(words: &[u32], most: usize) -> Result<(), Refusal> {
    if (1..=most).contains(&words.len()) {
        Ok(())
    } else {
        Err(Refusal::Length)
    }
}

/// Reads all of the words by `read`, refusing those that follow.
fn whole<'a, T>(
    words: &'a [u32],
    read: impl FnOnce(&mut Reader<'a>) -> Result<T, Refusal>,
) -> Result<T, Refusal> {
    let mut reader = Reader { rest: words };
    let found = read(&mut reader)?;
    if reader.rest.is_empty() {
        Ok(found)
    } else {
        Err(Refusal::Trailing)
    }
}

/// What a tree's nodes 12 and 13 hold, and so whether it may have such nodes.
trait Stored: Sized {
    /// Whether the kind is allowed where a policy is due, beside the kinds 6 to 11.
    fn allows(kind: u32) -> bool;

    /// Reads the node whose first word is given.
    fn read(reader: &mut Reader, word: u32) -> Result<Self, Refusal>;
}

impl Stored for Infallible {
    fn allows(_kind: u32) -> bool {
        false
    }

    fn read(_reader: &mut Reader, _word: u32) -> Result<Self, Refusal> {
        Err(Refusal::Kind)
    }
}

impl Stored for Decided {
    fn allows(kind: u32) -> bool {
        matches!(kind, 12 | 13)
    }

    fn read(reader: &mut Reader, word: u32) -> Result<Self, Refusal> {
        match kind(word) {
            12 => reader.permit(word).map(Self::Permit),
            13 => reader.deny(word).map(Self::Deny),
            _ => Err(Refusal::Kind),
        }
    }
}

/// The words that are still to be read.
struct Reader<'a> {
    rest: &'a [u32],
}

impl Reader<'_> {
    fn word(&mut self) -> Result<u32, Refusal> {
        let (&word, rest) = self.rest.split_first().ok_or(Refusal::Ended)?;
        self.rest = rest;
        Ok(word)
    }

    fn record(&mut self) -> Result<Record, Refusal> {
        let word = self.word()?;
        if !matches!(kind(word), 14 | 15) {
            return Err(Refusal::Kind);
        }
        let consulted = self.pairs(count(word), entry)?;
        if kind(word) == 14 {
            let word = self.word()?;
            let decided = Decided::read(self, word)?;
            Ok(Record::Resolved { consulted, decided })
        } else {
            let residual: Residual = self.tree(1)?;
            Ok(Record::Pending {
                consulted,
                residual,
            })
        }
    }

    fn tree<S: Stored>(&mut self, level: usize) -> Result<Tree<S>, Refusal> {
        let word = self.word()?;
        if !matches!(kind(word), 6..=11) && !S::allows(kind(word)) {
            return Err(Refusal::Kind);
        }
        level_allowed(level)?;
        match kind(word) {
            6 => {
                zero(word, 4, 12)?;
                outcome(word).map(Tree::Permit)
            }
            7 => {
                zero(word, 4, 28)?;
                Ok(Tree::Deny)
            }
            8 => self.grant(word, level).map(Tree::Grant),
            9 => self.arms(word, level, Self::tree).map(Tree::All),
            10 => self.arms(word, level, Self::tree).map(Tree::Any),
            11 => {
                zero(word, 4, 28)?;
                let primary = Box::new(self.tree(level + 1)?);
                let fallback = Box::new(self.tree(level + 1)?);
                Ok(Tree::OrElse(primary, fallback))
            }
            _ => S::read(self, word).map(Tree::Stored),
        }
    }

    fn condition(&mut self, level: usize) -> Result<Condition, Refusal> {
        let word = self.word()?;
        if !matches!(kind(word), 0..=5) {
            return Err(Refusal::Kind);
        }
        level_allowed(level)?;
        match kind(word) {
            2 => {
                zero(word, 4, 18)?;
                Ok(Condition::Has(fact(word)))
            }
            4 => self.arms(word, level, Self::condition).map(Condition::All),
            5 => self.arms(word, level, Self::condition).map(Condition::Any),
            bare => {
                zero(word, 4, 28)?;
                match bare {
                    0 => Ok(Condition::Always),
                    1 => Ok(Condition::Never),
                    _ => self
                        .condition(level + 1)
                        .map(|inner| Condition::Not(Box::new(inner))),
                }
            }
        }
    }

    /// The arms of a list node, one level below it.
    fn arms<T>(
        &mut self,
        word: u32,
        level: usize,
        mut read: impl FnMut(&mut Self, usize) -> Result<T, Refusal>,
    ) -> Result<Vec<T>, Refusal> {
        zero(word, 4, 16)?;
        (0..count(word)).map(|_| read(self, level + 1)).collect()
    }

    fn grant(&mut self, word: u32, level: usize) -> Result<Grant, Refusal> {
        let shape = shape(word);
        let obligations = obligation_count(word);
        if obligations > GRANT_OBLIGATIONS {
            return Err(Refusal::Field);
        }
        zero(word, 12, 4)?;
        let outcome = outcome(word)?;
        let (label, reason) = names(self.word()?)?;
        Ok(Grant {
            outcome,
            shape,
            label,
            reason,
            obligations: self.obligations(obligations)?,
            condition: self.condition(level + 1)?,
        })
    }

    fn permit(&mut self, word: u32) -> Result<Permit, Refusal> {
        zero(word, 4, 1)?;
        let obligations = obligation_count(word);
        zero(word, 12, 4)?;
        let outcome = outcome(word)?;
        let second = self.word()?;
        let label = name(halves(second)[0])?;
        zero(second, 16, 4)?;
        Ok(Permit {
            outcome,
            obligations: self.obligations(obligations)?,
            satisfied: self.pairs(count(second), listed)?,
            label,
        })
    }

    fn deny(&mut self, word: u32) -> Result<Deny, Refusal> {
        let present = field(word, 5, 1) == 1;
        zero(word, 6, 10)?;
        let denied = present.then(|| outcome(word)).transpose()?;
        if !present {
            zero(word, 16, 16)?;
        }
        let (label, reason) = names(self.word()?)?;
        let third = self.word()?;
        zero(third, 0, 20)?;
        Ok(Deny {
            denied,
            unsatisfied: self.pairs(count(third), listed)?,
            label,
            reason,
            shape: shape(word),
        })
    }

    /// Obligations, four a word; the leftmost faulty byte decides the refusal.
    fn obligations(&mut self, count: usize) -> Result<Vec<u8>, Refusal> {
        let mut found = Vec::new();
        while found.len() < count {
            for byte in self.word()?.to_be_bytes() {
                if found.len() == count {
                    zero(u32::from(byte), 0, 32)?;
                } else {
                    found.push(obligation(byte)?);
                }
            }
        }
        Ok(found)
    }

    /// A list of 16-bit fields, two a word; the odd one's tail is a field that must be 0.
    fn pairs<T>(
        &mut self,
        count: usize,
        read: fn(u16) -> Result<T, Refusal>,
    ) -> Result<Vec<T>, Refusal> {
        let mut found = Vec::new();
        while found.len() < count {
            for half in halves(self.word()?) {
                if found.len() == count {
                    zero(u32::from(half), 0, 32)?;
                } else {
                    found.push(read(half)?);
                }
            }
        }
        Ok(found)
    }
}

const fn kind(word: u32) -> u32 {
    field(word, 0, 4)
}

/// The count of arms or list fields, which ends its word.
const fn count(word: u32) -> usize {
    field(word, 20, 12) as usize
}

/// The products that end a word; where an outcome table is given, the level.
fn outcome(word: u32) -> Result<Products, Refusal> {
    let number = halves(word)[1];
    if is_outcome(number) {
        Ok(Products(number))
    } else {
        Err(Refusal::Field)
    }
}

/// The fact that ends a word or a listed field.
fn fact(word: u32) -> u16 {
    halves(word)[1] & 0x03FF
}

const fn level_allowed(level: usize) -> Result<(), Refusal> {
    if level <= LEVELS {
        Ok(())
    } else {
        Err(Refusal::Level)
    }
}

const fn shape(word: u32) -> DenyShape {
    if field(word, 4, 1) == 0 {
        DenyShape::Forbidden
    } else {
        DenyShape::Hidden
    }
}

/// The count of obligations of a node 8 or 12.
const fn obligation_count(word: u32) -> usize {
    field(word, 5, 7) as usize
}

/// A label or reason: a present bit, then a number that is 0 when absent.
const fn name(half: u16) -> Result<Option<u16>, Refusal> {
    match (half >> 15, half & 0x7FFF) {
        (0, 0) => Ok(None),
        (0, _) => Err(Refusal::Field),
        (_, number) => Ok(Some(number)),
    }
}

/// The label and reason of a second word.
fn names(word: u32) -> Result<(Option<u16>, Option<u16>), Refusal> {
    let [label, reason] = halves(word);
    Ok((name(label)?, name(reason)?))
}

/// An obligation; it may stand in its list before.
const fn obligation(byte: u8) -> Result<u8, Refusal> {
    if byte < OBLIGATIONS {
        Ok(byte)
    } else {
        Err(Refusal::Field)
    }
}

/// A fact of a clause's list: six zero bits, then the fact.
fn listed(half: u16) -> Result<u16, Refusal> {
    zero(u32::from(half), 16, 6)?;
    Ok(fact(u32::from(half)))
}

/// A consulted entry: presence, four zero bits, then the fact.
fn entry(half: u16) -> Result<Entry, Refusal> {
    let word = u32::from(half);
    let seen = match field(word, 16, 2) {
        0 => Seen::Absent,
        1 => Seen::Present,
        2 => Seen::Unknown,
        _ => Seen::Silent,
    };
    zero(word, 18, 4)?;
    Ok((fact(word), seen))
}
