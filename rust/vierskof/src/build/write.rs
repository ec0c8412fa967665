//! Writing a policy's words, or only counting them: the walk is the same, so that what was counted is what is written.

use super::{Condition, Grant, Policy, Unwritable};
use crate::{GRANT_OBLIGATIONS, LEVELS, LIST, Label, Reason, SHEET_WORDS, Shape};

impl Policy<'_> {
    pub(super) fn put(&self, level: usize, out: &mut Output<'_>) -> Result<(), Unwritable> {
        allowed(level)?;
        match self {
            Self::Permit(outcome) => out.node(6, u32::from(outcome.bits())),
            Self::Deny => out.node(7, 0),
            Self::Grant(grant) => grant.put(level, out),
            Self::All(arms) => put_arms(9, arms, level, out, Self::put),
            Self::Any(arms) => put_arms(10, arms, level, out, Self::put),
            Self::OrElse(primary, fallback) => {
                out.node(11, 0)?;
                primary.put(level + 1, out)?;
                fallback.put(level + 1, out)
            }
        }
    }
}

impl Condition<'_> {
    fn put(&self, level: usize, out: &mut Output<'_>) -> Result<(), Unwritable> {
        allowed(level)?;
        match self {
            Self::Always => out.node(0, 0),
            Self::Never => out.node(1, 0),
            Self::Has(fact) => out.node(2, u32::from(fact.number())),
            Self::Not(condition) => {
                out.node(3, 0)?;
                condition.put(level + 1, out)
            }
            Self::All(arms) => put_arms(4, arms, level, out, Self::put),
            Self::Any(arms) => put_arms(5, arms, level, out, Self::put),
        }
    }
}

impl Grant<'_> {
    fn put(&self, level: usize, out: &mut Output<'_>) -> Result<(), Unwritable> {
        let count = count(self.obligations, GRANT_OBLIGATIONS).ok_or(Unwritable::Obligations)?;
        let shape = u32::from(self.shape == Shape::Hidden);
        let outcome = u32::from(self.outcome.bits());
        out.node(8, shape << 27 | count << 20 | outcome)?;
        let label = named(self.label.map(Label::number));
        out.word(label << 16 | named(self.reason.map(Reason::number)))?;
        for four in self.obligations.chunks(4) {
            let mut bytes = [0; 4];
            for (byte, obligation) in bytes.iter_mut().zip(four) {
                *byte = obligation.number();
            }
            out.word(u32::from_be_bytes(bytes))?;
        }
        self.condition.put(level + 1, out)
    }
}

/// A list node and its arms, one level below it.
fn put_arms<T>(
    kind: u32,
    arms: &[T],
    level: usize,
    out: &mut Output<'_>,
    put: fn(&T, usize, &mut Output<'_>) -> Result<(), Unwritable>,
) -> Result<(), Unwritable> {
    let count = count(arms, LIST).ok_or(Unwritable::Arms)?;
    out.node(kind, count)?;
    arms.iter().try_for_each(|arm| put(arm, level + 1, out))
}

fn allowed(level: usize) -> Result<(), Unwritable> {
    if level > LEVELS {
        Err(Unwritable::Levels)
    } else {
        Ok(())
    }
}

/// How many items a list has, if these aren't too many.
fn count<T>(list: &[T], most: usize) -> Option<u32> {
    let count = u32::try_from(list.len()).ok();
    count.filter(|_| list.len() <= most)
}

/// A label or reason with the bit that says that it is there.
fn named(number: Option<u16>) -> u32 {
    number.map_or(0, |number| 0x8000 | u32::from(number))
}

/// Counts the words, and writes those that there is a place for.
pub(super) struct Output<'o> {
    words: &'o mut [u32],
    length: usize,
}

impl<'o> Output<'o> {
    pub(super) const fn new(words: &'o mut [u32]) -> Self {
        Self { words, length: 0 }
    }

    pub(super) const fn length(&self) -> usize {
        self.length
    }

    fn node(&mut self, kind: u32, fields: u32) -> Result<(), Unwritable> {
        self.word(kind << 28 | fields)
    }

    fn word(&mut self, word: u32) -> Result<(), Unwritable> {
        if self.length == SHEET_WORDS {
            return Err(Unwritable::Words);
        }
        if let Some(place) = self.words.get_mut(self.length) {
            *place = word;
        }
        self.length += 1;
        Ok(())
    }
}
