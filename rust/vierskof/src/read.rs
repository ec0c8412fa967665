//! Sheets and records as typed values, over words that the proved reader has accepted.
//!
//! The values borrow the words and copy nothing. A tree is walked by matching on each node:
//!
//! ```
//! use vierskof::Fact;
//! use vierskof::read::{Condition, ConditionRef, Policy, Sheet};
//!
//! /// How many Has there are in a condition.
//! fn asks(condition: ConditionRef) -> usize {
//!     match condition.node() {
//!         Condition::Always | Condition::Never => 0,
//!         Condition::Has(_) => 1,
//!         Condition::Not(inner) => asks(inner),
//!         Condition::All(arms) | Condition::Any(arms) => arms.map(asks).sum(),
//!     }
//! }
//!
//! // Permit product 0 if fact 1 is Present and fact 2 isn't.
//! let words = [0x8000_0001, 0x0000_0000, 0x4000_0002, 0x2000_0001, 0x3000_0000, 0x2000_0002];
//! let Policy::Grant(grant) = Sheet::read(&words)?.policy().node() else {
//!     panic!("the sheet is a grant");
//! };
//! assert!(grant.outcome().contains(0));
//! assert_eq!(asks(grant.condition()), 2);
//! # Ok::<(), vierskof::Refusal>(())
//! ```
//!
//! A tree has at most 32 levels, so a function that calls itself for each node needs little stack.

mod lists;
mod nodes;
mod parts;
mod words;

use core::fmt;

pub use lists::{Conditions, Consulted, Facts, Obligations, Observation, Policies, Reading};
pub use nodes::{Condition, ConditionRef, Decision, Policy, PolicyRef};
pub use parts::{DenyWithTrace, GrantRef, PermitWithTrace};

use self::lists::Fields;
use self::words::{count, halves, kind, tail, word};
use crate::{Refusal, calls};

/// A sheet's words, known to be valid.
///
/// ```
/// use vierskof::read::{Policy, Sheet};
/// use vierskof::{Products, Refusal};
///
/// let sheet = Sheet::read(&[0x6000_0001])?;
/// assert_eq!(sheet.policy().node(), Policy::Permit(Products::from_bits(1)));
/// assert_eq!(Sheet::read(&[0x6001_0001]), Err(Refusal::Field));
/// # Ok::<(), Refusal>(())
/// ```
#[derive(Clone, Copy, PartialEq, Eq, Hash)]
pub struct Sheet<'w> {
    words: &'w [u32],
}

impl<'w> Sheet<'w> {
    /// Has the proved reader judge the words.
    ///
    /// # Errors
    ///
    /// [`Refusal::Length`], and the causes that words have, [`Refusal::Kind`] to [`Refusal::WordsAfterTree`].
    pub fn read(words: &'w [u32]) -> Result<Self, Refusal> {
        // Of the calls that read a sheet, the one that takes neither table nor output.
        calls::required_facts(words).map(|_| Self { words })
    }

    /// A sheet whose words the builder wrote.
    pub(crate) const fn built(words: &'w [u32]) -> Self {
        Self { words }
    }

    /// The sheet's words.
    #[must_use]
    pub const fn words(self) -> &'w [u32] {
        self.words
    }

    /// The sheet's tree.
    #[must_use]
    pub const fn policy(self) -> PolicyRef<'w> {
        PolicyRef::new(self.words)
    }
}

impl fmt::Debug for Sheet<'_> {
    fn fmt(&self, f: &mut fmt::Formatter<'_>) -> fmt::Result {
        f.debug_tuple("Sheet").field(&self.policy()).finish()
    }
}

/// Whether a record's decision is made.
#[derive(Clone, Copy, Debug, PartialEq, Eq, Hash)]
pub enum Status {
    /// It is: the tree is one stored decision.
    Resolved,
    /// It waits for facts.
    Pending,
}

/// A record's words, known to be valid.
///
/// ```
/// use vierskof::read::{Decision, Reading, Record, Status};
///
/// let words = [0xE000_7001, 0x4005_0000, 0xC000_0003, 0x0000_0001, 0x0005_0000];
/// let record = Record::read(&words)?;
/// assert_eq!(record.status(), Status::Resolved);
/// assert_eq!(record.number(), 7);
/// let read = record.consulted().next().expect("one fact was read");
/// assert_eq!((read.fact.number(), read.reading), (5, Reading::Present));
/// let Some(Decision::Permit(permit)) = record.decision() else {
///     panic!("the record is a permit");
/// };
/// assert_eq!(permit.outcome().to_string(), "0003");
/// # Ok::<(), vierskof::Refusal>(())
/// ```
#[derive(Clone, Copy, PartialEq, Eq, Hash)]
pub struct Record<'w> {
    words: &'w [u32],
}

impl<'w> Record<'w> {
    /// Has the proved reader judge the words.
    ///
    /// # Errors
    ///
    /// [`Refusal::Length`], and the causes that words have, [`Refusal::Kind`] to [`Refusal::WordsAfterTree`].
    pub fn read(words: &'w [u32]) -> Result<Self, Refusal> {
        // Of the calls that read a record, one that does no more than to check it.
        calls::is_permit_constant(words).map(|_| Self { words })
    }

    /// The record's words.
    #[must_use]
    pub const fn words(self) -> &'w [u32] {
        self.words
    }

    /// Whether the decision is made.
    #[must_use]
    pub fn status(self) -> Status {
        if kind(self.words) == 14 {
            Status::Resolved
        } else {
            Status::Pending
        }
    }

    /// The number of the sheet that the record is of; 0 if it has none.
    #[must_use]
    pub fn number(self) -> u16 {
        (word(self.words, 0) >> 12 & 0xFFFF) as u16
    }

    /// The facts that were read, in the order of reading.
    pub fn consulted(self) -> Consulted<'w> {
        let entries = count(word(self.words, 0));
        Consulted(Fields::new(tail(self.words, 1), entries))
    }

    /// The record's tree.
    #[must_use]
    pub fn tree(self) -> PolicyRef<'w> {
        let entries = halves(count(word(self.words, 0)));
        PolicyRef::new(tail(self.words, 1 + entries))
    }

    /// The decision, if the record is Resolved.
    #[must_use]
    pub fn decision(self) -> Option<Decision<'w>> {
        match (self.status(), self.tree().node()) {
            (Status::Resolved, Policy::PermitWithTrace(permit)) => Some(Decision::Permit(permit)),
            (Status::Resolved, Policy::DenyWithTrace(deny)) => Some(Decision::Deny(deny)),
            _ => None,
        }
    }
}

impl fmt::Debug for Record<'_> {
    fn fmt(&self, f: &mut fmt::Formatter<'_>) -> fmt::Result {
        f.debug_struct("Record")
            .field("status", &self.status())
            .field("number", &self.number())
            .field("consulted", &self.consulted())
            .field("tree", &self.tree())
            .finish()
    }
}

#[cfg(test)]
mod tests {
    use super::*;

    /// Reads what a policy's top node holds, and how many parts it has.
    fn parts(policy: PolicyRef<'_>) -> usize {
        match policy.node() {
            Policy::Permit(_) | Policy::Deny => 0,
            Policy::Grant(grant) => {
                let conditions = match grant.condition().node() {
                    Condition::All(arms) | Condition::Any(arms) => arms.count(),
                    _ => 1,
                };
                grant.obligations().count() + conditions
            }
            Policy::All(arms) | Policy::Any(arms) => arms.count(),
            Policy::OrElse { primary, fallback } => primary.words().len() + fallback.words().len(),
            Policy::PermitWithTrace(permit) => {
                permit.obligations().count() + permit.facts().count()
            }
            Policy::DenyWithTrace(deny) => deny.facts().count(),
        }
    }

    /// Words that no reader has accepted are never seen from outside; yet nothing here depends on that to end without a panic.
    #[test]
    fn any_words_are_walked_without_a_panic() {
        let mut drawn = 1_u32;
        for length in (0..24).cycle().take(5_000) {
            let words: [u32; 24] = core::array::from_fn(|_| {
                drawn = drawn.wrapping_mul(1_664_525).wrapping_add(1_013_904_223);
                drawn
            });
            let words = &words[..length];
            assert!(parts(PolicyRef::new(words)) <= 2 * 4_095);
            let record = Record { words };
            assert!(record.consulted().count() <= 4_095);
            assert!(parts(record.tree()) <= 2 * 4_095);
            let _ = (record.status(), record.number(), record.decision());
        }
    }
}
