//! Grants and stored decisions: the nodes that are more than a word and their arms.

use core::fmt;

use super::ConditionRef;
use super::lists::{Facts, Fields, Obligations};
use super::words::{count, obligations, outcome, quarters, tail, word};
use crate::{Label, Products, Reason, Shape};

/// Permits its products if its condition is true, and denies them otherwise.
#[derive(Clone, Copy, PartialEq, Eq, Hash)]
pub struct GrantRef<'w> {
    words: &'w [u32],
}

impl<'w> GrantRef<'w> {
    pub(super) const fn new(words: &'w [u32]) -> Self {
        Self { words }
    }

    /// What a true condition permits.
    #[must_use]
    pub fn outcome(self) -> Products {
        outcome(self.words)
    }

    /// The shape of the deny that a false condition gives.
    #[must_use]
    pub fn shape(self) -> Shape {
        shape(self.words)
    }

    /// The clause's label.
    #[must_use]
    pub fn label(self) -> Option<Label> {
        label(self.words)
    }

    /// The deny's reason.
    #[must_use]
    pub fn reason(self) -> Option<Reason> {
        reason(self.words)
    }

    /// The permit's obligations.
    pub fn obligations(self) -> Obligations<'w> {
        obligations_of(self.words)
    }

    /// What decides between permit and deny.
    #[must_use]
    pub fn condition(self) -> ConditionRef<'w> {
        let obligations = quarters(obligations(word(self.words, 0)));
        ConditionRef::new(tail(self.words, 2 + obligations))
    }
}

impl fmt::Debug for GrantRef<'_> {
    fn fmt(&self, f: &mut fmt::Formatter<'_>) -> fmt::Result {
        f.debug_struct("GrantRef")
            .field("outcome", &self.outcome())
            .field("shape", &self.shape())
            .field("label", &self.label())
            .field("reason", &self.reason())
            .field("obligations", &self.obligations())
            .field("condition", &self.condition())
            .finish()
    }
}

/// A permit with what it rests on.
#[derive(Clone, Copy, PartialEq, Eq, Hash)]
pub struct PermitWithTrace<'w> {
    words: &'w [u32],
}

impl<'w> PermitWithTrace<'w> {
    pub(super) const fn new(words: &'w [u32]) -> Self {
        Self { words }
    }

    /// What is permitted.
    #[must_use]
    pub fn outcome(self) -> Products {
        outcome(self.words)
    }

    /// The clause's label.
    #[must_use]
    pub fn label(self) -> Option<Label> {
        label(self.words)
    }

    /// What goes with the permit.
    pub fn obligations(self) -> Obligations<'w> {
        obligations_of(self.words)
    }

    /// The facts that satisfied the clause.
    pub fn facts(self) -> Facts<'w> {
        let obligations = quarters(obligations(word(self.words, 0)));
        let facts = tail(self.words, 2 + obligations);
        Facts(Fields::new(facts, count(word(self.words, 1))))
    }
}

impl fmt::Debug for PermitWithTrace<'_> {
    fn fmt(&self, f: &mut fmt::Formatter<'_>) -> fmt::Result {
        f.debug_struct("PermitWithTrace")
            .field("outcome", &self.outcome())
            .field("label", &self.label())
            .field("obligations", &self.obligations())
            .field("facts", &self.facts())
            .finish()
    }
}

/// A deny with what it rests on.
#[derive(Clone, Copy, PartialEq, Eq, Hash)]
pub struct DenyWithTrace<'w> {
    words: &'w [u32],
}

impl<'w> DenyWithTrace<'w> {
    pub(super) const fn new(words: &'w [u32]) -> Self {
        Self { words }
    }

    /// What a grant would have permitted.
    #[must_use]
    pub fn denied(self) -> Option<Products> {
        let present = word(self.words, 0) >> 26 & 1 == 1;
        present.then(|| outcome(self.words))
    }

    /// How the deny is to be shown.
    #[must_use]
    pub fn shape(self) -> Shape {
        shape(self.words)
    }

    /// The clause's label.
    #[must_use]
    pub fn label(self) -> Option<Label> {
        label(self.words)
    }

    /// The clause's reason.
    #[must_use]
    pub fn reason(self) -> Option<Reason> {
        reason(self.words)
    }

    /// The facts that didn't satisfy the clause.
    pub fn facts(self) -> Facts<'w> {
        Facts(Fields::new(tail(self.words, 3), count(word(self.words, 2))))
    }
}

impl fmt::Debug for DenyWithTrace<'_> {
    fn fmt(&self, f: &mut fmt::Formatter<'_>) -> fmt::Result {
        f.debug_struct("DenyWithTrace")
            .field("denied", &self.denied())
            .field("shape", &self.shape())
            .field("label", &self.label())
            .field("reason", &self.reason())
            .field("facts", &self.facts())
            .finish()
    }
}

fn shape(words: &[u32]) -> Shape {
    if word(words, 0) >> 27 & 1 == 1 {
        Shape::Hidden
    } else {
        Shape::Forbidden
    }
}

/// The label in the upper half of a second word, if its top bit says that there is one.
fn label(words: &[u32]) -> Option<Label> {
    let half = word(words, 1) >> 16;
    (half >> 15 == 1).then(|| Label::of_field(half))
}

/// The reason in the lower half, likewise.
fn reason(words: &[u32]) -> Option<Reason> {
    let half = word(words, 1) & 0xFFFF;
    (half >> 15 == 1).then(|| Reason::of_field(half))
}

fn obligations_of(words: &[u32]) -> Obligations<'_> {
    Obligations(Fields::new(tail(words, 2), obligations(word(words, 0))))
}
