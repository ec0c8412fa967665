//! The nodes of a tree.

use core::fmt;

use super::lists::{Arms, Conditions, Policies};
use super::words::{arms, extent, kind, outcome, tail, word};
use super::{DenyWithTrace, GrantRef, PermitWithTrace};
use crate::{Fact, Products};

/// A policy in a sheet or record.
#[derive(Clone, Copy, PartialEq, Eq, Hash)]
pub struct PolicyRef<'w> {
    words: &'w [u32],
}

/// A condition in a sheet or record.
#[derive(Clone, Copy, PartialEq, Eq, Hash)]
pub struct ConditionRef<'w> {
    words: &'w [u32],
}

/// A policy's top node.
#[derive(Clone, Debug, PartialEq, Eq, Hash)]
pub enum Policy<'w> {
    /// Permits its products.
    Permit(Products),
    /// Denies.
    Deny,
    /// Permits if its condition is true.
    Grant(GrantRef<'w>),
    /// Permits the products that all arms permit; the first arm that denies decides.
    All(Policies<'w>),
    /// Permits the products that any arm permits; denies if all do.
    Any(Policies<'w>),
    /// The primary decides; if it denies, the fallback does.
    OrElse {
        /// What decides first.
        primary: PolicyRef<'w>,
        /// What decides after a deny.
        fallback: PolicyRef<'w>,
    },
    /// A part that is decided already, in records only.
    PermitWithTrace(PermitWithTrace<'w>),
    /// A part that is decided already, in records only.
    DenyWithTrace(DenyWithTrace<'w>),
}

/// A condition's top node.
#[derive(Clone, Debug, PartialEq, Eq, Hash)]
pub enum Condition<'w> {
    /// True.
    Always,
    /// False.
    Never,
    /// True if the fact is Present.
    Has(Fact),
    /// True if the condition is false.
    Not(ConditionRef<'w>),
    /// True if all arms are; false if there is none.
    All(Conditions<'w>),
    /// True if any arm is.
    Any(Conditions<'w>),
}

/// The decision of a Resolved record.
#[derive(Clone, Copy, Debug, PartialEq, Eq, Hash)]
pub enum Decision<'w> {
    /// Permitted.
    Permit(PermitWithTrace<'w>),
    /// Denied.
    Deny(DenyWithTrace<'w>),
}

impl<'w> PolicyRef<'w> {
    pub(super) const fn new(words: &'w [u32]) -> Self {
        Self { words }
    }

    /// The policy's own words, arms and conditions included.
    #[must_use]
    pub const fn words(self) -> &'w [u32] {
        self.words
    }

    /// The top node.
    #[must_use]
    pub fn node(self) -> Policy<'w> {
        let words = self.words;
        match kind(words) {
            6 => Policy::Permit(outcome(words)),
            8 => Policy::Grant(GrantRef::new(words)),
            9 => Policy::All(self.arms()),
            10 => Policy::Any(self.arms()),
            11 => self.or_else(),
            12 => Policy::PermitWithTrace(PermitWithTrace::new(words)),
            13 => Policy::DenyWithTrace(DenyWithTrace::new(words)),
            // 7: no other kind stands where a policy does.
            _ => Policy::Deny,
        }
    }

    fn arms(self) -> Policies<'w> {
        Policies(Arms::new(tail(self.words, 1), arms(self.words)))
    }

    fn or_else(self) -> Policy<'w> {
        let both = tail(self.words, 1);
        let (primary, fallback) = both.split_at(extent(both));
        Policy::OrElse {
            primary: Self::new(primary),
            fallback: Self::new(fallback),
        }
    }
}

impl<'w> ConditionRef<'w> {
    pub(super) const fn new(words: &'w [u32]) -> Self {
        Self { words }
    }

    /// The condition's own words, arms included.
    #[must_use]
    pub const fn words(self) -> &'w [u32] {
        self.words
    }

    /// The top node.
    #[must_use]
    pub fn node(self) -> Condition<'w> {
        match kind(self.words) {
            0 => Condition::Always,
            2 => Condition::Has(Fact::of_field(word(self.words, 0))),
            3 => Condition::Not(Self::new(tail(self.words, 1))),
            4 => Condition::All(self.arms()),
            5 => Condition::Any(self.arms()),
            // 1: no other kind stands where a condition does.
            _ => Condition::Never,
        }
    }

    fn arms(self) -> Conditions<'w> {
        Conditions(Arms::new(tail(self.words, 1), arms(self.words)))
    }
}

impl fmt::Debug for PolicyRef<'_> {
    fn fmt(&self, f: &mut fmt::Formatter<'_>) -> fmt::Result {
        self.node().fmt(f)
    }
}

impl fmt::Debug for ConditionRef<'_> {
    fn fmt(&self, f: &mut fmt::Formatter<'_>) -> fmt::Result {
        self.node().fmt(f)
    }
}
