//! Sheets, residuals and records as trees, with numbers where the original has strings.

use std::convert::Infallible;

use gatekeep::{DenyShape, Presence};

use super::{LIST, TRACE_OBLIGATIONS};
use crate::products::Products;

/// Kinds 0 to 5.
#[derive(Clone, Debug, PartialEq, Eq)]
pub enum Condition {
    /// Kind 0.
    Always,
    /// Kind 1.
    Never,
    /// Kind 2, with its fact.
    Has(u16),
    /// Kind 3.
    Not(Box<Self>),
    /// Kind 4.
    All(Vec<Self>),
    /// Kind 5.
    Any(Vec<Self>),
}

/// Kind 8.
#[derive(Clone, Debug, PartialEq, Eq)]
pub struct Grant {
    /// What a true condition permits.
    pub outcome: Products,
    /// The shape of the deny that a false condition gives.
    pub shape: DenyShape,
    /// The clause's label.
    pub label: Option<u16>,
    /// The deny's reason.
    pub reason: Option<u16>,
    /// The permit's obligations.
    pub obligations: Vec<u8>,
    /// What decides between permit and deny.
    pub condition: Condition,
}

/// A resolved permit: kind 12.
#[derive(Clone, Debug, PartialEq, Eq)]
pub struct Permit {
    /// What is permitted.
    pub outcome: Products,
    /// On which obligations.
    pub obligations: Vec<u8>,
    /// The facts that the clause names.
    pub satisfied: Vec<u16>,
    /// The clause's label.
    pub label: Option<u16>,
}

/// A resolved deny: kind 13.
#[derive(Clone, Debug, PartialEq, Eq)]
pub struct Deny {
    /// What a grant would have permitted.
    pub denied: Option<Products>,
    /// The facts that the clause names.
    pub unsatisfied: Vec<u16>,
    /// The clause's label.
    pub label: Option<u16>,
    /// The clause's reason.
    pub reason: Option<u16>,
    /// The clause's shape.
    pub shape: DenyShape,
}

/// A resolved part: kind 12 or 13.
#[derive(Clone, Debug, PartialEq, Eq)]
pub enum Decided {
    /// Kind 12.
    Permit(Permit),
    /// Kind 13.
    Deny(Deny),
}

/// A policy tree. `S` is what its nodes 12 and 13 hold.
#[derive(Clone, Debug, PartialEq, Eq)]
pub enum Tree<S> {
    /// Kind 6.
    Permit(Products),
    /// Kind 7.
    Deny,
    /// Kind 8.
    Grant(Grant),
    /// Kind 9.
    All(Vec<Self>),
    /// Kind 10.
    Any(Vec<Self>),
    /// Kind 11: primary and fallback.
    OrElse(Box<Self>, Box<Self>),
    /// Kind 12 or 13.
    Stored(S),
}

/// A sheet: nothing can stand where nodes 12 and 13 would.
pub type Sheet = Tree<Infallible>;

/// A record's tree.
pub type Residual = Tree<Decided>;

/// How a consulted fact read: what the table said of it, or that the table ended before it (request 9), which the original's entries don't tell.
#[derive(Clone, Copy, Debug, PartialEq, Eq)]
pub enum Seen {
    /// Presence 0.
    Absent,
    /// Presence 1.
    Present,
    /// Presence 2.
    Unknown,
    /// Presence 3.
    Silent,
}

/// A consulted fact and how it read.
pub type Entry = (u16, Seen);

/// What reducing, narrowing and completing write.
#[derive(Clone, Debug, PartialEq, Eq)]
pub enum Record {
    /// Lead 14.
    Resolved {
        /// Facts read, as stored.
        consulted: Vec<Entry>,
        /// The record's one node.
        decided: Decided,
    },
    /// Lead 15.
    Pending {
        /// Facts read, as stored.
        consulted: Vec<Entry>,
        /// What remains to be decided.
        residual: Residual,
    },
}

impl From<Option<Presence>> for Seen {
    fn from(observation: Option<Presence>) -> Self {
        match observation {
            Some(Presence::Absent) => Self::Absent,
            Some(Presence::Present) => Self::Present,
            Some(Presence::Unknown) => Self::Unknown,
            None => Self::Silent,
        }
    }
}

impl Permit {
    /// A permit that names nothing.
    pub const fn plain(outcome: Products) -> Self {
        Self {
            outcome,
            obligations: Vec::new(),
            satisfied: Vec::new(),
            label: None,
        }
    }
}

impl Deny {
    /// The deny of a Deny node and of an empty list.
    pub const fn plain() -> Self {
        Self {
            denied: None,
            unsatisfied: Vec::new(),
            label: None,
            reason: None,
            shape: DenyShape::Forbidden,
        }
    }
}

impl Decided {
    /// The facts that the clause names.
    pub fn facts(&self) -> &[u16] {
        match self {
            Self::Permit(permit) => &permit.satisfied,
            Self::Deny(deny) => &deny.unsatisfied,
        }
    }

    /// The permit's obligations; a deny has none.
    pub fn obligations(&self) -> &[u8] {
        match self {
            Self::Permit(permit) => &permit.obligations,
            Self::Deny(_) => &[],
        }
    }

    /// Whether its counts can say how many facts and obligations it has.
    pub fn is_countable(&self) -> bool {
        self.facts().len() <= LIST && self.obligations().len() <= TRACE_OBLIGATIONS
    }

    /// The same without its facts: effect, outcome, denied outcome, obligations, label, reason and shape.
    #[must_use]
    pub fn without_facts(mut self) -> Self {
        match &mut self {
            Self::Permit(permit) => permit.satisfied.clear(),
            Self::Deny(deny) => deny.unsatisfied.clear(),
        }
        self
    }

    /// The products of a permit; a deny has none, whatever outcome it denied.
    pub const fn products(&self) -> Option<Products> {
        match self {
            Self::Permit(permit) => Some(permit.outcome),
            Self::Deny(_) => None,
        }
    }
}

impl From<Sheet> for Residual {
    fn from(sheet: Sheet) -> Self {
        let arms = |arms: Vec<Sheet>| arms.into_iter().map(Self::from).collect();
        match sheet {
            Tree::Permit(outcome) => Self::Permit(outcome),
            Tree::Deny => Self::Deny,
            Tree::Grant(grant) => Self::Grant(grant),
            Tree::All(found) => Self::All(arms(found)),
            Tree::Any(found) => Self::Any(arms(found)),
            Tree::OrElse(primary, fallback) => {
                Self::OrElse(Box::new((*primary).into()), Box::new((*fallback).into()))
            }
            Tree::Stored(never) => match never {},
        }
    }
}

impl Residual {
    /// The nodes 12 and 13 of the tree, from the left.
    pub fn stored(&self) -> Vec<&Decided> {
        match self {
            Self::Permit(_) | Self::Deny | Self::Grant(_) => Vec::new(),
            Self::All(arms) | Self::Any(arms) => arms.iter().flat_map(Self::stored).collect(),
            Self::OrElse(primary, fallback) => [primary.stored(), fallback.stored()].concat(),
            Self::Stored(decided) => vec![decided],
        }
    }

    /// The obligations of each Grant of the tree, from the left.
    pub fn granted(&self) -> Vec<&[u8]> {
        match self {
            Self::Permit(_) | Self::Deny | Self::Stored(_) => Vec::new(),
            Self::Grant(grant) => vec![&grant.obligations],
            Self::All(arms) | Self::Any(arms) => arms.iter().flat_map(Self::granted).collect(),
            Self::OrElse(primary, fallback) => [primary.granted(), fallback.granted()].concat(),
        }
    }
}

impl Record {
    /// Facts read, as stored.
    pub fn consulted(&self) -> &[Entry] {
        let (Self::Resolved { consulted, .. } | Self::Pending { consulted, .. }) = self;
        consulted
    }

    /// The same, to be changed.
    pub fn consulted_mut(&mut self) -> &mut [Entry] {
        let (Self::Resolved { consulted, .. } | Self::Pending { consulted, .. }) = self;
        consulted
    }

    /// The record's nodes 12 and 13, from the left.
    pub fn stored(&self) -> Vec<&Decided> {
        match self {
            Self::Resolved { decided, .. } => vec![decided],
            Self::Pending { residual, .. } => residual.stored(),
        }
    }

    /// Whether the counts of its nodes 12 and 13 can say how long their lists are.
    pub fn is_countable(&self) -> bool {
        self.stored().into_iter().all(Decided::is_countable)
    }
}
