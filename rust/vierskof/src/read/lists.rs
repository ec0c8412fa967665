//! The lists of a record and its nodes.

use core::fmt;
use core::iter::FusedIterator;

use super::words::{extent, word};
use super::{ConditionRef, PolicyRef};
use crate::{Fact, Obligation, Presence};

/// Fields of `WIDTH` bits, as many as a word holds, most significant first.
#[derive(Clone)]
pub struct Fields<'w, const WIDTH: usize> {
    words: &'w [u32],
    next: usize,
    end: usize,
}

impl<'w, const WIDTH: usize> Fields<'w, WIDTH> {
    pub const fn new(words: &'w [u32], end: usize) -> Self {
        Self {
            words,
            next: 0,
            end,
        }
    }
}

impl<const WIDTH: usize> Iterator for Fields<'_, WIDTH> {
    type Item = u32;

    fn next(&mut self) -> Option<u32> {
        if self.next == self.end {
            return None;
        }
        let bit = self.next * WIDTH;
        self.next += 1;
        Some(word(self.words, bit / 32) << (bit % 32) >> (32 - WIDTH))
    }

    fn size_hint(&self) -> (usize, Option<usize>) {
        let left = self.end - self.next;
        (left, Some(left))
    }
}

/// The words of each arm of a list, in order.
#[derive(Clone, PartialEq, Eq, Hash)]
pub struct Arms<'w> {
    rest: &'w [u32],
    left: usize,
}

impl<'w> Arms<'w> {
    pub const fn new(rest: &'w [u32], left: usize) -> Self {
        Self { rest, left }
    }
}

impl<'w> Iterator for Arms<'w> {
    type Item = &'w [u32];

    fn next(&mut self) -> Option<&'w [u32]> {
        self.left = self.left.checked_sub(1)?;
        let (arm, rest) = self.rest.split_at(extent(self.rest));
        self.rest = rest;
        Some(arm)
    }

    fn size_hint(&self) -> (usize, Option<usize>) {
        (self.left, Some(self.left))
    }
}

/// A public iterator over a private one.
macro_rules! list {
    ($(#[$doc:meta])* $name:ident<$w:lifetime>($inner:ty) -> $item:ty = $make:expr) => {
        $(#[$doc])*
        #[derive(Clone)]
        #[must_use = "an iterator does nothing until it is asked"]
        pub struct $name<$w>(pub(super) $inner);

        impl<$w> Iterator for $name<$w> {
            type Item = $item;

            fn next(&mut self) -> Option<$item> {
                self.0.next().map($make)
            }

            fn size_hint(&self) -> (usize, Option<usize>) {
                self.0.size_hint()
            }
        }

        impl ExactSizeIterator for $name<'_> {}

        impl FusedIterator for $name<'_> {}

        impl fmt::Debug for $name<'_> {
            fn fmt(&self, f: &mut fmt::Formatter<'_>) -> fmt::Result {
                f.debug_list().entries(self.clone()).finish()
            }
        }
    };
}

list! {
    /// Obligations; one may come twice.
    Obligations<'w>(Fields<'w, 8>) -> Obligation = Obligation::of_field
}
list! {
    /// The facts that a decision names; one may come twice.
    Facts<'w>(Fields<'w, 16>) -> Fact = Fact::of_field
}
list! {
    /// The facts that were read, in the order of reading.
    Consulted<'w>(Fields<'w, 16>) -> Observation = Observation::of_field
}
list! {
    /// The arms of a policy list, in order.
    #[derive(PartialEq, Eq, Hash)]
    Policies<'w>(Arms<'w>) -> PolicyRef<'w> = PolicyRef::new
}
list! {
    /// The arms of a condition list, in order.
    #[derive(PartialEq, Eq, Hash)]
    Conditions<'w>(Arms<'w>) -> ConditionRef<'w> = ConditionRef::new
}

/// A fact that was read, and how it read.
#[derive(Clone, Copy, Debug, PartialEq, Eq, Hash)]
#[non_exhaustive]
pub struct Observation {
    /// The fact.
    pub fact: Fact,
    /// How it read.
    pub reading: Reading,
}

/// How a fact read when it was consulted.
///
/// A record tells more than a table's field can, that the table ended before the fact, and may come to tell more yet, so this list is open;
/// [`presence`](Self::presence) is what any reading counts as.
///
/// ```
/// use vierskof::read::Reading;
/// use vierskof::{Fact, FactTable, Presence};
///
/// assert_eq!(Reading::Silent.presence(), Presence::Absent);
/// assert_eq!(Reading::from(Presence::Absent).to_string(), "absent");
/// assert_eq!(Reading::from(FactTable::new().observation(Fact::MAX)).to_string(), "silent");
/// ```
#[derive(Clone, Copy, Debug, PartialEq, Eq, Hash)]
#[non_exhaustive]
pub enum Reading {
    /// It wasn't so, and was entered as such.
    Absent,
    /// It was so.
    Present,
    /// Nobody had said. No call records it; a record that came from elsewhere may hold it.
    Unknown,
    /// The table ended before the fact, which is taken for Absent.
    Silent,
}

impl Observation {
    fn of_field(field: u32) -> Self {
        Self {
            fact: Fact::of_field(field),
            // Of the four values of two bits, 3 is silence and no presence.
            reading: Presence::of_field(field >> 14).into(),
        }
    }
}

impl Reading {
    /// The number that stands for it in a consulted entry.
    #[must_use]
    pub const fn number(self) -> u8 {
        match self {
            Self::Absent => 0,
            Self::Present => 1,
            Self::Unknown => 2,
            Self::Silent => 3,
        }
    }

    /// What the rules take it for.
    #[must_use]
    pub const fn presence(self) -> Presence {
        match self {
            Self::Absent | Self::Silent => Presence::Absent,
            Self::Present => Presence::Present,
            Self::Unknown => Presence::Unknown,
        }
    }
}

/// What was entered; none is silence.
impl From<Option<Presence>> for Reading {
    fn from(entered: Option<Presence>) -> Self {
        entered.map_or(Self::Silent, Self::from)
    }
}

impl From<Presence> for Reading {
    fn from(presence: Presence) -> Self {
        match presence {
            Presence::Absent => Self::Absent,
            Presence::Present => Self::Present,
            Presence::Unknown => Self::Unknown,
        }
    }
}

/// `absent`, `present`, `unknown` or `silent`, as in listings.
impl fmt::Display for Reading {
    fn fmt(&self, f: &mut fmt::Formatter<'_>) -> fmt::Result {
        match self {
            Self::Silent => f.pad("silent"),
            entered => entered.presence().fmt(f),
        }
    }
}
