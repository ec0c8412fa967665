//! Sets of facts.

use core::fmt;
use core::iter::FusedIterator;

use crate::Fact;

/// The top bit of a number.
const TOP: u64 = 1 << 63;

/// A set of facts: sixteen numbers, fact 0 the top bit of the first.
///
/// ```
/// use vierskof::{Fact, FactSet};
///
/// const MEMBER: Fact = Fact::new(5).unwrap();
///
/// let set = FactSet::from_iter([Fact::MAX, MEMBER]);
/// assert!(set.contains(MEMBER));
/// assert_eq!(set.len(), 2);
/// assert!(set.iter().eq([MEMBER, Fact::MAX]));
/// assert_eq!(set.numbers()[0], 1 << (63 - 5));
/// ```
#[derive(Clone, Copy, Default, PartialEq, Eq, Hash)]
pub struct FactSet {
    numbers: [u64; 16],
}

impl FactSet {
    /// The set whose bits are these.
    #[must_use]
    pub const fn from_numbers(numbers: [u64; 16]) -> Self {
        Self { numbers }
    }

    /// The sixteen numbers.
    #[must_use]
    pub const fn numbers(&self) -> &[u64; 16] {
        &self.numbers
    }

    /// Whether the fact is in it.
    #[must_use]
    pub fn contains(&self, fact: Fact) -> bool {
        let (at, bit) = place(fact);
        self.numbers.get(at).is_some_and(|number| number & bit != 0)
    }

    /// How many facts are in it.
    #[must_use]
    pub fn len(&self) -> usize {
        ones(&self.numbers)
    }

    /// Whether no fact is in it.
    #[must_use]
    pub fn is_empty(&self) -> bool {
        self.len() == 0
    }

    /// Its facts, ascending.
    pub fn iter(&self) -> FactSetIter<'_> {
        FactSetIter { set: self, next: 0 }
    }
}

/// The number of a fact's bit, and the bit.
fn place(fact: Fact) -> (usize, u64) {
    let fact = fact.number();
    (usize::from(fact / 64), TOP >> (fact % 64))
}

fn ones(numbers: &[u64]) -> usize {
    numbers
        .iter()
        .map(|number| number.count_ones() as usize)
        .sum()
}

impl Extend<Fact> for FactSet {
    fn extend<I: IntoIterator<Item = Fact>>(&mut self, facts: I) {
        for fact in facts {
            let (at, bit) = place(fact);
            if let Some(number) = self.numbers.get_mut(at) {
                *number |= bit;
            }
        }
    }
}

impl FromIterator<Fact> for FactSet {
    fn from_iter<I: IntoIterator<Item = Fact>>(facts: I) -> Self {
        let mut set = Self::default();
        set.extend(facts);
        set
    }
}

impl<'s> IntoIterator for &'s FactSet {
    type Item = Fact;
    type IntoIter = FactSetIter<'s>;

    fn into_iter(self) -> FactSetIter<'s> {
        self.iter()
    }
}

impl fmt::Debug for FactSet {
    fn fmt(&self, f: &mut fmt::Formatter<'_>) -> fmt::Result {
        f.debug_set()
            .entries(self.iter().map(Fact::number))
            .finish()
    }
}

/// The facts of a set, ascending.
#[derive(Clone, Debug)]
#[must_use = "an iterator does nothing until it is asked"]
pub struct FactSetIter<'s> {
    set: &'s FactSet,
    next: u32,
}

impl FactSetIter<'_> {
    /// What is left of the number that has the next fact's bit, that bit at the top.
    fn begun(&self) -> Option<u64> {
        let number = self.set.numbers.get((self.next / 64) as usize)?;
        Some(number << (self.next % 64))
    }
}

impl Iterator for FactSetIter<'_> {
    type Item = Fact;

    fn next(&mut self) -> Option<Fact> {
        loop {
            let begun = self.begun()?;
            if begun == 0 {
                self.next = self.next / 64 * 64 + 64;
            } else {
                let fact = self.next + begun.leading_zeros();
                self.next = fact + 1;
                return Some(Fact::of_field(fact));
            }
        }
    }

    fn size_hint(&self) -> (usize, Option<usize>) {
        let later = self.set.numbers.get((self.next / 64) as usize + 1..);
        let begun = [self.begun().unwrap_or_default()];
        let left = ones(&begun) + ones(later.unwrap_or_default());
        (left, Some(left))
    }
}

impl ExactSizeIterator for FactSetIter<'_> {}

impl FusedIterator for FactSetIter<'_> {}
