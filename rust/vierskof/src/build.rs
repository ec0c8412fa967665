//! A sheet as a value, and its words.
//!
//! The values lend each other their parts, so that nothing is allocated. What can't be a sheet is
//! refused before a word is written.
//!
//! ```
//! use vierskof::build::{Condition, Grant, Policy};
//! use vierskof::{Fact, Label, Products};
//!
//! const MEMBER: Fact = Fact::new(5).unwrap();
//! const CLOSED: Fact = Fact::new(6).unwrap();
//! const MEMBERS: Label = Label::new(1).unwrap();
//!
//! // Members may read everything unless the gauge is closed; others are told of nothing.
//! let closed = Condition::Has(CLOSED);
//! let arms = [Condition::Has(MEMBER), Condition::Not(&closed)];
//! let open_to_members = Condition::All(&arms);
//! let grant = Grant::new(Products::ALL, &open_to_members).hidden().label(MEMBERS);
//!
//! let mut words = [0; 16];
//! let sheet = Policy::Grant(grant).write(&mut words)?;
//! assert_eq!(
//!     sheet.words(),
//!     [0x8800_FFFF, 0x8001_0000, 0x4000_0002, 0x2000_0005, 0x3000_0000, 0x2000_0006],
//! );
//! # Ok::<(), vierskof::build::Unwritable>(())
//! ```

mod write;

use core::error::Error;
use core::fmt;

use self::write::Output;
use crate::read::Sheet;
use crate::{Fact, Label, Obligation, Products, Reason, Shape};

/// What a grant asks of the facts.
#[derive(Clone, Copy, Debug, PartialEq, Eq, Hash)]
#[non_exhaustive]
pub enum Condition<'t> {
    /// True.
    Always,
    /// False.
    Never,
    /// True if the fact is Present.
    Has(Fact),
    /// True if the condition is false.
    Not(&'t Condition<'t>),
    /// True if all arms are; false if there is none.
    All(&'t [Condition<'t>]),
    /// True if any arm is.
    Any(&'t [Condition<'t>]),
}

/// Who may read what.
#[derive(Clone, Copy, Debug, PartialEq, Eq, Hash)]
#[non_exhaustive]
pub enum Policy<'t> {
    /// Permits its products.
    Permit(Products),
    /// Denies.
    Deny,
    /// Permits if its condition is true.
    Grant(Grant<'t>),
    /// Permits the products that all arms permit; the first arm that denies decides.
    All(&'t [Policy<'t>]),
    /// Permits the products that any arm permits; denies if all do.
    Any(&'t [Policy<'t>]),
    /// The primary decides; if it denies, the fallback does.
    OrElse(&'t Policy<'t>, &'t Policy<'t>),
}

/// Permits its products if its condition is true, and denies them otherwise.
///
/// ```
/// use vierskof::build::{Condition, Grant, Policy};
/// use vierskof::{Obligation, Products, Reason};
///
/// const NAME_THE_SOURCE: Obligation = Obligation::new(7).unwrap();
/// const CLOSED: Reason = Reason::new(2).unwrap();
///
/// let grant = Grant::new(Products::from_bits(1), &Condition::Never)
///     .reason(CLOSED)
///     .obligations(&[NAME_THE_SOURCE]);
/// let mut out = [0; 4];
/// let sheet = Policy::Grant(grant).write(&mut out)?;
/// assert_eq!(sheet.words(), [0x8010_0001, 0x0000_8002, 0x0700_0000, 0x1000_0000]);
/// # Ok::<(), vierskof::build::Unwritable>(())
/// ```
#[derive(Clone, Copy, Debug, PartialEq, Eq, Hash)]
pub struct Grant<'t> {
    outcome: Products,
    condition: &'t Condition<'t>,
    shape: Shape,
    label: Option<Label>,
    reason: Option<Reason>,
    obligations: &'t [Obligation],
}

/// Why a policy can't be written as a sheet: the first cause from its top down, [`Room`](Self::Room) last. Nothing was written.
///
/// ```
/// use vierskof::build::{Policy, Unwritable};
///
/// let mut out = [1, 2];
/// let arms = [Policy::Deny, Policy::Deny];
/// assert_eq!(Policy::All(&arms).write(&mut out), Err(Unwritable::Room));
/// assert_eq!(out, [1, 2]);
/// ```
#[derive(Clone, Copy, Debug, PartialEq, Eq, Hash)]
#[non_exhaustive]
pub enum Unwritable {
    /// A node stands on a 33rd level.
    Levels,
    /// A list has more than 4,095 arms.
    Arms,
    /// The sheet has more than 4,096 words.
    Words,
    /// A grant has more than 64 obligations.
    Obligations,
    /// The output is shorter than the sheet.
    Room,
}

impl<'t> Grant<'t> {
    /// A grant of these products on this condition, whose deny is Forbidden, without label, reason or obligation.
    #[must_use]
    pub const fn new(outcome: Products, condition: &'t Condition<'t>) -> Self {
        Self {
            outcome,
            condition,
            shape: Shape::Forbidden,
            label: None,
            reason: None,
            obligations: &[],
        }
    }

    /// Its deny is Hidden.
    #[must_use]
    pub const fn hidden(mut self) -> Self {
        self.shape = Shape::Hidden;
        self
    }

    /// Its clause has this label.
    #[must_use]
    pub const fn label(mut self, label: Label) -> Self {
        self.label = Some(label);
        self
    }

    /// Its deny has this reason.
    #[must_use]
    pub const fn reason(mut self, reason: Reason) -> Self {
        self.reason = Some(reason);
        self
    }

    /// Its permit has these obligations, at most 64. One that stands there twice is written twice.
    #[must_use]
    pub const fn obligations(mut self, obligations: &'t [Obligation]) -> Self {
        self.obligations = obligations;
        self
    }
}

impl Policy<'_> {
    /// How many words the sheet has.
    ///
    /// ```
    /// use vierskof::build::Policy;
    ///
    /// assert_eq!(Policy::OrElse(&Policy::Deny, &Policy::Deny).len(), Ok(3));
    /// ```
    ///
    /// # Errors
    ///
    /// Every [`Unwritable`] but [`Unwritable::Room`].
    #[expect(clippy::len_without_is_empty, reason = "every sheet has a word")]
    pub fn len(&self) -> Result<usize, Unwritable> {
        let mut counted = Output::new(&mut []);
        self.put(1, &mut counted)?;
        Ok(counted.length())
    }

    /// Writes the sheet to the first words of `out`, and leaves the later ones as they were.
    ///
    /// # Errors
    ///
    /// Every [`Unwritable`] may come; then nothing was written.
    pub fn write<'o>(&self, out: &'o mut [u32]) -> Result<Sheet<'o>, Unwritable> {
        let words = out.get_mut(..self.len()?).ok_or(Unwritable::Room)?;
        self.put(1, &mut Output::new(words))?;
        Ok(Sheet::built(words))
    }
}

impl fmt::Display for Unwritable {
    fn fmt(&self, f: &mut fmt::Formatter<'_>) -> fmt::Result {
        f.pad(match self {
            Self::Levels => "the policy has more than 32 levels",
            Self::Arms => "a list has more than 4095 arms",
            Self::Words => "the sheet has more than 4096 words",
            Self::Obligations => "a grant has more than 64 obligations",
            Self::Room => "the output is shorter than the sheet",
        })
    }
}

impl Error for Unwritable {}
