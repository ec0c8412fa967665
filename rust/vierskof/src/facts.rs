//! What is known of facts: presences, tables and sets.

mod set;
mod table;

use core::fmt;

pub use set::{FactSet, FactSetIter};
pub use table::FactTable;

/// What a table says of a fact.
///
/// A table has a field for these three and no more. How a fact read is told by a type of its own, [`Reading`](crate::read::Reading), which has silence too.
///
/// ```
/// use vierskof::Presence;
///
/// assert_eq!(Presence::default(), Presence::Absent);
/// assert_eq!(Presence::Unknown.to_string(), "unknown");
/// ```
#[derive(Clone, Copy, Debug, Default, PartialEq, Eq, Hash)]
pub enum Presence {
    /// It isn't so.
    #[default]
    Absent,
    /// It is so.
    Present,
    /// Nobody has said yet.
    Unknown,
}

impl Presence {
    /// The presence of a field; there is none for 3.
    pub(crate) const fn of_field(field: u32) -> Option<Self> {
        match field {
            0 => Some(Self::Absent),
            1 => Some(Self::Present),
            2 => Some(Self::Unknown),
            _ => None,
        }
    }

    const fn field(self) -> u8 {
        match self {
            Self::Absent => 0,
            Self::Present => 1,
            Self::Unknown => 2,
        }
    }
}

/// `absent`, `present` or `unknown`, as in listings.
impl fmt::Display for Presence {
    fn fmt(&self, f: &mut fmt::Formatter<'_>) -> fmt::Result {
        f.pad(match self {
            Self::Absent => "absent",
            Self::Present => "present",
            Self::Unknown => "unknown",
        })
    }
}
