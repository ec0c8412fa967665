//! Fact tables.

use core::fmt;

use super::Presence;
use crate::{Fact, Refusal, TABLE_BYTES};

/// Facts in a byte.
const FIELDS: usize = 4;

/// What is known of every fact.
///
/// A table speaks of its first facts, four for each byte. What comes after them is Absent too, but by silence: a fact that is entered as Absent stays in
/// the table, which therefore keeps its length, and tables of unlike lengths are unlike. [`observation`](Self::observation) tells the two apart, as the
/// trace of a record does; [`presence`](Self::presence) is what decisions go by.
///
/// [`new`](Self::new) begins with silence, as one sitting wants it: what isn't said isn't so. Whoever holds only some of the facts begins with
/// [`unknown`](Self::unknown).
///
/// ```
/// use vierskof::{Fact, FactTable, Presence};
///
/// const MEMBER: Fact = Fact::new(5).unwrap();
/// const SIGNED: Fact = Fact::new(6).unwrap();
///
/// let table = FactTable::new()
///     .with(MEMBER, Presence::Present)
///     .with(SIGNED, Presence::Unknown);
/// assert_eq!(table.presence(SIGNED), Presence::Unknown);
/// assert_eq!(table.presence(Fact::MAX), Presence::Absent);
/// assert_eq!(table.observation(Fact::MAX), None);
/// assert_eq!(table.as_bytes(), [0x00, 0x18]);
/// assert!(!table.is_known());
/// ```
#[derive(Clone, PartialEq, Eq, Hash)]
pub struct FactTable {
    /// All 0 from `length` on, so that equal tables are equal throughout.
    bytes: [u8; TABLE_BYTES],
    length: usize,
}

impl FactTable {
    /// A table that says nothing, so that every fact is Absent.
    #[must_use]
    pub const fn new() -> Self {
        Self {
            bytes: [0; TABLE_BYTES],
            length: 0,
        }
    }

    /// A table with every fact Unknown: what a relay begins with, to enter the facts that it holds.
    ///
    /// ```
    /// use vierskof::{Fact, FactTable, Presence};
    ///
    /// const MEMBER: Fact = Fact::new(5).unwrap();
    ///
    /// let held = FactTable::unknown().with(MEMBER, Presence::Present);
    /// assert_eq!(held.presence(Fact::MAX), Presence::Unknown);
    /// assert_eq!(held.as_bytes().len(), 256);
    /// ```
    #[must_use]
    pub const fn unknown() -> Self {
        Self {
            bytes: [0xAA; TABLE_BYTES],
            length: TABLE_BYTES,
        }
    }

    /// The table that these bytes say: at most 256, four 2-bit fields a byte, most significant first, 0 Absent, 1 Present, 2 Unknown.
    ///
    /// ```
    /// use vierskof::{FactTable, Refusal};
    ///
    /// assert!(FactTable::from_bytes(&[0x00, 0x10])?.is_known());
    /// assert_eq!(FactTable::from_bytes(&[0; 257]), Err(Refusal::TableLength));
    /// assert_eq!(FactTable::from_bytes(&[0x0C]), Err(Refusal::TableField));
    /// # Ok::<(), Refusal>(())
    /// ```
    ///
    /// # Errors
    ///
    /// [`Refusal::TableLength`], and then [`Refusal::TableField`] for a field 3.
    pub fn from_bytes(given: &[u8]) -> Result<Self, Refusal> {
        let mut table = Self::new();
        let bytes = table.bytes.get_mut(..given.len());
        bytes.ok_or(Refusal::TableLength)?.copy_from_slice(given);
        let three = |byte: &u8| byte & byte >> 1 & 0x55 != 0;
        if given.iter().any(three) {
            return Err(Refusal::TableField);
        }
        table.length = given.len();
        Ok(table)
    }

    /// The table's bytes, up to the last fact that was entered; calls take them.
    #[must_use]
    pub fn as_bytes(&self) -> &[u8] {
        self.bytes.get(..self.length).unwrap_or_default()
    }

    /// The table in 256 bytes, its whole length, as [`apply_windows`](crate::apply_windows) needs it: silence has become Absent.
    ///
    /// ```
    /// use vierskof::{Fact, FactTable, Presence};
    ///
    /// const MEMBER: Fact = Fact::new(5).unwrap();
    ///
    /// let bytes = FactTable::new().with(MEMBER, Presence::Present).to_bytes();
    /// assert_eq!((bytes[1], bytes.len()), (0x10, 256));
    /// ```
    #[must_use]
    pub const fn to_bytes(&self) -> [u8; TABLE_BYTES] {
        self.bytes
    }

    /// Says what is known of a fact, instead of what was said before. The table ends no earlier than with the byte of this fact.
    ///
    /// ```
    /// use vierskof::{Fact, FactTable, Presence};
    ///
    /// const MEMBER: Fact = Fact::new(5).unwrap();
    ///
    /// let table = FactTable::new().with(MEMBER, Presence::Absent);
    /// assert_eq!(table.as_bytes(), [0x00, 0x00]);
    /// assert_ne!(table, FactTable::new());
    /// ```
    pub fn set(&mut self, fact: Fact, presence: Presence) -> &mut Self {
        let (at, shift) = place(fact);
        if let Some(byte) = self.bytes.get_mut(at) {
            *byte = *byte & !(3 << shift) | presence.field() << shift;
        }
        self.length = self.length.max(at + 1);
        self
    }

    /// The table after [`set`](Self::set).
    #[must_use]
    pub fn with(mut self, fact: Fact, presence: Presence) -> Self {
        self.set(fact, presence);
        self
    }

    /// What is known of a fact. Where the table is silent it is Absent.
    #[must_use]
    pub fn presence(&self, fact: Fact) -> Presence {
        self.observation(fact).unwrap_or_default()
    }

    /// What was entered of a fact, and none where the table ends before it. The other facts of a byte are entered with the one for which it is there.
    ///
    /// ```
    /// use vierskof::{Fact, FactTable, Presence};
    ///
    /// const MEMBER: Fact = Fact::new(5).unwrap();
    /// const BESIDE: Fact = Fact::new(7).unwrap();
    /// const LATER: Fact = Fact::new(8).unwrap();
    ///
    /// let table = FactTable::new().with(MEMBER, Presence::Absent);
    /// assert_eq!(table.observation(MEMBER), Some(Presence::Absent));
    /// assert_eq!(table.observation(BESIDE), Some(Presence::Absent));
    /// assert_eq!(table.observation(LATER), None);
    /// ```
    #[must_use]
    pub fn observation(&self, fact: Fact) -> Option<Presence> {
        let (at, shift) = place(fact);
        let byte = self.as_bytes().get(at)?;
        Presence::of_field(u32::from(byte >> shift & 3))
    }

    /// Whether no fact is Unknown, as evaluating and completing need it.
    #[must_use]
    pub fn is_known(&self) -> bool {
        self.bytes.iter().all(|byte| byte & 0xAA == 0)
    }
}

/// The byte of a fact's field, and how far from the right the field is.
fn place(fact: Fact) -> (usize, usize) {
    let fact = usize::from(fact.number());
    (fact / FIELDS, 2 * (FIELDS - 1 - fact % FIELDS))
}

impl Default for FactTable {
    fn default() -> Self {
        Self::new()
    }
}

impl AsRef<[u8]> for FactTable {
    fn as_ref(&self) -> &[u8] {
        self.as_bytes()
    }
}

impl Extend<(Fact, Presence)> for FactTable {
    fn extend<I: IntoIterator<Item = (Fact, Presence)>>(&mut self, said: I) {
        for (fact, presence) in said {
            self.set(fact, presence);
        }
    }
}

/// Of a fact that comes twice, the last is kept.
impl FromIterator<(Fact, Presence)> for FactTable {
    fn from_iter<I: IntoIterator<Item = (Fact, Presence)>>(said: I) -> Self {
        let mut table = Self::new();
        table.extend(said);
        table
    }
}

/// How many facts it speaks of, and those that aren't Absent.
impl fmt::Debug for FactTable {
    fn fmt(&self, f: &mut fmt::Formatter<'_>) -> fmt::Result {
        let facts = (0..=Fact::MAX.number()).filter_map(Fact::new);
        let said = facts.map(|fact| (fact.number(), self.presence(fact)));
        let said = said.filter(|&(_, presence)| presence != Presence::Absent);
        write!(f, "FactTable of {} ", FIELDS * self.length)?;
        f.debug_map().entries(said).finish()
    }
}
