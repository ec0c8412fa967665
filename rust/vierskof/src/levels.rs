//! Outcome tables: levels in place of sets of products.

use core::fmt;

use crate::calls::written;
use crate::{Refusal, c};

/// An outcome table: how many levels there are, numbered from 0, and what any two of them meet and join in.
///
/// It is a lattice of 1 to 16 levels: both operations are commutative and associative, and absorb each other. Nothing else is asked, so that level 0 may be the
/// greatest, and the operations need not distribute. Whether a table is one is told by the proved code, and told again by every call: nothing is kept between
/// calls.
///
/// ```
/// use vierskof::{Levels, Refusal};
///
/// // Two levels: the meets of 0 and 0, 0 and 1, 1 and 0, 1 and 1, and then their joins.
/// let levels = Levels::new(2, &[0, 0, 0, 1, 0, 1, 1, 1])?;
/// assert_eq!(levels, Levels::chain(2)?);
/// assert_eq!((levels.meet(0, 1), levels.join(0, 1)), (Some(0), Some(1)));
/// assert_eq!(levels.meet(0, 2), None);
///
/// // Both are the meet: nothing is absorbed.
/// assert_eq!(Levels::new(2, &[0, 0, 0, 1, 0, 0, 0, 1]), Err(Refusal::OutcomeTable));
/// assert_eq!(Levels::new(0, &[]), Err(Refusal::OutcomeTable));
/// # Ok::<(), Refusal>(())
/// ```
#[derive(Clone, Copy, PartialEq, Eq, Hash)]
pub struct Levels {
    count: u8,
    /// Those of the table, and then zeros.
    outcomes: [u8; BYTES],
}

/// Bytes of the longest table.
const BYTES: usize = 2 * Levels::MOST * Levels::MOST;

impl Levels {
    /// The most levels of a table.
    pub const MOST: usize = 16;

    /// The table of so many levels, with a byte for each ordered pair's meet, the first level slowest, and then so for join: twice the square of their number.
    ///
    /// # Errors
    ///
    /// [`Refusal::OutcomeTable`].
    pub fn new(count: usize, outcomes: &[u8]) -> Result<Self, Refusal> {
        let levels = u32::try_from(count).map_err(|_| Refusal::OutcomeTable)?;
        // A sheet that every accepted table has an answer to, with room for it.
        let permit = [0x6000_0000];
        let mut record = [0; 3];
        let told = c::evaluate_by_levels(levels, outcomes, &permit, 0, &[], &mut record);
        written(told, &mut record)?;
        let mut table = Self {
            count: u8::try_from(count).map_err(|_| Refusal::OutcomeTable)?,
            outcomes: [0; BYTES],
        };
        let bytes = table.outcomes.get_mut(..outcomes.len());
        let bytes = bytes.ok_or(Refusal::OutcomeTable)?;
        bytes.copy_from_slice(outcomes);
        Ok(table)
    }

    /// So many levels, each above those before it: two meet in the lower one and join in the higher one.
    ///
    /// # Errors
    ///
    /// [`Refusal::OutcomeTable`], unless there are 1 to 16.
    pub fn chain(count: usize) -> Result<Self, Refusal> {
        let levels = u8::try_from(count).ok();
        let levels = levels.filter(|_| (1..=Self::MOST).contains(&count));
        let levels = levels.ok_or(Refusal::OutcomeTable)?;
        let mut table = Self {
            count: levels,
            outcomes: [0; BYTES],
        };
        let pairs = (0..levels).flat_map(|one| (0..levels).map(move |other| (one, other)));
        let (meets, joins) = table.outcomes.split_at_mut(count * count);
        for ((meet, join), (one, other)) in meets.iter_mut().zip(joins).zip(pairs) {
            (*meet, *join) = (one.min(other), one.max(other));
        }
        Ok(table)
    }

    /// How many levels there are.
    #[must_use]
    pub const fn count(&self) -> usize {
        self.count as usize
    }

    /// What two levels meet in; `None` if one of the two is no level.
    #[must_use]
    pub fn meet(&self, one: u16, other: u16) -> Option<u16> {
        self.entry(0, one, other)
    }

    /// What two levels join in; `None` if one of the two is no level.
    #[must_use]
    pub fn join(&self, one: u16, other: u16) -> Option<u16> {
        self.entry(self.count() * self.count(), one, other)
    }

    /// The bytes, as [`new`](Self::new) takes them.
    #[must_use]
    pub fn as_bytes(&self) -> &[u8] {
        let bytes = 2 * self.count() * self.count();
        self.outcomes.get(..bytes).unwrap_or_default()
    }

    fn entry(&self, from: usize, one: u16, other: u16) -> Option<u16> {
        let count = self.count();
        let (one, other) = (usize::from(one), usize::from(other));
        if one >= count || other >= count {
            return None;
        }
        let byte = self.outcomes.get(from + one * count + other)?;
        Some(u16::from(*byte))
    }

    /// Count and bytes, as the C interface takes them.
    pub(crate) fn parts(&self) -> (u32, &[u8]) {
        (u32::from(self.count), self.as_bytes())
    }
}

impl fmt::Debug for Levels {
    fn fmt(&self, f: &mut fmt::Formatter<'_>) -> fmt::Result {
        f.debug_struct("Levels")
            .field("count", &self.count)
            .field("outcomes", &self.as_bytes())
            .finish()
    }
}

/// Decides a sheet as [`evaluate`](crate::evaluate) does, but by levels.
///
/// # Errors
///
/// Those of [`evaluate`](crate::evaluate). An outcome that is no level is [`Refusal::Field`], also where nobody evaluates it.
///
/// # Examples
///
/// ```
/// use vierskof::{Levels, Refusal};
///
/// // All of level 1 and level 2.
/// let sheet = [0x9000_0002, 0x6000_0001, 0x6000_0002];
/// let mut out = [0; 8];
/// let record = vierskof::evaluate_by_levels(&Levels::chain(3)?, &sheet, 0, &[], &mut out)?;
/// assert_eq!(record, [0xE000_0000, 0xC000_0001, 0x0000_0000]);
/// // As sets, products 0 and 1 have nothing in common.
/// let record = vierskof::evaluate(&sheet, 0, &[], &mut out)?;
/// assert_eq!(record, [0xE000_0000, 0xC000_0000, 0x0000_0000]);
/// // Of two levels 2 is none.
/// let refused = vierskof::evaluate_by_levels(&Levels::chain(2)?, &sheet, 0, &[], &mut out);
/// assert_eq!(refused, Err(Refusal::Field));
/// # Ok::<(), Refusal>(())
/// ```
pub fn evaluate_by_levels<'o>(
    levels: &Levels,
    sheet: &[u32],
    number: u16,
    facts: &[u8],
    out: &'o mut [u32],
) -> Result<&'o [u32], Refusal> {
    let (count, outcomes) = levels.parts();
    written(
        c::evaluate_by_levels(count, outcomes, sheet, number, facts, out),
        out,
    )
}

/// Reduces a sheet as [`partial_evaluate`](crate::partial_evaluate) does, but by levels.
///
/// All calls on what comes of it, and direct evaluation, are given the same levels.
///
/// # Errors
///
/// Those of [`partial_evaluate`](crate::partial_evaluate), with outcomes as in [`evaluate_by_levels`].
///
/// # Examples
///
/// ```
/// use vierskof::Levels;
///
/// // Any of level 1 on fact 5, and level 0.
/// let sheet = [0xA000_0002, 0x8000_0001, 0x0000_0000, 0x2000_0005, 0x6000_0000];
/// let (levels, mut out) = (Levels::chain(2)?, [0; 16]);
/// let pending = vierskof::partial_evaluate_by_levels(&levels, &sheet, 0, &[0x00, 0x20], &mut out)?;
/// let mut out = [0; 16];
/// let record = vierskof::complete_residual_by_levels(&levels, pending, 0, &[0x00, 0x10], &mut out)?;
/// assert_eq!(record[2..], [0xC000_0001, 0x0000_0001, 0x0005_0000]);
/// # Ok::<(), vierskof::Refusal>(())
/// ```
pub fn partial_evaluate_by_levels<'o>(
    levels: &Levels,
    sheet: &[u32],
    number: u16,
    facts: &[u8],
    out: &'o mut [u32],
) -> Result<&'o [u32], Refusal> {
    let (count, outcomes) = levels.parts();
    written(
        c::partial_evaluate_by_levels(count, outcomes, sheet, number, facts, out),
        out,
    )
}

/// Narrows a record as [`narrow_residual`](crate::narrow_residual) does, but by levels.
///
/// # Errors
///
/// Those of [`narrow_residual`](crate::narrow_residual), with outcomes as in [`evaluate_by_levels`], of a Resolved record too.
pub fn narrow_residual_by_levels<'o>(
    levels: &Levels,
    record: &[u32],
    number: u16,
    facts: &[u8],
    out: &'o mut [u32],
) -> Result<&'o [u32], Refusal> {
    let (count, outcomes) = levels.parts();
    written(
        c::narrow_residual_by_levels(count, outcomes, record, number, facts, out),
        out,
    )
}

/// Completes a record as [`complete_residual`](crate::complete_residual) does, but by levels.
///
/// # Errors
///
/// Those of [`complete_residual`](crate::complete_residual), with outcomes as in [`evaluate_by_levels`], of a Resolved record too.
pub fn complete_residual_by_levels<'o>(
    levels: &Levels,
    record: &[u32],
    number: u16,
    facts: &[u8],
    out: &'o mut [u32],
) -> Result<&'o [u32], Refusal> {
    let (count, outcomes) = levels.parts();
    written(
        c::complete_residual_by_levels(count, outcomes, record, number, facts, out),
        out,
    )
}

/// Reduces a sheet as [`partial_evaluate_in_order`](crate::partial_evaluate_in_order) does, but by levels.
///
/// # Errors
///
/// Those of [`partial_evaluate_by_levels`].
pub fn partial_evaluate_in_order_by_levels<'o>(
    levels: &Levels,
    sheet: &[u32],
    number: u16,
    facts: &[u8],
    out: &'o mut [u32],
) -> Result<&'o [u32], Refusal> {
    let (count, outcomes) = levels.parts();
    written(
        c::partial_evaluate_in_order_by_levels(count, outcomes, sheet, number, facts, out),
        out,
    )
}

/// Narrows a record as [`narrow_residual_in_order`](crate::narrow_residual_in_order) does, but by levels.
///
/// # Errors
///
/// Those of [`narrow_residual_by_levels`].
pub fn narrow_residual_in_order_by_levels<'o>(
    levels: &Levels,
    record: &[u32],
    number: u16,
    facts: &[u8],
    out: &'o mut [u32],
) -> Result<&'o [u32], Refusal> {
    let (count, outcomes) = levels.parts();
    written(
        c::narrow_residual_in_order_by_levels(count, outcomes, record, number, facts, out),
        out,
    )
}
