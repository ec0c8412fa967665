//! The calls on sheets, records and tables.

use crate::{Date, FactSet, Refusal, c};

/// Decides a sheet with a known table: the Resolved record is the first words of `out`.
///
/// The record carries the sheet's number, 0 if the sheet has none. Later words of `out` are left as they were, and so is all of it when the call is refused.
///
/// # Errors
///
/// [`Refusal::Length`] to [`Refusal::Room`]. The last doesn't come with an output of [`room`](crate::room) words.
///
/// # Examples
///
/// ```
/// use vierskof::read::{Decision, Record};
///
/// // Permit the products 0 and 1 if fact 5 is Present; it is.
/// let sheet = [0x8800_0003, 0x0000_0000, 0x2000_0005];
/// let mut out = [0; 8];
/// let record = vierskof::evaluate(&sheet, 7, &[0x00, 0x10], &mut out)?;
/// assert_eq!(record, [0xE000_7001, 0x4005_0000, 0xC000_0003, 0x0000_0001, 0x0005_0000]);
/// assert_eq!(Record::read(record)?.number(), 7);
/// assert!(matches!(Record::read(record)?.decision(), Some(Decision::Permit(_))));
/// # Ok::<(), vierskof::Refusal>(())
/// ```
pub fn evaluate<'o>(
    sheet: &[u32],
    number: u16,
    facts: &[u8],
    out: &'o mut [u32],
) -> Result<&'o [u32], Refusal> {
    written(c::evaluate(sheet, number, facts, out), out)
}

/// Reduces a sheet with a table that may leave facts Unknown: the record is the first words of `out`.
///
/// The record is Resolved if what is known decides the sheet; otherwise it is Pending, and its tree is what remains to be decided. Number and output are as
/// with [`evaluate`].
///
/// A relay that holds only some of the facts wants the table [`FactTable::unknown`](crate::FactTable::unknown) with these entered: what a table doesn't
/// speak of is Absent, and an empty one decides the whole sheet.
///
/// # Errors
///
/// [`Refusal::Length`] to [`Refusal::Room`], but not [`Refusal::UnknownFact`].
///
/// # Examples
///
/// ```
/// use vierskof::FactTable;
///
/// let sheet = [0x8800_0003, 0x0000_0000, 0x2000_0005];
/// let mut out = [0; 8];
/// // Fact 5 is Unknown, so the grant remains.
/// let record = vierskof::partial_evaluate(&sheet, 7, FactTable::unknown().as_bytes(), &mut out)?;
/// assert_eq!(record, [0xF000_7000, 0x8800_0003, 0x0000_0000, 0x2000_0005]);
/// # Ok::<(), vierskof::Refusal>(())
/// ```
pub fn partial_evaluate<'o>(
    sheet: &[u32],
    number: u16,
    facts: &[u8],
    out: &'o mut [u32],
) -> Result<&'o [u32], Refusal> {
    written(c::partial_evaluate(sheet, number, facts, out), out)
}

/// Narrows a record with a table of further facts: the new record is the first words of `out`.
///
/// What the table leaves Unknown stays open; a Resolved record comes back equal. A table that has a fact as Present which the record consulted as Absent, or the
/// reverse, is turned back; Unknown, and facts past the table's end, contradict nothing. The number is that of the sheet that the record has to be of, and the new
/// record carries it too; 0 is the number of a record without one, and not of any. Output and table are as with [`partial_evaluate`].
///
/// # Errors
///
/// [`Refusal::Length`] to [`Refusal::Room`], but not [`Refusal::UnknownFact`]; [`Refusal::SheetNumber`]; and [`Refusal::Contradiction`], also of a Resolved
/// record.
///
/// # Examples
///
/// ```
/// use vierskof::Refusal;
/// use vierskof::read::{Record, Status};
///
/// // Of sheet 7.
/// let pending = [0xF000_7000, 0x8800_0003, 0x0000_0000, 0x2000_0005];
/// let mut out = [0; 8];
/// let record = vierskof::narrow_residual(&pending, 7, &[0x00, 0x10], &mut out)?;
/// assert_eq!(Record::read(record)?.status(), Status::Resolved);
/// assert_eq!(Record::read(record)?.number(), 7);
/// let other = vierskof::narrow_residual(&pending, 8, &[0x00, 0x10], &mut out);
/// assert_eq!(other, Err(Refusal::SheetNumber));
///
/// // Fact 5 was Present: a table that has it as Absent is turned back, one that ends before it isn't.
/// let resolved = [0xE000_7001, 0x4005_0000, 0xC000_0003, 0x0000_0001, 0x0005_0000];
/// let contradicted = vierskof::narrow_residual(&resolved, 7, &[0x00, 0x00], &mut out);
/// assert_eq!(contradicted, Err(Refusal::Contradiction));
/// assert_eq!(vierskof::narrow_residual(&resolved, 7, &[0x00], &mut out), Ok(&resolved[..]));
/// # Ok::<(), vierskof::Refusal>(())
/// ```
pub fn narrow_residual<'o>(
    record: &[u32],
    number: u16,
    facts: &[u8],
    out: &'o mut [u32],
) -> Result<&'o [u32], Refusal> {
    written(c::narrow_residual(record, number, facts, out), out)
}

/// Reduces a sheet as [`partial_evaluate`] does, but leaves arms in sheet order.
///
/// A list that stays pending holds its arms where the sheet has them: an All up to and including its first resolved deny, an Any all of them. So an All
/// resolves to a deny only if no pending arm stands before it. Where no table contradicts
/// the one that completes it, the record that comes of this reduction and of [`narrow_residual_in_order`] alone is completed to the clause of one sitting: effect, outcome, denied outcome, obligations, label, reason and shape. Fact lists and consulted facts may differ.
///
/// # Errors
///
/// Those of [`partial_evaluate`].
///
/// # Examples
///
/// ```
/// // All of a grant with obligation 7, on fact 5, and a permit.
/// let sheet = [0x9000_0002, 0x8010_0001, 0, 0x0700_0000, 0x2000_0005, 0x6000_0001];
/// let mut out = [0; 8];
/// let record = vierskof::partial_evaluate_in_order(&sheet, 0, &[0x00, 0x20], &mut out)?;
/// // The grant stays before the permit, which is resolved.
/// assert_eq!(record[2..6], sheet[1..5]);
/// assert_eq!(record[6..], [0xC000_0001, 0x0000_0000]);
///
/// // So its obligation is owed, as it is in one sitting.
/// let mut completed = [0; 8];
/// let completed = vierskof::complete_residual(record, 0, &[0x00, 0x10], &mut completed)?;
/// let mut sitting = [0; 8];
/// assert_eq!(Ok(completed), vierskof::evaluate(&sheet, 0, &[0x00, 0x10], &mut sitting));
/// assert_eq!(vierskof::carries_obligation(completed), Ok(true));
/// # Ok::<(), vierskof::Refusal>(())
/// ```
pub fn partial_evaluate_in_order<'o>(
    sheet: &[u32],
    number: u16,
    facts: &[u8],
    out: &'o mut [u32],
) -> Result<&'o [u32], Refusal> {
    written(c::partial_evaluate_in_order(sheet, number, facts, out), out)
}

/// Narrows a record as [`narrow_residual`] does, but leaves arms in the order that it finds.
///
/// The record may come from either reduction or narrowing; one that [`partial_evaluate`] or [`narrow_residual`] had a part in keeps their promise: the
/// effect and the products of one sitting, where no table contradicts the one that completes it.
///
/// # Errors
///
/// Those of [`narrow_residual`].
///
/// # Examples
///
/// ```
/// // An Any of a stored deny, a grant on fact 0 and a permit: what is resolved stays in its place.
/// let pending = [0xF000_0000, 0xA000_0003, 0xD000_0000, 0, 0, 0x8000_0001, 0, 0x2000_0000, 0xC000_0001, 0];
/// let mut out = [0; 16];
/// let record = vierskof::narrow_residual_in_order(&pending, 0, &[0x80], &mut out)?;
/// assert_eq!(record, pending);
/// # Ok::<(), vierskof::Refusal>(())
/// ```
pub fn narrow_residual_in_order<'o>(
    record: &[u32],
    number: u16,
    facts: &[u8],
    out: &'o mut [u32],
) -> Result<&'o [u32], Refusal> {
    written(c::narrow_residual_in_order(record, number, facts, out), out)
}

/// Completes a record with a known table: the Resolved record is the first words of `out`.
///
/// A Resolved record comes back equal, whatever the table says, and no table is turned back for what a record consulted. The number is as with [`narrow_residual`], the output as with [`evaluate`].
///
/// # Errors
///
/// [`Refusal::Length`] to [`Refusal::Room`], and [`Refusal::SheetNumber`].
///
/// # Examples
///
/// ```
/// use vierskof::read::{Decision, Record};
///
/// let pending = [0xF000_7000, 0x8800_0003, 0x0000_0000, 0x2000_0005];
/// let mut out = [0; 8];
/// // Nothing is Present.
/// let record = vierskof::complete_residual(&pending, 7, &[], &mut out)?;
/// assert!(matches!(Record::read(record)?.decision(), Some(Decision::Deny(_))));
/// # Ok::<(), vierskof::Refusal>(())
/// ```
pub fn complete_residual<'o>(
    record: &[u32],
    number: u16,
    facts: &[u8],
    out: &'o mut [u32],
) -> Result<&'o [u32], Refusal> {
    written(c::complete_residual(record, number, facts, out), out)
}

/// Joins two tables of one request: the table of what both know is the first bytes of `out`.
///
/// Unknown yields to the other table's reading, and equal readings stay. Past its end a table reads Absent, so an Unknown in the longer one becomes Absent
/// there. The result is as long as the longer table. Neither the order of two tables nor the grouping of three makes a difference.
///
/// Later bytes of `out` are left as they were, and so is all of it when the call is refused. An output of [`TABLE_BYTES`](crate::TABLE_BYTES) is room
/// enough.
///
/// # Errors
///
/// [`Refusal::TableLength`] for either table, then [`Refusal::TableField`] for either, then [`Refusal::Clash`], then [`Refusal::Room`].
///
/// # Examples
///
/// ```
/// use vierskof::Refusal;
///
/// let mut out = [0; vierskof::TABLE_BYTES];
/// // Fact 0 is Unknown to the second relay, fact 4 to the first.
/// let joined = vierskof::join_tables(&[0x10, 0x80], &[0x90, 0x40], &mut out)?;
/// assert_eq!(joined, [0x10, 0x40]);
/// // One says that fact 5 is Present, the other, by its end, that it is Absent.
/// let clash = vierskof::join_tables(&[0x00, 0x10], &[0x00], &mut out);
/// assert_eq!(clash, Err(Refusal::Clash));
/// # Ok::<(), vierskof::Refusal>(())
/// ```
pub fn join_tables<'o>(one: &[u8], two: &[u8], out: &'o mut [u8]) -> Result<&'o [u8], Refusal> {
    written(c::join_tables(one, two, out), out)
}

/// The facts that a sheet names: those that a Has in it carries.
///
/// # Errors
///
/// [`Refusal::Length`], and the causes that words have, [`Refusal::Kind`] to [`Refusal::WordsAfterTree`].
///
/// # Examples
///
/// ```
/// use vierskof::Fact;
///
/// let sheet = [0x8800_0003, 0x0000_0000, 0x2000_0005];
/// let facts = vierskof::required_facts(&sheet)?;
/// assert!(facts.iter().map(Fact::number).eq([5]));
/// # Ok::<(), vierskof::Refusal>(())
/// ```
pub fn required_facts(sheet: &[u32]) -> Result<FactSet, Refusal> {
    let mut set = [0; 16];
    named(c::required_facts(sheet, &mut set), set)
}

/// The facts that a record's tree names, and that it therefore waits for.
///
/// Of a table, [`complete_residual`] depends on these alone: to send them is enough (see [the crate's example](crate#only-what-is-required)).
///
/// # Errors
///
/// [`Refusal::Length`], and the causes that words have, [`Refusal::Kind`] to [`Refusal::WordsAfterTree`].
///
/// # Examples
///
/// ```
/// let resolved = [0xE000_0000, 0xC000_0001, 0x0000_0000];
/// assert!(vierskof::required_residual_facts(&resolved)?.is_empty());
/// # Ok::<(), vierskof::Refusal>(())
/// ```
pub fn required_residual_facts(record: &[u32]) -> Result<FactSet, Refusal> {
    let mut set = [0; 16];
    named(c::required_residual_facts(record, &mut set), set)
}

/// Whether the top of a record's tree is a permit, stored or plain.
///
/// # Errors
///
/// [`Refusal::Length`], and the causes that words have, [`Refusal::Kind`] to [`Refusal::WordsAfterTree`].
///
/// # Examples
///
/// ```
/// let resolved = [0xE000_0000, 0xC000_0001, 0x0000_0000];
/// assert_eq!(vierskof::is_permit_constant(&resolved), Ok(true));
/// ```
pub fn is_permit_constant(record: &[u32]) -> Result<bool, Refusal> {
    says(c::is_permit_constant(record))
}

/// Whether the top of a record's tree is a deny, stored or plain.
///
/// # Errors
///
/// [`Refusal::Length`], and the causes that words have, [`Refusal::Kind`] to [`Refusal::WordsAfterTree`].
///
/// # Examples
///
/// ```
/// let resolved = [0xE000_0000, 0xC000_0001, 0x0000_0000];
/// assert_eq!(vierskof::is_deny_constant(&resolved), Ok(false));
/// ```
pub fn is_deny_constant(record: &[u32]) -> Result<bool, Refusal> {
    says(c::is_deny_constant(record))
}

/// Whether a grant or a stored permit of a record's tree has obligations.
///
/// # Errors
///
/// [`Refusal::Length`], and the causes that words have, [`Refusal::Kind`] to [`Refusal::WordsAfterTree`].
///
/// # Examples
///
/// ```
/// let resolved = [0xE000_0000, 0xC010_0001, 0x0000_0000, 0x0700_0000];
/// assert_eq!(vierskof::carries_obligation(&resolved), Ok(true));
/// ```
pub fn carries_obligation(record: &[u32]) -> Result<bool, Refusal> {
    says(c::carries_obligation(record))
}

/// Sets facts of a table by the age of a reading: the table with these facts set is the first 256 bytes of `out`.
///
/// `windows` has the words of 0 to 32 windows, [`Window::words`](crate::Window::words) one after the other, and the table is 256 bytes,
/// [`FactTable::to_bytes`](crate::FactTable::to_bytes). A fact that some window names becomes Present if an open window of it holds the age and no closed
/// one does, and else Absent; if either date is [`Date::UNKNOWN`], it becomes Unknown. The order of the windows doesn't matter. Every other fact keeps its
/// field. Later bytes of `out` are left as they were, and so is all of it when the call is refused.
///
/// # Errors
///
/// In this order: [`Refusal::Date`], [`Refusal::Windows`], [`Refusal::TableField`], [`Refusal::Room`].
///
/// # Examples
///
/// ```
/// use vierskof::{Ages, Date, Fact, FactTable, Window};
///
/// const RAW_STAGE: Fact = Fact::new(6).unwrap();
/// const HOURLY_MEANS: Fact = Fact::new(7).unwrap();
///
/// // Raw stage for 90 days but for a survey, hourly means for ten years.
/// let windows = [
///     Window::open(RAW_STAGE, Ages::days(0..=90)).words(),
///     Window::closed(RAW_STAGE, Ages::days(10..=20)).words(),
///     Window::open(HOURLY_MEANS, Ages::years(0..=9)).words(),
/// ];
/// let (reading, today) = (Date::new(2026, 11, 1), Date::new(2026, 11, 15));
/// let mut out = [0; 256];
/// let table = FactTable::new().to_bytes();
/// let facts = vierskof::apply_windows(windows.as_flattened(), reading, today, &table, &mut out)?;
/// // 14 days lie in the survey, and 0 years in the ten.
/// assert_eq!(facts[1], 0x01);
/// # Ok::<(), vierskof::Refusal>(())
/// ```
pub fn apply_windows<'o>(
    windows: &[u32],
    reading: Date,
    today: Date,
    facts: &[u8],
    out: &'o mut [u8],
) -> Result<&'o [u8], Refusal> {
    written(c::apply_windows(windows, reading, today, facts, out), out)
}

/// Packs a sheet for a narrow link: its tight form is the first bytes of `out`.
///
/// The tight form is one run of bits, most significant first: every field of the words in order, without zero fields and unused tails. An absent label,
/// reason or denied outcome takes one bit, and the last byte is filled with 0 bits. [`unpack_sheet`] gives the same words again.
///
/// Later bytes of `out` are left as they were, and so is all of it when the call is refused.
///
/// # Errors
///
/// [`Refusal::Length`], the causes that words have, [`Refusal::Kind`] to [`Refusal::WordsAfterTree`], and [`Refusal::Room`]. The last doesn't come with an
/// output of [`tight_room`](crate::tight_room) bytes.
///
/// # Examples
///
/// ```
/// // Twelve bytes of words in six.
/// let sheet = [0x8800_0003, 0x0000_0000, 0x2000_0005];
/// let mut bytes = [0; vierskof::tight_room(3)];
/// let tight = vierskof::pack_sheet(&sheet, &mut bytes)?;
/// assert_eq!(tight, [0x88, 0x00, 0x00, 0x30, 0x80, 0x50]);
///
/// let mut words = [0; vierskof::SHEET_WORDS];
/// assert_eq!(vierskof::unpack_sheet(tight, &mut words)?, sheet);
/// # Ok::<(), vierskof::Refusal>(())
/// ```
pub fn pack_sheet<'o>(sheet: &[u32], out: &'o mut [u8]) -> Result<&'o [u8], Refusal> {
    written(c::pack_sheet(sheet, out), out)
}

/// Packs a record, of any sheet, as [`pack_sheet`] does a sheet: the number of its sheet, the consulted entries and its tree.
///
/// # Errors
///
/// Those of [`pack_sheet`].
///
/// # Examples
///
/// ```
/// let record = [0xE000_7001, 0x4005_0000, 0xC000_0003, 0x0000_0001, 0x0005_0000];
/// let mut bytes = [0; vierskof::tight_room(5)];
/// let tight = vierskof::pack_record(&record, &mut bytes)?;
/// assert_eq!(tight.len(), 12);
///
/// let mut words = [0; 5];
/// assert_eq!(vierskof::unpack_record(tight, &mut words)?, record);
/// # Ok::<(), vierskof::Refusal>(())
/// ```
pub fn pack_record<'o>(record: &[u32], out: &'o mut [u8]) -> Result<&'o [u8], Refusal> {
    written(c::pack_record(record, out), out)
}

/// Unpacks the tight form of a sheet: its words are the first ones of `out`.
///
/// Bytes that are accepted are those that [`pack_sheet`] makes of the words. An output of [`SHEET_WORDS`](crate::SHEET_WORDS) is room enough for every sheet.
/// Later words of `out` are left as they were, and so is all of it when the call is refused.
///
/// A run of bytes doesn't say whether it is a sheet or a record, but the first four bits of a record are 14 or 15, and those of a sheet aren't.
///
/// # Errors
///
/// [`Refusal::Length`] for more than [`TIGHT_BYTES`](crate::TIGHT_BYTES); then, field by field, [`Refusal::BitsEnd`] if it isn't complete, and
/// [`Refusal::Kind`], [`Refusal::Level`] or [`Refusal::Field`] for what it holds; then [`Refusal::Filler`]; then [`Refusal::Room`], for more words than a
/// sheet can have as for too short an output.
///
/// # Examples
///
/// ```
/// use vierskof::Refusal;
///
/// let mut words = [0; vierskof::SHEET_WORDS];
/// assert_eq!(vierskof::unpack_sheet(&[0x60, 0x00, 0x10], &mut words)?, [0x6000_0001]);
/// let refused = |bytes: &[u8]| vierskof::unpack_sheet(bytes, &mut [0; 8]).unwrap_err();
/// assert_eq!(refused(&[0x60, 0x00]), Refusal::BitsEnd);
/// assert_eq!(refused(&[0x60, 0x00, 0x11]), Refusal::Filler);
/// assert_eq!(refused(&[0x60, 0x00, 0x10, 0x00]), Refusal::Filler);
/// # Ok::<(), Refusal>(())
/// ```
pub fn unpack_sheet<'o>(bytes: &[u8], out: &'o mut [u32]) -> Result<&'o [u32], Refusal> {
    written(c::unpack_sheet(bytes, out), out)
}

/// Unpacks the tight form of a record, as [`unpack_sheet`] does that of a sheet. An output of [`RECORD_WORDS`](crate::RECORD_WORDS) is room enough.
///
/// # Errors
///
/// Those of [`unpack_sheet`].
///
/// # Examples
///
/// ```
/// // Pending, of no sheet's number, and nothing consulted: a Deny.
/// let mut words = [0; 2];
/// let record = vierskof::unpack_record(&[0xF0, 0x00, 0x00, 0x00, 0x70], &mut words)?;
/// assert_eq!(record, [0xF000_0000, 0x7000_0000]);
/// # Ok::<(), vierskof::Refusal>(())
/// ```
pub fn unpack_record<'o>(bytes: &[u8], out: &'o mut [u32]) -> Result<&'o [u32], Refusal> {
    written(c::unpack_record(bytes, out), out)
}

/// The words or bytes written.
pub(crate) fn written<T>(returned: u64, out: &mut [T]) -> Result<&[T], Refusal> {
    let count = value(returned)? as usize;
    out.get(..count).ok_or(Refusal::Room)
}

fn named(returned: u64, set: [u64; 16]) -> Result<FactSet, Refusal> {
    value(returned).map(|_| FactSet::from_numbers(set))
}

fn says(returned: u64) -> Result<bool, Refusal> {
    value(returned).map(|yes| yes == 1)
}

/// The lower half, unless the upper one is the number of a refusal.
pub(crate) fn value(returned: u64) -> Result<u32, Refusal> {
    match (returned >> 32) as u32 {
        0 => Ok((returned & 0xFFFF_FFFF) as u32),
        // No call returns a number that isn't listed: that is proved, so what stands here never shows.
        number => Err(Refusal::try_from(number).unwrap_or(Refusal::Room)),
    }
}

#[cfg(test)]
mod tests {
    use super::*;

    /// The count that a call returns is the set's, and a refused call leaves an empty set and the value 0.
    #[test]
    fn sets_and_counts_belong_together() {
        let accepted = [0xF000_0000, 0x8800_0003, 0x0000_0000, 0x2000_0005];
        for refused in [&accepted[..3], &accepted[..0]] {
            let mut set = [0xA5A5; 16];
            let returned = c::required_residual_facts(refused, &mut set);
            assert_eq!(returned & 0xFFFF_FFFF, 0);
            assert_eq!(set, [0; 16]);
            let mut set = [0xA5A5; 16];
            let returned = c::required_facts(refused, &mut set);
            assert_eq!(returned & 0xFFFF_FFFF, 0);
            assert_eq!(set, [0; 16]);
        }
        let mut set = [0xA5A5; 16];
        assert_eq!(c::required_residual_facts(&accepted, &mut set), 1);
        assert_eq!(FactSet::from_numbers(set).len(), 1);
        assert_eq!(c::required_facts(&accepted[1..], &mut set), 1);
        assert_eq!(FactSet::from_numbers(set).len(), 1);
    }
}
