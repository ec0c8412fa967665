//! Document 01's nine calls and request 8's two. All but narrowing, and reduction in sheet order, are answered by the original.
//!
//! A call that writes takes the number of a sheet, which the original never sees, and the room of its output in words, and gives the record's words;
//! [`put`] brings them, or a refusal, to an output. The original tells no silence: [`marked`] puts it into its records.

use std::collections::BTreeSet;

use gatekeep::{FactId, Presence, ResidualPolicy};

use crate::narrow::{self, Order};
use crate::products::Products;
use crate::refusal::Refusal;
use crate::silence::{marked, standing};
use crate::words::table::Table;
use crate::words::tree::{Entry, Record, Seen};
use crate::words::{FACTS, RECORD_WORDS, convert, read, write};

/// Sixteen 64-bit numbers, fact 0 the top bit of the first.
#[derive(Clone, Copy, Debug, Default, PartialEq, Eq)]
pub struct FactSet(pub [u64; 16]);

impl FactSet {
    /// How many facts the set holds.
    pub fn count(&self) -> u32 {
        self.0.iter().map(|number| number.count_ones()).sum()
    }

    /// The facts in the set, from the lowest.
    pub fn facts(&self) -> impl Iterator<Item = u16> {
        (0..FACTS).filter(|fact| {
            let (number, bit) = place(*fact);
            self.0[number] & bit != 0
        })
    }
}

/// Which of the sixteen numbers holds a fact, and as which bit.
fn place(fact: u16) -> (usize, u64) {
    (usize::from(fact / 64), 1 << (63 - fact % 64))
}

/// A call that writes: words, a sheet's number, a table, and the room of the output in words.
pub type Writing = fn(&[u32], u32, &[u8], usize) -> Result<Vec<u32>, Refusal>;

/// The reduction and the narrowing that hold arms in this order.
pub fn pair(order: Order) -> (Writing, Writing) {
    match order {
        Order::PermitsFirst => (partial_evaluate, narrow_residual),
        Order::SheetOrder => (partial_evaluate_in_order, narrow_residual_in_order),
    }
}

/// Decides a sheet in one sitting.
pub fn evaluate(
    sheet: &[u32],
    number: u32,
    table: &[u8],
    room: usize,
) -> Result<Vec<u32>, Refusal> {
    read::sheet_length(sheet)?;
    let table = Table::known(table)?;
    let policy = convert::to_policy(&read::sheet(sheet)?);
    let number = carried(number)?;
    let decision = gatekeep::evaluate(&policy, &convert::known_facts(&table));
    let record = convert::from_decision(&decision);
    fitted(&marked(&record, &[], &table), number, room)
}

/// Decides a sheet as far as a partial table goes.
pub fn partial_evaluate(
    sheet: &[u32],
    number: u32,
    table: &[u8],
    room: usize,
) -> Result<Vec<u32>, Refusal> {
    read::sheet_length(sheet)?;
    let table = Table::partial(table)?;
    let policy = convert::to_policy(&read::sheet(sheet)?);
    let number = carried(number)?;
    let residual = gatekeep::partial_evaluate(&policy, &convert::partial_facts(&table));
    let record = convert::from_residual(&residual);
    fitted(&marked(&record, &[], &table), number, room)
}

/// Decides a record further, as far as a partial table goes.
pub fn narrow_residual(
    record: &[u32],
    number: u32,
    table: &[u8],
    room: usize,
) -> Result<Vec<u32>, Refusal> {
    narrowed(record, number, table, room, Order::PermitsFirst)
}

/// Decides a sheet as far as a partial table goes, and leaves arms in sheet order.
pub fn partial_evaluate_in_order(
    sheet: &[u32],
    number: u32,
    table: &[u8],
    room: usize,
) -> Result<Vec<u32>, Refusal> {
    read::sheet_length(sheet)?;
    let table = Table::partial(table)?;
    let tree = read::sheet(sheet)?.into();
    let number = carried(number)?;
    let reduced = narrow::reduce(&[], &tree, &table, Order::SheetOrder);
    fitted(&reduced, number, room)
}

/// Decides a record further, as far as a partial table goes, and leaves arms in the record's order.
pub fn narrow_residual_in_order(
    record: &[u32],
    number: u32,
    table: &[u8],
    room: usize,
) -> Result<Vec<u32>, Refusal> {
    narrowed(record, number, table, room, Order::SheetOrder)
}

/// Decides a record to its end.
pub fn complete_residual(
    record: &[u32],
    number: u32,
    table: &[u8],
    room: usize,
) -> Result<Vec<u32>, Refusal> {
    read::record_length(record)?;
    let table = Table::known(table)?;
    let given = read::record(record)?;
    let number = expected(record, number)?;
    let residual = convert::to_residual(&given);
    let decision = gatekeep::complete_residual(&residual, &convert::known_facts(&table));
    let record = convert::from_decision(&decision);
    fitted(&marked(&record, &standing(&given), &table), number, room)
}

/// The facts that a sheet's conditions name.
pub fn required_facts(sheet: &[u32]) -> Result<FactSet, Refusal> {
    let policy = convert::to_policy(&read::sheet(sheet)?);
    Ok(fact_set(&gatekeep::required_facts(&policy)))
}

/// The facts that a record's conditions name.
pub fn required_residual_facts(record: &[u32]) -> Result<FactSet, Refusal> {
    let facts = gatekeep::required_residual_facts(&top(record)?);
    Ok(fact_set(&facts))
}

/// Whether a record's tree is a permit and nothing else.
pub fn is_permit_constant(record: &[u32]) -> Result<bool, Refusal> {
    top(record).map(|policy| policy.is_permit_constant())
}

/// Whether a record's tree is a deny and nothing else.
pub fn is_deny_constant(record: &[u32]) -> Result<bool, Refusal> {
    top(record).map(|policy| policy.is_deny_constant())
}

/// Whether some node 8 or 12 of a record's tree has obligations.
pub fn carries_obligation(record: &[u32]) -> Result<bool, Refusal> {
    top(record).map(|policy| policy.carries_obligation())
}

/// Brings what a call gave to its output and returns the words written. A refused call changes no
/// word, an accepted one none past its record.
pub fn put(given: Result<&[u32], Refusal>, output: &mut [u32]) -> Result<usize, Refusal> {
    let words = given?;
    let part = output.get_mut(..words.len()).ok_or(Refusal::Room)?;
    part.copy_from_slice(words);
    Ok(words.len())
}

fn narrowed(
    words: &[u32],
    number: u32,
    table: &[u8],
    room: usize,
    order: Order,
) -> Result<Vec<u32>, Refusal> {
    read::record_length(words)?;
    let table = Table::partial(table)?;
    let record = read::record(words)?;
    let number = expected(words, number)?;
    if contradicted(&record, &table) {
        return Err(Refusal::Contradiction);
    }
    fitted(&narrow::narrow(&record, &table, order), number, room)
}

/// Whether the table enters a fact as Present that some entry of the record has as Absent, or the reverse.
pub fn contradicted(record: &Record, table: &Table) -> bool {
    let against = |(fact, seen): &Entry| match table.observation(*fact) {
        Some(Presence::Present) => *seen == Seen::Absent,
        Some(Presence::Absent) => *seen == Seen::Present,
        Some(Presence::Unknown) | None => false,
    };
    record.consulted().iter().any(against)
}

/// The number for the record that is to be written, if one can carry it.
fn carried(number: u32) -> Result<u16, Refusal> {
    u16::try_from(number).map_err(|_| Refusal::SheetNumber)
}

/// The number that a record is expected to carry, if it does.
fn expected(record: &[u32], number: u32) -> Result<u16, Refusal> {
    if read::sheet_number(record) == number {
        carried(number)
    } else {
        Err(Refusal::SheetNumber)
    }
}

/// The record's tree as the original's residual. The original asks its questions of residuals
/// only; document 01 asks them of a Resolved record's one node too.
fn top(words: &[u32]) -> Result<ResidualPolicy<Products>, Refusal> {
    Ok(match read::record(words)? {
        Record::Resolved { decided, .. } => convert::to_trace_node(&decided),
        Record::Pending { residual, .. } => convert::to_residual_policy(&residual),
    })
}

/// The record's words under a number, unless the output or the format has no room for them.
fn fitted(record: &Record, number: u16, room: usize) -> Result<Vec<u32>, Refusal> {
    // A list that its count can't hold has no words, so this comes before writing.
    if !record.is_countable() {
        return Err(Refusal::Room);
    }
    let words = write::numbered(number, write::record(record));
    if words.len() > room.min(RECORD_WORDS) {
        return Err(Refusal::Room);
    }
    Ok(words)
}

fn fact_set(ids: &BTreeSet<FactId>) -> FactSet {
    let mut set = FactSet::default();
    for (number, bit) in ids.iter().map(convert::fact).map(place) {
        set.0[number] |= bit;
    }
    set
}
