//! The proved calls by outcome tables against the original, through the C interface, which takes any count and any bytes, and through the safe crate.
#![allow(unsafe_code)]

use vierskof::Levels;

use crate::case::{Answer, Call};
use crate::generate::chains::Chain;
use crate::generate::rng::Rng;
use crate::levels::{ByLevels, Given, by_levels};
use crate::narrow::Order;
use crate::reference;
use crate::words::read;
use crate::words::tree::{Decided, Record};

/// A call of the C interface: levels, an outcome table, words, a sheet's number, a table and an output.
type Raw = fn(u32, &[u8], &[u32], u32, &[u8], &mut [u32]) -> u64;

/// A call of the safe crate.
pub type Safe =
    for<'o> fn(&Levels, &[u32], u16, &[u8], &'o mut [u32]) -> Result<&'o [u32], vierskof::Refusal>;

macro_rules! writes {
    ($($call:ident = $symbol:ident;)*) => {
        unsafe extern "C" {
            $(fn $symbol(
                levels: u32,
                outcomes: *const u8,
                outcome_bytes: usize,
                words: *const u32,
                count: usize,
                number: u32,
                facts: *const u8,
                bytes: usize,
                out: *mut u32,
                room: usize,
            ) -> u64;)*
        }
        $(fn $call(
            levels: u32,
            outcomes: &[u8],
            words: &[u32],
            number: u32,
            facts: &[u8],
            out: &mut [u32],
        ) -> u64 {
            let room = out.len();
            // SAFETY: each pointer comes from a slice with that slice's length; the proved call reads and writes no further.
            unsafe {
                $symbol(
                    levels,
                    outcomes.as_ptr(),
                    outcomes.len(),
                    words.as_ptr(),
                    words.len(),
                    number,
                    facts.as_ptr(),
                    facts.len(),
                    out.as_mut_ptr(),
                    room,
                )
            }
        })*
    };
}

writes! {
    evaluate = vierskof_evaluate_by_levels;
    partial_evaluate = vierskof_partial_evaluate_by_levels;
    narrow_residual = vierskof_narrow_residual_by_levels;
    complete_residual = vierskof_complete_residual_by_levels;
    partial_evaluate_in_order = vierskof_partial_evaluate_in_order_by_levels;
    narrow_residual_in_order = vierskof_narrow_residual_in_order_by_levels;
}

/// The two ways to a call.
fn ways(call: Call) -> (Raw, Safe) {
    match call {
        Call::Evaluate => (evaluate, vierskof::evaluate_by_levels),
        Call::PartialEvaluate => (partial_evaluate, vierskof::partial_evaluate_by_levels),
        Call::NarrowResidual => (narrow_residual, vierskof::narrow_residual_by_levels),
        Call::CompleteResidual => (complete_residual, vierskof::complete_residual_by_levels),
        Call::PartialEvaluateInOrder => (
            partial_evaluate_in_order,
            vierskof::partial_evaluate_in_order_by_levels,
        ),
        Call::NarrowResidualInOrder => (
            narrow_residual_in_order,
            vierskof::narrow_residual_in_order_by_levels,
        ),
        other => unreachable!("{} takes no outcome table", other.name()),
    }
}

/// The reduction and the narrowing by levels that hold arms in this order.
pub fn pair(order: Order) -> (Safe, Safe) {
    let (reduce, narrow) = match order {
        Order::PermitsFirst => (Call::PartialEvaluate, Call::NarrowResidual),
        Order::SheetOrder => (Call::PartialEvaluateInOrder, Call::NarrowResidualInOrder),
    };
    (ways(reduce).1, ways(narrow).1)
}

/// The table in the safe crate, if it takes it.
pub fn levels(table: &Given) -> Option<Levels> {
    let count = usize::try_from(table.count).expect("32 bits");
    Levels::new(count, &table.bytes).ok()
}

/// Whether the proved call answers as the original does, and leaves what it must.
pub fn agrees(by: &ByLevels) -> bool {
    let ByLevels {
        levels: table,
        case,
    } = by;
    let (raw, safe) = ways(case.call);
    let before: Vec<u32> = (0x0F0F_0F0F..).take(case.room).collect();
    let mut out = before.clone();
    let told = raw(
        table.count,
        &table.bytes,
        &case.words,
        case.number,
        &case.table,
        &mut out,
    );
    let right = match by.answer() {
        Ok(Answer::Record(record)) => {
            told == record.len() as u64
                && out[..record.len()] == record[..]
                && out[record.len()..] == before[record.len()..]
        }
        Ok(_) => false,
        Err(refusal) => told == u64::from(refusal.number()) << 32 && out == before,
    };
    let taken = levels(table);
    if taken.is_some() != table.accepted().is_ok() {
        return false;
    }
    let (Some(levels), Ok(number)) = (taken, u16::try_from(case.number)) else {
        return right;
    };
    let mut own = before;
    let found = safe(&levels, &case.words, number, &case.table, &mut own);
    let alike = match found {
        Ok(record) => told == record.len() as u64,
        Err(refusal) => told == u64::from(refusal.number()) << 32,
    };
    right && alike && own == out
}

/// Whether a chain by one table, each call in one of these orders, has the original's records on the way and ends as one sitting by that table does; in sheet
/// order alone in its clause too, facts aside.
pub fn ends_as_one_sitting(rng: &mut Rng, table: &Given, chain: &Chain, orders: &[Order]) -> bool {
    let Some(levels) = levels(table) else {
        return false;
    };
    let number = chain.number;
    let run = |call: Safe, words: &[u32], facts: &[u8]| {
        let mut out = vec![0x5A5A_5A5A; chain.room()];
        let record = call(&levels, words, number, facts, &mut out);
        record.map(<[u32]>::to_vec).ok()
    };
    let by_original = |call: reference::Writing, words: &[u32], facts: &[u8]| {
        let call = || call(words, u32::from(number), facts, chain.room());
        by_levels(table, call).and_then(|record| record).ok()
    };
    let picked = rng.pick(orders);
    let mut record = run(pair(picked).0, &chain.sheet, &chain.reduction);
    let mut same = record.is_some()
        && record == by_original(reference::pair(picked).0, &chain.sheet, &chain.reduction);
    for facts in &chain.narrowings {
        let Some(given) = &record else {
            return false;
        };
        let picked = rng.pick(orders);
        let narrowed = run(pair(picked).1, given, facts);
        same = same && narrowed == by_original(reference::pair(picked).1, given, facts);
        record = narrowed;
    }
    let Some(given) = record else {
        return false;
    };
    let completed = run(vierskof::complete_residual_by_levels, &given, &chain.known);
    let sitting = run(vierskof::evaluate_by_levels, &chain.sheet, &chain.known);
    let by_original = by_original(reference::evaluate, &chain.sheet, &chain.known);
    let (Some(completed), Some(sitting)) = (completed, sitting) else {
        return false;
    };
    let (one, other) = (decided(&completed), decided(&sitting));
    let clause = orders != [Order::SheetOrder]
        || one.clone().without_facts() == other.clone().without_facts();
    same && Some(&sitting) == by_original.as_ref() && one.products() == other.products() && clause
}

/// The decision of a Resolved record.
fn decided(record: &[u32]) -> Decided {
    match read::record(record).expect("a record") {
        Record::Resolved { decided, .. } => decided,
        Record::Pending { .. } => unreachable!("a completed record"),
    }
}
