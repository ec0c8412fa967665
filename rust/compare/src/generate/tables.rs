//! Random fact tables.

use super::rng::Rng;
use crate::words::TABLE_BYTES;
use crate::words::table::{fields, pack};

/// A table that says something of these facts, and of some others.
pub fn draw(rng: &mut Rng, facts: &[u16], unknown: bool) -> Vec<u8> {
    let unknown = if unknown { rng.pick(&[30, 60, 90]) } else { 0 };
    let mut readings = vec![0; span(facts)];
    for reading in &mut readings {
        if rng.percent(25) {
            *reading = reading_of(rng, unknown);
        }
    }
    for fact in facts {
        readings[usize::from(*fact)] = reading_of(rng, unknown);
    }
    let mut table = pack(&readings);
    resize(rng, &mut table);
    table
}

/// A partial table that reads each of these facts as Unknown or as the known table does.
pub fn agreeing(rng: &mut Rng, known: &[u8], facts: &[u16]) -> Vec<u8> {
    let known: Vec<u8> = fields(known).collect();
    let unknown = rng.pick(&[30, 60, 80, 95]);
    let mut readings = vec![0; span(facts)];
    for reading in &mut readings {
        *reading = rng.pick(&[0, 0, 1, 2]);
    }
    for fact in facts.iter().copied().map(usize::from) {
        let reading = known.get(fact).copied().unwrap_or(0);
        readings[fact] = if rng.percent(unknown) { 2 } else { reading };
    }
    let mut table = pack(&readings);
    // What a table ends before reads Absent, so zeros at its end may go.
    while table.last() == Some(&0) && rng.percent(70) {
        table.pop();
    }
    table
}

/// Two known tables that read each of these facts alike and every other fact apart, of unlike lengths where these facts allow it. A table's end reads as
/// what it is: both enter a fact, or both end before it.
pub fn alike(rng: &mut Rng, facts: &[u16]) -> [Vec<u8>; 2] {
    let byte = |fact: &u16| usize::from(*fact) / 4;
    let end = if facts.is_empty() || rng.percent(70) {
        TABLE_BYTES
    } else {
        byte(&rng.pick(facts))
    };
    let entered = facts.iter().map(byte).filter(|at| *at < end);
    let least = entered.max().map_or(0, |at| at + 1);
    let most = end.min(least + rng.pick(&[1, 3, TABLE_BYTES]));
    let lengths = rng.choose(&(least..=most).collect::<Vec<_>>(), 2);
    let one: Vec<u8> = (0..4 * most).map(|_| rng.pick(&[0, 1])).collect();
    let apart = |(fact, reading): (u16, &u8)| reading ^ u8::from(!facts.contains(&fact));
    let two: Vec<u8> = (0..).zip(&one).map(apart).collect();
    let mut tables = [pack(&one), pack(&two)];
    for (table, length) in tables.iter_mut().zip(lengths.iter().cycle()) {
        table.truncate(*length);
    }
    tables
}

/// A table that reads each of these facts as Unknown.
pub fn unknown(facts: &[u16]) -> Vec<u8> {
    pack(&vec![2; span(facts)])
}

/// Puts faults into a table: a byte too many, or one or two fields that hold 3 or Unknown.
pub fn spoil(rng: &mut Rng, table: &mut Vec<u8>) {
    if rng.percent(15) {
        table.resize(TABLE_BYTES + 1, 0);
        return;
    }
    if table.is_empty() {
        table.push(0);
    }
    for _ in 0..rng.between(1, 2) {
        let at = rng.below(table.len());
        let shift = rng.pick(&[0, 2, 4, 6]);
        let reading = rng.pick(&[2, 3]);
        table[at] = table[at] & !(3 << shift) | reading << shift;
    }
}

/// How many fields reach the last of these facts.
fn span(facts: &[u16]) -> usize {
    facts
        .iter()
        .max()
        .map_or(0, |highest| usize::from(*highest) + 1)
}

/// Unknown, this many times in a hundred.
fn reading_of(rng: &mut Rng, unknown: usize) -> u8 {
    if rng.percent(unknown) {
        2
    } else {
        rng.pick(&[0, 1])
    }
}

/// Cuts some tables short and makes others longer than they need to be.
fn resize(rng: &mut Rng, table: &mut Vec<u8>) {
    match rng.below(100) {
        0..=4 => table.clear(),
        5..=12 => table.truncate(rng.below(table.len() + 1)),
        13..=20 => table.resize((table.len() + rng.between(1, 3)).min(TABLE_BYTES), 0x51),
        21 => table.resize(TABLE_BYTES, 0x44),
        _ => {}
    }
}
