//! Facts that arrive in stages.

use super::grow::{Alphabet, Grower};
use super::rng::Rng;
use super::tables;
use crate::narrow::Order;
use crate::reference;
use crate::words::write;

/// A sheet, a known table, and partial tables that agree with it on what the sheet names.
#[derive(Clone, Debug)]
pub struct Chain {
    /// The sheet's words.
    pub sheet: Vec<u32>,
    /// The facts that the sheet names.
    pub facts: Vec<u16>,
    /// The table of one sitting, and of the completion.
    pub known: Vec<u8>,
    /// The reduction's table.
    pub reduction: Vec<u8>,
    /// The narrowings' tables.
    pub narrowings: Vec<Vec<u8>>,
    /// The sheet's number, which every call of the chain is given.
    pub number: u16,
}

impl Chain {
    /// A chain over a sheet of at most this many words.
    pub fn draw(rng: &mut Rng, alphabet: &Alphabet, words: usize) -> Self {
        let tree = Grower::of_sheets(rng, alphabet).tree(words, 1);
        Self::over(rng, write::tree(&tree))
    }

    /// A chain over this sheet, which is an accepted one.
    pub fn over(rng: &mut Rng, sheet: Vec<u32>) -> Self {
        let named = reference::required_facts(&sheet).expect("an accepted sheet");
        let facts: Vec<u16> = named.facts().collect();
        let known = tables::draw(rng, &facts, false);
        let stages = rng.between(0, 4);
        let mut agreeing = || tables::agreeing(rng, &known, &facts);
        Self {
            reduction: agreeing(),
            narrowings: (0..stages).map(|_| agreeing()).collect(),
            sheet,
            facts,
            known,
            number: 0,
        }
    }

    /// The same chain under a number.
    #[must_use]
    pub const fn under(mut self, number: u16) -> Self {
        self.number = number;
        self
    }

    /// The output's length with which each call of the chain is accepted.
    pub const fn room(&self) -> usize {
        room(self.sheet.len())
    }

    /// The record of the reduction, and the one of each narrowing after it, all in one order.
    pub fn records(&self, order: Order) -> Vec<Vec<u32>> {
        self.records_by(|| order)
    }

    /// The same, each call in an order of its own.
    pub fn records_by(&self, mut order: impl FnMut() -> Order) -> Vec<Vec<u32>> {
        let (room, number) = (self.room(), u32::from(self.number));
        let (reduce, _) = reference::pair(order());
        let reduced = reduce(&self.sheet, number, &self.reduction, room);
        let mut records = vec![reduced.expect("room for the reduction")];
        for table in &self.narrowings {
            let given = records.last().expect("the reduction's record");
            let (_, narrow) = reference::pair(order());
            let narrowed = narrow(given, number, table, room);
            records.push(narrowed.expect("room for the narrowing"));
        }
        records
    }
}

/// Three times the sheet's words plus 513.
pub const fn room(sheet_words: usize) -> usize {
    3 * sheet_words + 513
}
