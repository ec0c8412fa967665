//! Request 14's outcome tables: which are accepted, by order, and the calls by one.
//!
//! What a table says of two levels reaches the original through its `Lattice`, whose operations have no receiver but the outcome: so the table stands in a
//! place of the thread's own while a call goes by it ([`by_levels`]).

use std::cell::RefCell;
use std::fmt;
use std::ops::Range;
use std::rc::Rc;

use crate::case::{Answer, Case};
use crate::refusal::Refusal;

/// The most levels of a table.
const MOST: u32 = 16;

/// A table as it is given.
#[derive(Clone, Debug, PartialEq, Eq)]
pub struct Given {
    /// How many levels.
    pub count: u32,
    /// The meets, first level slowest, and then the joins.
    pub bytes: Vec<u8>,
}

/// An accepted table.
#[derive(Clone, Debug, PartialEq, Eq)]
pub struct Table {
    count: usize,
    meets: Vec<usize>,
    joins: Vec<usize>,
}

impl Given {
    /// The table, if it is accepted: by its numbers, and because some order of the levels has its meets as greatest lower bounds and its joins as least upper
    /// ones.
    pub fn accepted(&self) -> Result<Table, Refusal> {
        self.sized()
            .filter(Table::is_ordered)
            .ok_or(Refusal::OutcomeTable)
    }

    /// The table, if the count is in range, the length right, and every byte a level.
    fn sized(&self) -> Option<Table> {
        if !(1..=MOST).contains(&self.count) {
            return None;
        }
        let count = self.count as usize;
        let bytes: Vec<usize> = self.bytes.iter().copied().map(usize::from).collect();
        if bytes.len() != 2 * count * count || bytes.iter().any(|byte| *byte >= count) {
            return None;
        }
        let (meets, joins) = bytes.split_at(count * count);
        Some(Table {
            count,
            meets: meets.to_vec(),
            joins: joins.to_vec(),
        })
    }
}

impl Table {
    /// How many levels.
    pub const fn count(&self) -> usize {
        self.count
    }

    /// What two levels meet in.
    pub fn meet(&self, one: u16, other: u16) -> u16 {
        self.entry(&self.meets, one, other)
    }

    /// What two levels join in.
    pub fn join(&self, one: u16, other: u16) -> u16 {
        self.entry(&self.joins, one, other)
    }

    /// Outcomes are judged when they are read, so that nothing but levels gets here.
    fn entry(&self, of: &[usize], one: u16, other: u16) -> u16 {
        let (one, other) = (usize::from(one), usize::from(other));
        assert!(one < self.count && other < self.count, "levels");
        let found = of[one * self.count + other];
        u16::try_from(found).expect("a level")
    }

    const fn levels(&self) -> Range<usize> {
        0..self.count
    }

    /// Whether one level is at most another, in the one order that can have these meets: that of levels which meet another in themselves.
    fn at_most(&self, one: usize, other: usize) -> bool {
        self.meets[one * self.count + other] == one
    }

    /// Whether it is an order, in which each meet is the greatest of the lower bounds and each join the least of the upper ones.
    fn is_ordered(&self) -> bool {
        let order = self.levels().all(|one| {
            self.at_most(one, one)
                && self.levels().all(|other| {
                    let apart = one == other || !self.at_most(one, other);
                    let passed_on = |third| {
                        !self.at_most(one, other)
                            || !self.at_most(other, third)
                            || self.at_most(one, third)
                    };
                    (apart || !self.at_most(other, one)) && self.levels().all(passed_on)
                })
        });
        order
            && self.bounds(&self.meets, |bound, level| self.at_most(bound, level))
            && self.bounds(&self.joins, |bound, level| self.at_most(level, bound))
    }

    /// Whether each entry is a bound of its two levels, on the side that `beyond` says, and the nearest one.
    fn bounds(&self, entries: &[usize], beyond: impl Fn(usize, usize) -> bool) -> bool {
        self.levels().all(|one| {
            self.levels().all(|other| {
                let found = entries[one * self.count + other];
                let is_bound = |bound: usize| beyond(bound, one) && beyond(bound, other);
                let nearest = |bound: usize| !is_bound(bound) || beyond(bound, found);
                is_bound(found) && self.levels().all(nearest)
            })
        })
    }
}

thread_local! {
    static GIVEN: RefCell<Option<Rc<Table>>> = const { RefCell::new(None) };
}

/// Takes the table away again, also from a call that panics.
struct Until(Option<Rc<Table>>);

impl Drop for Until {
    fn drop(&mut self) {
        GIVEN.replace(self.0.take());
    }
}

/// What the calls within give by this table, or 21 before anything is asked.
pub fn by_levels<T>(table: &Given, calls: impl FnOnce() -> T) -> Result<T, Refusal> {
    let table = Rc::new(table.accepted()?);
    let _until = Until(GIVEN.replace(Some(table)));
    Ok(calls())
}

/// Something of the table that calls go by here, if there is one.
pub fn given<T>(of: impl FnOnce(&Table) -> T) -> Option<T> {
    let table = GIVEN.with_borrow(Clone::clone);
    table.map(|table| of(&table))
}

/// Whether a number is an outcome: any of 16 bits, or a level.
pub fn is_outcome(number: u16) -> bool {
    given(|table| usize::from(number) < table.count()).unwrap_or(true)
}

/// A call by an outcome table: one that takes a fact table and writes a record.
#[derive(Clone, Debug, PartialEq, Eq)]
pub struct ByLevels {
    /// The outcome table.
    pub levels: Given,
    /// All else.
    pub case: Case,
}

impl ByLevels {
    /// The call's answer, or why it is turned back.
    pub fn answer(&self) -> Result<Answer, Refusal> {
        by_levels(&self.levels, || self.case.answer())?
    }

    /// Levels, table, and the call as [`answers::line`](crate::answers::line) shows it.
    pub fn line(&self) -> String {
        let Given { count, bytes } = &self.levels;
        let call = crate::answers::line(&self.case, &self.answer());
        format!("{count} {bytes:?} {call}")
    }
}

/// How much of the request is in drawn calls.
#[derive(Clone, Copy, Debug, Default, PartialEq, Eq)]
pub struct Tally {
    /// Accepted calls.
    pub accepted: usize,
    /// Accepted ones that sets of products answer otherwise.
    pub unlike_sets: usize,
    /// Calls refused for an outcome that is no level, and for nothing else.
    pub no_level: usize,
    /// Tables that are not accepted.
    pub no_table: usize,
    /// Accepted tables by their number of levels, from 1 on.
    pub levels: [usize; MOST as usize],
}

impl Tally {
    /// Counts a call.
    pub fn add(&mut self, by: &ByLevels) {
        let answer = by.answer();
        match by.levels.accepted() {
            Ok(table) => self.levels[table.count() - 1] += 1,
            Err(_) => self.no_table += 1,
        }
        self.accepted += usize::from(answer.is_ok());
        self.unlike_sets += usize::from(answer.is_ok() && answer != by.case.answer());
        let field = answer == Err(Refusal::Field);
        self.no_level += usize::from(field && by.case.answer().is_ok());
    }
}

impl fmt::Display for Tally {
    fn fmt(&self, f: &mut fmt::Formatter<'_>) -> fmt::Result {
        let Self {
            accepted,
            unlike_sets,
            no_level,
            no_table,
            levels,
        } = self;
        write!(
            f,
            "{accepted} accepted, {unlike_sets} of them answered otherwise by sets of products, {no_level} refused for an outcome that is no level alone, \
             {no_table} by 21; by levels {levels:?}"
        )
    }
}
