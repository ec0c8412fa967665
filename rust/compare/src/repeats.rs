//! What request 3 has to do with a case: obligations that repeat, lists at their limits, and joins of such.

use std::fmt;

use crate::case::Case;
use crate::narrow::{self, Union};
use crate::refusal::Refusal;
use crate::words::table::Table;
use crate::words::tree::{Decided, Record};
use crate::words::{TRACE_OBLIGATIONS, read};

/// Lengths to which joins come: the most that a node 12 can hold, one more, and the most that two nodes can come to.
const JOINED: [usize; 3] = [TRACE_OBLIGATIONS, TRACE_OBLIGATIONS + 1, 190];

/// How many cases have it. A case of two kinds counts as both.
#[derive(Clone, Copy, Debug, Default, PartialEq, Eq)]
pub struct Tally {
    /// Words that are read, with an obligation twice in one list.
    pub repeated: usize,
    /// Words that are read, with a Grant of 63 obligations, and of 64.
    pub granted: [usize; 2],
    /// Words that are read, with a node 12 of 65 to 125 obligations, of 126, and of 127.
    pub stored: [usize; 3],
    /// A join that passes over an obligation because it appended it before.
    pub appended_before: usize,
    /// A join to a list with a repeat.
    pub onto_repeats: usize,
    /// A join that comes to 127, 128 and 190 obligations, which are in the resulting record: accepted, and refused with 11.
    pub kept: [usize; 3],
    /// The same with another decision in the resulting record, and accepted.
    pub dropped: [usize; 3],
}

impl Tally {
    /// Counts these cases.
    pub fn of<'a>(cases: impl IntoIterator<Item = &'a Case>) -> Self {
        let mut tally = Self::default();
        for case in cases {
            tally.add(case);
        }
        tally
    }

    /// Counts a case.
    pub fn add(&mut self, case: &Case) {
        let Some(record) = given(case) else {
            return;
        };
        let count = usize::from;
        let granted = granted(&record);
        let stored = stored(&record);
        let long = |lists: &[&[u8]], length| lists.iter().any(|list| list.len() == length);
        self.repeated += count(repeats(case));
        self.granted[0] += count(long(&granted, 63));
        self.granted[1] += count(long(&granted, 64));
        self.stored[0] += count((65..126).any(|length| long(&stored, length)));
        self.stored[1] += count(long(&stored, 126));
        self.stored[2] += count(long(&stored, 127));
        let answer = case.answer();
        if answer == Err(Refusal::SheetNumber) {
            return;
        }
        let Some((resulting, unions)) = walked(case, &record) else {
            return;
        };
        self.appended_before += count(unions.iter().any(appends_once));
        self.onto_repeats += count(unions.iter().any(|union| has_repeat(&union.held)));
        let resulting = self::stored(&resulting);
        let accepted = answer.is_ok();
        for (at, length) in JOINED.into_iter().enumerate() {
            if unions.iter().any(|union| union.list().len() == length) {
                let kept = long(&resulting, length);
                self.kept[at] += count(kept && accepted == (length <= TRACE_OBLIGATIONS));
                self.dropped[at] += count(!kept && accepted);
            }
        }
    }
}

impl fmt::Display for Tally {
    fn fmt(&self, f: &mut fmt::Formatter<'_>) -> fmt::Result {
        let Self {
            repeated,
            granted,
            stored,
            appended_before,
            onto_repeats,
            kept,
            dropped,
        } = self;
        write!(
            f,
            "{repeated} with a repeated obligation, {granted:?} with a Grant of 63 and 64, {stored:?} with a node 12 of 65 to 125, 126 and 127, \
             {appended_before} with a join that passes over what it appended, {onto_repeats} with a join to a list with repeats, \
             {kept:?} with a join to 127, 128 and 190 that is kept, {dropped:?} with one that is dropped"
        )
    }
}

/// Whether the words are read and have an obligation twice in one list.
pub fn repeats(case: &Case) -> bool {
    given(case).is_some_and(|record| {
        let lists = [granted(&record), stored(&record)].concat();
        lists.into_iter().any(has_repeat)
    })
}

/// The words as a record; a sheet is the tree of one.
fn given(case: &Case) -> Option<Record> {
    if case.call.reads_sheet() {
        let sheet = read::sheet(&case.words).ok()?;
        return Some(Record::Pending {
            consulted: Vec::new(),
            residual: sheet.into(),
        });
    }
    read::record(&case.words).ok()
}

fn granted(record: &Record) -> Vec<&[u8]> {
    match record {
        Record::Resolved { .. } => Vec::new(),
        Record::Pending { residual, .. } => residual.granted(),
    }
}

fn stored(record: &Record) -> Vec<&[u8]> {
    let stored = record.stored().into_iter();
    stored.map(Decided::obligations).collect()
}

/// The resulting record of a call that writes, and the unions on the way. With a known table narrowing is completing.
fn walked(case: &Case, record: &Record) -> Option<(Record, Vec<Union>)> {
    if !case.call.writes() {
        return None;
    }
    let table = if case.call.allows_unknown() {
        Table::partial(&case.table).ok()?
    } else {
        Table::known(&case.table).ok()?
    };
    match record {
        Record::Resolved { .. } => Some((record.clone(), Vec::new())),
        Record::Pending {
            consulted,
            residual,
        } => Some(narrow::walked(
            consulted,
            residual,
            &table,
            case.call.order(),
        )),
    }
}

/// Whether an obligation stands twice in the list.
pub fn has_repeat(list: &[u8]) -> bool {
    let before = |at: usize| list[..at].contains(&list[at]);
    (0..list.len()).any(before)
}

/// Whether an incoming obligation that isn't held comes twice.
fn appends_once(union: &Union) -> bool {
    let fresh = |obligation: &&u8| !union.held.contains(obligation);
    let fresh: Vec<u8> = union.incoming.iter().filter(fresh).copied().collect();
    has_repeat(&fresh)
}
