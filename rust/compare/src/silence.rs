//! What request 9 has to do with a case: entries that are silent, and tables that end before a fact.
//!
//! The original's entries have no word for silence. Towards it a silent entry is Absent, and its record is [`marked`] here, from what stood before and from
//! where the table ends, so that every word of a proved call's record is compared.

use std::fmt;

use crate::case::{Answer, Case};
use crate::reference;
use crate::words::read;
use crate::words::table::Table;
use crate::words::tree::{Entry, Record, Seen};

/// The record with silence read as Absent.
#[must_use]
pub fn heard(mut record: Record) -> Record {
    for (_, seen) in record.consulted_mut() {
        if *seen == Seen::Silent {
            *seen = Seen::Absent;
        }
    }
    record
}

/// The original's record after a call with this table, with silence told: entries that stood before stay as they were, and a new one that is Absent is silent
/// where the table ends before its fact. With silence read as Absent it is still the original's.
pub fn marked(original: &Record, standing: &[Entry], table: &Table) -> Record {
    let mut record = original.clone();
    let (stood, new) = record.consulted_mut().split_at_mut(standing.len());
    stood.copy_from_slice(standing);
    for (fact, seen) in new {
        if *seen == Seen::Absent && table.observation(*fact).is_none() {
            *seen = Seen::Silent;
        }
    }
    assert_eq!(heard(record.clone()), *original, "{standing:?}");
    record
}

/// The entries with which the result of a call on this record begins: a Resolved one's own, and of a Pending one's the first of each fact.
pub fn standing(given: &Record) -> Vec<Entry> {
    let entries = given.consulted();
    if matches!(given, Record::Resolved { .. }) {
        return entries.to_vec();
    }
    let first = |at: &usize| {
        entries[..*at]
            .iter()
            .all(|(fact, _)| *fact != entries[*at].0)
    };
    (0..entries.len())
        .filter(first)
        .map(|at| entries[at])
        .collect()
}

/// How many accepted calls have it. A call of two kinds counts as both.
#[derive(Clone, Copy, Debug, Default, PartialEq, Eq)]
pub struct Tally {
    /// A silent entry in the record that is given.
    pub given: usize,
    /// The same, of a fact that the call's table enters, as Absent, Present or Unknown.
    pub entered_later: [usize; 3],
    /// A table that ends before a fact that the words name.
    pub cut: usize,
    /// A new silent entry in the resulting record.
    pub told: usize,
    /// A new entry that is Absent there, since the table enters it.
    pub entered: usize,
    /// A fact that was entered before as Absent, and on which the call's table is silent.
    pub silent_later: usize,
}

impl Tally {
    /// Counts these cases.
    pub fn of<'a>(cases: impl IntoIterator<Item = &'a Case>) -> Self {
        let mut tally = Self::default();
        for case in cases {
            tally.add(case);
        }
        tally
    }

    /// Counts a case.
    pub fn add(&mut self, case: &Case) {
        let Ok(answer) = case.answer() else {
            return;
        };
        let count = usize::from;
        let standing = if case.call.reads_sheet() {
            Vec::new()
        } else {
            standing(&read::record(&case.words).expect("an accepted record"))
        };
        let silent = |(_, seen): &Entry| *seen == Seen::Silent;
        self.given += count(standing.iter().any(silent));
        let Answer::Record(record) = answer else {
            return;
        };
        let table = Table::partial(&case.table).expect("an accepted table");
        let said = |fact: &u16| Seen::from(table.observation(*fact));
        let entered = [Seen::Absent, Seen::Present, Seen::Unknown];
        for (at, presence) in entered.into_iter().enumerate() {
            let later = |entry: &Entry| silent(entry) && said(&entry.0) == presence;
            self.entered_later[at] += count(standing.iter().any(later));
        }
        let ended = |(fact, seen): &Entry| *seen == Seen::Absent && said(fact) == Seen::Silent;
        self.silent_later += count(standing.iter().any(ended));
        let named = if case.call.reads_sheet() {
            reference::required_facts(&case.words)
        } else {
            reference::required_residual_facts(&case.words)
        };
        let named = named.expect("accepted words");
        self.cut += count(named.facts().any(|fact| said(&fact) == Seen::Silent));
        let record = read::record(&record).expect("a record");
        let new = &record.consulted()[standing.len()..];
        self.told += count(new.iter().any(silent));
        self.entered += count(new.iter().any(|(_, seen)| *seen == Seen::Absent));
    }
}

impl fmt::Display for Tally {
    fn fmt(&self, f: &mut fmt::Formatter<'_>) -> fmt::Result {
        let Self {
            given,
            entered_later,
            cut,
            told,
            entered,
            silent_later,
        } = self;
        write!(
            f,
            "{given} with a silent entry given, {entered_later:?} with one of a fact that the table enters as Absent, Present and Unknown, \
             {cut} with a table that ends before a fact named, {told} with a new silent entry, {entered} with a new Absent one, \
             {silent_later} with an Absent one on which the table is silent"
        )
    }
}
