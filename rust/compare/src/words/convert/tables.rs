//! Fact tables as the original's bundles. Facts past a table's end stay out of them.

use gatekeep::{FactId, KnownFacts, PartialFacts, Presence};

use super::ids::fact_id;
use crate::words::table::Table;

fn entries(table: &Table) -> impl Iterator<Item = (FactId, Presence)> {
    table.entries().map(|(fact, read)| (fact_id(fact), read))
}

/// The original's bundle for a known table.
pub fn known_facts(table: &Table) -> KnownFacts {
    KnownFacts::from_entries(entries(table)).expect("a known table holds no Unknown")
}

/// The original's bundle for a partial table.
pub fn partial_facts(table: &Table) -> PartialFacts {
    PartialFacts::from_entries(entries(table))
}
