//! Comments in plain words: what a sheet names, what a record needs, or what was decided and why.

use std::fmt::{self, Display, Formatter};

use vierskof::read::{Decision, DenyWithTrace, PermitWithTrace, Record};
use vierskof::{Fact, FactSet, Label, Products, Reason};

use super::show::Joined;
use crate::document::{Document, Kind};

pub(super) fn document(document: &Document<'_>, f: &mut Formatter<'_>) -> fmt::Result {
    let outcome = if document.has_levels() {
        level
    } else {
        products
    };
    match document.kind() {
        Kind::Sheet(_) => writeln!(f, "# A sheet. It names {}.", set(document.facts())),
        Kind::Record(record) => {
            match record.decision() {
                Some(Decision::Permit(permit)) => permitted(f, permit, outcome)?,
                Some(Decision::Deny(deny)) => denied(f, deny, outcome)?,
                None => writeln!(f, "# Pending. Still needed: {}.", set(document.facts()))?,
            }
            if record.number() > 0 {
                writeln!(f, "# Sheet: {}.", record.number())?;
            }
            consulted(f, record)
        }
    }
}

/// What is said of an outcome.
type Said = fn(Products) -> String;

fn permitted(f: &mut Formatter<'_>, permit: PermitWithTrace<'_>, outcome: Said) -> fmt::Result {
    writeln!(f, "# Permit: {}.", outcome(permit.outcome()))?;
    writeln!(f, "# Obligations: {}.", or_none(permit.obligations()))?;
    if permit.label().is_none() && permit.facts().len() == 0 {
        // A fold of permits has no clause of its own; nor has a plain permit, and the record doesn't say which it was.
        return f.write_str(
            "# Decisive facts: none, since several clauses were joined or the one that decided asks for no fact.\n",
        );
    }
    because(f, permit.label(), None, permit.facts())
}

fn denied(f: &mut Formatter<'_>, deny: DenyWithTrace<'_>, outcome: Said) -> fmt::Result {
    write!(f, "# Deny, {}", deny.shape())?;
    if let Some(denied) = deny.denied() {
        write!(f, ". Not granted: {}", outcome(denied))?;
    }
    writeln!(f, ".")?;
    because(f, deny.label(), deny.reason(), deny.facts())
}

/// The decisive clause.
fn because(
    f: &mut Formatter<'_>,
    label: Option<Label>,
    reason: Option<Reason>,
    facts: impl ExactSizeIterator<Item = Fact> + Clone,
) -> fmt::Result {
    write!(f, "# Decisive facts: {}", or_none(facts))?;
    if let Some(label) = label {
        write!(f, "; label {label}")?;
    }
    if let Some(reason) = reason {
        write!(f, "; reason {reason}")?;
    }
    writeln!(f, ".")
}

fn consulted(f: &mut Formatter<'_>, record: Record<'_>) -> fmt::Result {
    let entries = record.consulted();
    let entries = entries.map(|read| format!("{} {}", read.fact, read.reading));
    writeln!(f, "# Facts consulted: {}.", or_none(entries))
}

/// A level by its number.
fn level(outcome: Products) -> String {
    format!("level {}", outcome.bits())
}

/// The products of a set by their numbers.
fn products(set: Products) -> String {
    let numbers: Vec<u8> = (0..16).filter(|product| set.contains(*product)).collect();
    match numbers.len() {
        0 => "no product".to_owned(),
        1 => format!("product {}", numbers[0]),
        16 => "all sixteen products".to_owned(),
        _ => format!("products {}", Joined(numbers.iter(), ", ")),
    }
}

/// Facts by their numbers.
fn set(facts: &FactSet) -> String {
    match facts.len() {
        0 => "no fact".to_owned(),
        1 => format!("fact {}", Joined(facts.iter(), "")),
        _ => format!("facts {}", Joined(facts.iter(), ", ")),
    }
}

fn or_none(items: impl ExactSizeIterator<Item: Display> + Clone) -> String {
    if items.len() == 0 {
        "none".to_owned()
    } else {
        Joined(items, ", ").to_string()
    }
}
