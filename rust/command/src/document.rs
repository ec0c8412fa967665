//! Words that the proved reader has accepted.

use vierskof::read::{Record, Sheet};
use vierskof::{FactSet, Refusal, required_facts, required_residual_facts};

/// A sheet or a record, and the facts that its tree names.
#[derive(Clone, Copy, Debug)]
pub struct Document<'w> {
    kind: Kind<'w>,
    facts: FactSet,
    levels: bool,
}

/// Which of the two it is.
#[derive(Clone, Copy, Debug)]
pub enum Kind<'w> {
    /// A policy sheet.
    Sheet(Sheet<'w>),
    /// A record, Pending or Resolved.
    Record(Record<'w>),
}

impl<'w> Document<'w> {
    /// Reads words as a record if their first is a record's lead, and as a sheet otherwise.
    pub fn read(words: &'w [u32]) -> Result<Self, Refusal> {
        Ok(if is_record(words) {
            Self {
                kind: Kind::Record(Record::read(words)?),
                facts: required_residual_facts(words)?,
                levels: false,
            }
        } else {
            Self {
                kind: Kind::Sheet(Sheet::read(words)?),
                facts: required_facts(words)?,
                levels: false,
            }
        })
    }

    /// The same with levels for outcomes, and not products.
    #[must_use]
    pub const fn by_levels(self, levels: bool) -> Self {
        Self { levels, ..self }
    }

    /// Whether its outcomes are levels.
    pub const fn has_levels(&self) -> bool {
        self.levels
    }

    /// The sheet or record.
    pub const fn kind(&self) -> Kind<'w> {
        self.kind
    }

    /// The facts that conditions of the tree name.
    pub const fn facts(&self) -> &FactSet {
        &self.facts
    }

    /// The words as they were read.
    pub fn words(&self) -> &'w [u32] {
        match self.kind {
            Kind::Sheet(sheet) => sheet.words(),
            Kind::Record(record) => record.words(),
        }
    }
}

/// Whether words begin as a record does.
pub fn is_record(words: &[u32]) -> bool {
    words.first().is_some_and(|word| word >> 28 >= 14)
}
