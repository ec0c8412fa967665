//! Fact tables from what is said at the command line.

use std::collections::BTreeMap;
use std::fmt::Write as _;
use std::iter;

use clap::ValueEnum;
use vierskof::read::{Observation, Reading, Record};
use vierskof::{Fact, FactTable, Presence, Refusal};

use crate::numbers;

/// A table's bytes, typed as hexadecimal digits.
#[derive(Clone, Debug, PartialEq, Eq)]
pub struct Bytes(pub Vec<u8>);

/// How a fact table is written.
#[derive(Clone, Copy, Debug, PartialEq, Eq, ValueEnum)]
pub enum TableForm {
    /// Two hexadecimal digits a byte, as --table-hex takes them.
    Hex,
    /// The bytes themselves, as --table takes them.
    Binary,
    /// A line for each fact that isn't absent, as in 5=present.
    Facts,
}

impl TableForm {
    /// A table without a 3 in this form.
    pub fn write(self, table: &[u8]) -> Vec<u8> {
        let mut text = String::new();
        match self {
            Self::Binary => return table.to_vec(),
            Self::Hex => text = digits(table),
            Self::Facts => {
                for (fact, field) in fields(table).enumerate() {
                    let presence = [Presence::Absent, Presence::Present, Presence::Unknown];
                    let presence = presence[usize::from(field.min(2))];
                    if presence != Presence::Absent {
                        let _ = writeln!(text, "{fact}={presence}");
                    }
                }
            }
        }
        text.into_bytes()
    }
}

/// The fields of a table, from fact 0 on.
fn fields(table: &[u8]) -> impl Iterator<Item = u8> {
    let fields = |byte: &u8| [byte >> 6, byte >> 4 & 3, byte >> 2 & 3, byte & 3];
    table.iter().flat_map(fields)
}

/// The table of the facts that are said, or two that contradict each other; a fact that is not said reads as `rest`.
pub fn table(said: &[(Fact, Presence)], rest: Presence) -> Result<FactTable, String> {
    let mut presences = BTreeMap::new();
    for (fact, presence) in said {
        let earlier = presences.insert(*fact, *presence);
        if let Some(earlier) = earlier.filter(|earlier| earlier != presence) {
            return Err(format!("{fact}={earlier} and {fact}={presence}"));
        }
    }
    let mut table = match rest {
        Presence::Absent => FactTable::new(),
        Presence::Unknown => FactTable::unknown(),
        Presence::Present => unreachable!("no call takes a fact for present that nobody names"),
    };
    table.extend(presences);
    Ok(table)
}

/// The fact for which a table is refused: the first whose field no call, or no call that needs all facts, takes.
pub fn faulty(table: &[u8], refusal: Refusal) -> Option<usize> {
    let field = match refusal {
        Refusal::TableField => 3,
        Refusal::UnknownFact => 2,
        _ => return None,
    };
    fields(table).position(|found| found == field)
}

/// The first fact of which a table says the contrary of a record's entry, and what that says.
pub fn contradicted(record: &[u32], table: &[u8]) -> Option<String> {
    let entries = Record::read(record).ok()?.consulted();
    let fields: Vec<u8> = fields(table).collect();
    let against = |entry: &Observation| {
        let field = fields.get(usize::from(entry.fact.number()));
        match entry.reading {
            Reading::Absent => field == Some(&1),
            Reading::Present => field == Some(&0),
            _ => false,
        }
    };
    let entry = entries.into_iter().find(against)?;
    Some(format!(
        "the record has fact {} as {}",
        entry.fact, entry.reading
    ))
}

/// The first fact that is Present in one of two tables and Absent in the other, past an end too.
pub fn clash(one: &[u8], two: &[u8]) -> Option<usize> {
    let facts = 0..4 * one.len().max(two.len());
    let readings = |table| fields(table).chain(iter::repeat(0));
    let mut pairs = facts.zip(readings(one).zip(readings(two)));
    pairs.find_map(|(fact, (one, two))| (one < 2 && two < 2 && one != two).then_some(fact))
}

/// A line of two hexadecimal digits a byte.
pub fn digits(bytes: &[u8]) -> String {
    let mut text = String::new();
    for byte in bytes {
        let _ = write!(text, "{byte:02X}");
    }
    text + "\n"
}

/// Bytes of two hexadecimal digits each; white space between them may be left out.
pub fn bytes(text: &str) -> Result<Bytes, &'static str> {
    let digits: String = text.split_whitespace().map(numbers::digits).collect();
    let digits: Vec<char> = digits.chars().collect();
    let read = |pair: &[char]| match pair {
        [high, low] => {
            let value = high.to_digit(16)? << 4 | low.to_digit(16)?;
            u8::try_from(value).ok()
        }
        _ => None,
    };
    let bytes: Option<Vec<u8>> = digits.chunks(2).map(read).collect();
    bytes
        .map(Bytes)
        .ok_or("two hexadecimal digits for each byte are due")
}
