//! Retention windows in the text form: one a line, such as `open 6 0..90 days`.

use std::collections::BTreeSet;

use clap::ValueEnum;
use vierskof::{Ages, Date, Fact, FactTable, Presence, Refusal, TABLE_BYTES, WINDOWS, Window};

use crate::facts;
use crate::numbers;
use crate::text::{Fault, quoted};

/// How a table is written.
#[derive(Clone, Copy, Debug, PartialEq, Eq, ValueEnum)]
pub enum TableForm {
    /// One line for --facts: the facts that windows and --facts name, and every other fact that isn't absent.
    Facts,
    /// Two hexadecimal digits a byte, for --table-hex.
    Hex,
    /// The 256 bytes, for --table.
    Binary,
}

/// A list of windows, and the line of each.
#[derive(Clone, Debug, Default)]
pub struct List {
    windows: Vec<(Fact, Window)>,
    lines: Vec<usize>,
}

impl List {
    /// The windows that a text says.
    pub fn read(text: &str) -> Result<Self, Fault> {
        let mut list = Self::default();
        for (line, number) in text.lines().zip(1..) {
            let said = line.split('#').next().unwrap_or_default();
            let words: Vec<&str> = said.split_whitespace().collect();
            if words.is_empty() {
                continue;
            }
            let window = window(&words).map_err(|(found, due)| Fault {
                line: number,
                found: quoted(found),
                due: due.to_owned(),
            })?;
            list.windows.push(window);
            list.lines.push(number);
        }
        Ok(list)
    }

    /// Their words, two for each.
    pub fn words(&self) -> Vec<u32> {
        let words = |(_, window): &(Fact, Window)| window.words();
        self.windows.iter().flat_map(words).collect()
    }

    /// Where or why a call with this list was turned back, if that can be said.
    pub fn place(
        &self,
        refusal: Refusal,
        [reading, today]: [Date; 2],
        table: &[u8],
    ) -> Option<String> {
        match refusal {
            Refusal::Date if is_no_date(reading) => Some(format!("--reading {reading}")),
            Refusal::Date => Some(format!("--today {today}")),
            Refusal::Windows => self.fault(table),
            _ => facts::faulty(table, refusal).map(|fact| format!("fact {fact}")),
        }
    }

    fn fault(&self, table: &[u8]) -> Option<String> {
        let above = |(_, window): &(Fact, Window)| {
            let [_, ages] = window.words();
            ages >> 16 > ages & 0xFFFF
        };
        if let Some(at) = self.windows.iter().position(above) {
            let line = self.lines.get(at)?;
            return Some(format!("line {line}: the first age is above the last"));
        }
        if let Some(line) = self.lines.get(WINDOWS) {
            return Some(format!("too many windows from line {line} on"));
        }
        let bytes = table.len();
        (bytes != TABLE_BYTES).then(|| format!("a table of {bytes} bytes, where 256 are due"))
    }

    /// The table in this form. Facts that were said are said again, absent ones too.
    pub fn write(&self, table: &[u8], form: TableForm, said: &[(Fact, Presence)]) -> Vec<u8> {
        match form {
            TableForm::Facts => self.facts(table, said).into_bytes(),
            TableForm::Hex => hex(table).into_bytes(),
            TableForm::Binary => table.to_vec(),
        }
    }

    fn facts(&self, table: &[u8], said: &[(Fact, Presence)]) -> String {
        let table = FactTable::from_bytes(table).unwrap_or_default();
        let windows = self.windows.iter().map(|(fact, _)| *fact);
        let named: BTreeSet<Fact> = windows.chain(said.iter().map(|(fact, _)| *fact)).collect();
        let told = |fact: &Fact| table.presence(*fact) != Presence::Absent || named.contains(fact);
        let facts = (0..=Fact::MAX.number()).filter_map(Fact::new).filter(told);
        let facts: Vec<String> = facts
            .map(|fact| format!("{fact}={}", table.presence(fact)))
            .collect();
        if facts.is_empty() {
            String::new()
        } else {
            facts.join(",") + "\n"
        }
    }
}

/// The table in rows of 32 bytes.
fn hex(table: &[u8]) -> String {
    let row = |row: &[u8]| {
        let bytes = row.iter().map(|byte| format!("{byte:02X}"));
        bytes.collect::<String>() + "\n"
    };
    table.chunks(32).map(row).collect()
}

/// Whether the proved call refuses this date.
fn is_no_date(date: Date) -> bool {
    let mut out = [0; TABLE_BYTES];
    let set = vierskof::apply_windows(&[], date, Date::UNKNOWN, &[0; TABLE_BYTES], &mut out);
    set == Err(Refusal::Date)
}

type Due<'t> = (&'t str, &'static str);

/// A window's words: verdict, fact, ages and unit. Of others, which one is found where what is due.
fn window<'t>(words: &[&'t str]) -> Result<(Fact, Window), Due<'t>> {
    let word = |at: usize| words.get(at).copied().unwrap_or_default();
    let [verdict, fact, ages, unit] = [0, 1, 2, 3].map(word);
    let made: fn(Fact, Ages) -> Window = match verdict {
        "open" => Window::open,
        "closed" => Window::closed,
        other => return Err((other, "open or closed")),
    };
    let fact = numbers::fact(fact).map_err(|due| (fact, due))?;
    let range = numbers::ages(ages).map_err(|due| (ages, due))?;
    let ages = match unit {
        "days" => Ages::days(range),
        "years" => Ages::years(range),
        other => return Err((other, "days or years")),
    };
    match words.get(4) {
        Some(more) => Err((*more, "the end of the line")),
        None => Ok((fact, made(fact, ages))),
    }
}

/// The text that bytes are.
pub fn text(bytes: Vec<u8>) -> Result<String, String> {
    String::from_utf8(bytes).map_err(|error| format!("no text: {error}"))
}
