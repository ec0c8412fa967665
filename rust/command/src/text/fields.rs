//! What a line says after its name, read from the left.

use std::str::SplitWhitespace;

use vierskof::{Fact, Label, Obligation, Products, Reason};

use super::line::{Fault, Line, quoted};
use crate::numbers::{self, Read};

/// What a clause may say after its outcome.
#[derive(Debug, Default)]
pub struct Clause {
    /// Denies are hidden, and not forbidden.
    pub hidden: bool,
    /// What a deny denied.
    pub denied: Option<Products>,
    /// The clause's label.
    pub label: Option<Label>,
    /// The clause's reason.
    pub reason: Option<Reason>,
    /// The obligations, in order.
    pub obligations: Vec<Obligation>,
    /// The decisive facts, in order.
    pub facts: Vec<Fact>,
}

/// What is left of a line.
#[derive(Debug)]
pub struct Fields<'t> {
    line: Line<'t>,
    left: SplitWhitespace<'t>,
}

impl<'t> Fields<'t> {
    /// The words of a line after its first, which is its name.
    pub fn of(line: Line<'t>) -> Self {
        let mut left = line.content.split_whitespace();
        left.next();
        Self { line, left }
    }

    /// The next word as an item.
    pub fn item<T>(&mut self, read: Read<T>) -> Result<T, Fault> {
        // An empty word can't be read either, so its error says what is due.
        let word = self.left.next().unwrap_or_default();
        self.read(word, word, read)
    }

    /// The next word as a list without spaces, of one item or more.
    pub fn list<T>(&mut self, read: Read<T>, most: usize) -> Result<Vec<T>, Fault> {
        let list = self.left.next().unwrap_or_default();
        let mut items = Vec::new();
        for word in list.split(',') {
            if items.len() == most {
                let due = format!("a list of at most {most}");
                return Err(self.line.fault("a longer list", &due));
            }
            items.push(self.read(word, list, read)?);
        }
        Ok(items)
    }

    /// The rest of the line as parts of a clause, each of these at most once and in any order, with so many obligations at most.
    pub fn clause(&mut self, parts: &[&str], obligations: usize) -> Result<Clause, Fault> {
        let mut parts = parts.to_vec();
        let mut clause = Clause::default();
        while let Some(word) = self.left.next() {
            let Some(at) = parts.iter().position(|part| *part == word) else {
                let due = [&["the end of the line"], parts.as_slice()].concat();
                return Err(self.line.fault(&quoted(word), &due.join(" or ")));
            };
            self.part(parts.remove(at), obligations, &mut clause)?;
        }
        Ok(clause)
    }

    /// The rest of a record's first line: the number of its sheet, 0 if it says none.
    pub fn sheet(&mut self) -> Result<u16, Fault> {
        let number = match self.left.next() {
            None => return Ok(0),
            Some("sheet") => self.item(numbers::sheet)?,
            Some(word) => {
                let due = "the end of the line or sheet";
                return Err(self.line.fault(&quoted(word), due));
            }
        };
        self.end().map(|()| number)
    }

    /// Nothing may be left.
    pub fn end(&mut self) -> Result<(), Fault> {
        self.clause(&[], 0).map(|_| ())
    }

    fn part(&mut self, name: &str, most: usize, clause: &mut Clause) -> Result<(), Fault> {
        match name {
            "hidden" => clause.hidden = true,
            "denied" => clause.denied = Some(self.item(numbers::products)?),
            "label" => clause.label = Some(self.item(numbers::label)?),
            "reason" => clause.reason = Some(self.item(numbers::reason)?),
            "obligations" => clause.obligations = self.list(numbers::obligation, most)?,
            "facts" => clause.facts = self.list(numbers::fact, vierskof::LIST)?,
            _ => unreachable!("no clause has a part {name}"),
        }
        Ok(())
    }

    /// Reads a word that is all or a part of what stands in its place.
    fn read<T>(&self, word: &str, place: &str, read: Read<T>) -> Result<T, Fault> {
        let found = || match (word, place) {
            ("", "") => "the end of the line".to_owned(),
            ("", list) => format!("an empty place in {}", quoted(list)),
            (word, _) => quoted(word),
        };
        read(word).map_err(|due| self.line.fault(&found(), due))
    }
}
