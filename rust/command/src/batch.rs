//! A batch of requests at the command line: a request a line, such as `group 1 day 2026-11-17 facts 5=present`, and a line for each reply.

use std::path::PathBuf;

use clap::ValueEnum;
use vierskof::{
    BATCH_REQUESTS, Levels, Presence, RECORD_WORDS, Refusal, Reply, Request, SheetList,
    evaluate_batch, evaluate_batch_by_levels, in_force,
};

use crate::document::Document;
use crate::facts;
use crate::form::Form;
use crate::given::{Due, Given};
use crate::numbers;
use crate::register;
use crate::text::{Fault, quoted};
use crate::work::Failure;

/// How the records of a batch are written. Binary words can't stand between lines.
#[derive(Clone, Copy, Debug, PartialEq, Eq, ValueEnum)]
pub enum RecordForm {
    /// One node a line, indented under what it belongs to.
    Text,
    /// Eight hexadecimal digits a word.
    Hex,
}

impl From<RecordForm> for Form {
    fn from(form: RecordForm) -> Self {
        match form {
            RecordForm::Text => Self::Text,
            RecordForm::Hex => Self::Hex,
        }
    }
}

/// A request as it is typed.
#[derive(Clone, Debug, PartialEq, Eq)]
pub struct Asked {
    group: u8,
    day: u32,
    table: Vec<u8>,
}

impl Asked {
    fn request(&self) -> Request<'_> {
        Request {
            group: self.group,
            day: self.day,
            facts: &self.table,
        }
    }
}

/// The requests that a text says.
pub fn requests(text: &str) -> Result<Vec<Asked>, Fault> {
    let lines = text.lines().zip(1..).map(|(line, number)| {
        let said = line.split('#').next().unwrap_or_default();
        let words: Vec<&str> = said.split_whitespace().collect();
        (words, number)
    });
    let said = lines.filter(|(words, _)| !words.is_empty());
    let read = said.map(|(words, line)| {
        request(&words).map_err(|(found, due)| Fault {
            line,
            found: quoted(&found),
            due: due.to_owned(),
        })
    });
    read.collect()
}

/// A request's words: a group, a day, and its facts or the bytes of its table. Of others, which one is found where what is due.
fn request(words: &[&str]) -> Result<Asked, (String, &'static str)> {
    let word = |at: usize| words.get(at).copied().unwrap_or_default();
    let due = |at: usize, due| (word(at).to_owned(), due);
    if word(0) != "group" {
        return Err(due(0, "group"));
    }
    let group = numbers::group(word(1)).map_err(|what| due(1, what))?;
    if word(2) != "day" {
        return Err(due(2, "day"));
    }
    let day = register::day(word(3)).map_err(|what| due(3, what))?;
    let table = match word(4) {
        "" => Vec::new(),
        "facts" => said(words.get(5..).unwrap_or_default())?,
        "table" => {
            let digits = words.get(5..).unwrap_or_default().concat();
            let due = "two hexadecimal digits for each byte";
            facts::bytes(&digits).map_err(|_| (digits, due))?.0
        }
        _ => return Err(due(4, "facts, table or the end of the line")),
    };
    Ok(Asked { group, day, table })
}

/// The table of facts that commas or white space stand between.
fn said(words: &[&str]) -> Result<Vec<u8>, (String, &'static str)> {
    let facts = words.iter().flat_map(|word| word.split(','));
    let facts = facts.filter(|fact| !fact.is_empty());
    let read = facts.map(|fact| numbers::said(fact).map_err(|due| (fact.to_owned(), due)));
    let facts: Vec<_> = read.collect::<Result<_, _>>()?;
    let table = facts::table(&facts, Presence::Absent);
    let table = table.map_err(|both| (both, "one reading of a fact"))?;
    Ok(table.as_bytes().to_vec())
}

/// A number and the file of the sheet that has it, as in `7=licence.txt`.
pub fn handed(text: &str) -> Result<(u16, PathBuf), String> {
    let due = || "a sheet's number from 0 to 65535, = and a file are due".to_owned();
    let (number, file) = text.split_once('=').ok_or_else(due)?;
    let number = numbers::sheet(number).map_err(|_| due())?;
    Ok((number, file.into()))
}

/// The words of a sheet as a list says them: none for one that can't be read, or that has more words than a list counts.
///
/// A request that an empty sheet decides is refused by 1 before its table is read, which is right for too many words too; and no other request is stopped.
fn said_words(given: &Result<Given, String>) -> &[u32] {
    match given {
        Ok(given) if u16::try_from(given.words.len()).is_ok() => &given.words,
        Ok(_) | Err(_) => &[],
    }
}

/// What a batch is run with.
#[derive(Debug)]
pub struct Desk {
    /// The register.
    pub register: Given,
    /// The sheets that are handed over, with their numbers; of one that can't be read, its file and why.
    pub sheets: Vec<(u16, Result<Given, String>)>,
    /// The outcome table, if there is one.
    pub levels: Option<Levels>,
    /// The allowance of visited nodes.
    pub allowance: u16,
}

impl Desk {
    /// Runs a batch: a line for each request, and after it the record of one that is decided.
    pub fn run(&self, requests: &[Asked], form: Form) -> Result<Vec<u8>, Failure> {
        let list = self.list()?;
        let asked: Vec<_> = requests
            .iter()
            .map(|asked| asked.request().words())
            .collect();
        let asked = asked.as_flattened();
        let mut replies = vec![0; requests.len()];
        // Room for as many records as are due, of whatever length.
        let mut out = vec![0; requests.len().min(BATCH_REQUESTS) * RECORD_WORDS];
        let (register, allowance) = (&self.register.words, self.allowance);
        let told = match &self.levels {
            None => evaluate_batch(register, &list, asked, allowance, &mut replies, &mut out),
            Some(levels) => evaluate_batch_by_levels(
                levels,
                register,
                &list,
                asked,
                allowance,
                &mut replies,
                &mut out,
            ),
        };
        let told = told.map_err(|refusal| self.turned_back(refusal, requests.len()))?;
        let mut bytes = Vec::new();
        let mut left = allowance;
        for ((reply, request), number) in told.zip(requests).zip(1..) {
            let (line, record) = self.line(reply, request, left)?;
            bytes.extend(format!("request {number}: {line}\n").into_bytes());
            if let Some((record, nodes)) = record {
                left -= nodes;
                bytes.extend(form.write(&record));
            }
        }
        Ok(bytes)
    }

    /// The words of the sheets, each after its number and count.
    fn list(&self) -> Result<Vec<u32>, Failure> {
        let room = self
            .sheets
            .iter()
            .map(|(_, given)| 1 + said_words(given).len());
        let mut words = vec![0; room.sum()];
        let mut list = SheetList::new(&mut words);
        for (number, given) in &self.sheets {
            let pushed = list.push(*number, said_words(given));
            pushed.map_err(|refusal| Failure::Refused(refusal, None))?;
        }
        Ok(words)
    }

    /// Why nothing is decided.
    fn turned_back(&self, refusal: Refusal, requests: usize) -> Failure {
        match refusal {
            Refusal::Register => self.register.no_register(refusal),
            Refusal::Length => Failure::Refused(
                refusal,
                Some(format!(
                    "{requests} requests, where at most {BATCH_REQUESTS} are due"
                )),
            ),
            _ => Failure::Refused(refusal, None),
        }
    }

    /// What a line says of a reply, and the record of one that is decided, with the nodes that it takes.
    fn line<'o>(
        &self,
        reply: Reply<'o>,
        request: &Asked,
        left: u16,
    ) -> Result<(String, Option<(Document<'o>, u16)>), Failure> {
        let found = in_force(&self.register.words, request.group, request.day);
        let number = found.map_err(|refusal| self.register.no_register(refusal))?;
        let Some(number) = number else {
            return Ok(("none, no sheet is in force".to_owned(), None));
        };
        match reply {
            Reply::None => Ok((format!("none, sheet {number} was not given"), None)),
            Reply::Refused(refusal) => {
                let why = self.refused(refusal, number, request, left);
                Ok((format!("sheet {number}, {why}"), None))
            }
            Reply::Decided { record, nodes } => {
                let document = Document::read(record);
                let document = document.map_err(|refusal| Failure::Refused(refusal, None))?;
                let document = document.by_levels(self.levels.is_some());
                let visited = if nodes == 1 { "node" } else { "nodes" };
                let line = format!("sheet {number}, {nodes} {visited}");
                Ok((line, Some((document, nodes))))
            }
        }
    }

    /// Why a request is refused, as other commands say it; of a sheet that can't be read its file and the fault, and no number, since the tables have none.
    fn refused(&self, refusal: Refusal, number: u16, request: &Asked, left: u16) -> String {
        let mut sheets = self.sheets.iter();
        let sheet = sheets.find(|(of, _)| *of == number).map(|(_, sheet)| sheet);
        if let Some(Err(fault)) = sheet {
            return format!("refused without a number: {fault}");
        }
        let place = match refusal {
            Refusal::Allowance => Some(format!("{left} are left")),
            _ => facts::faulty(&request.table, refusal).map(|fact| format!("fact {fact}")),
        };
        let failure = match sheet {
            Some(Ok(given)) if place.is_none() => {
                given.refused(refusal, Due::Sheet, self.levels.as_ref())
            }
            _ => Failure::Refused(refusal, place),
        };
        failure.to_string()
    }
}
