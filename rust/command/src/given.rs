//! Words as they were given: where they stand, and so where a refusal comes from.

use std::fs::File;
use std::io::{self, Read};
use std::path::Path;

use vierskof::read::{Record, Sheet};
use vierskof::{
    Levels, RECORD_WORDS, Refusal, SHEET_WORDS, complete_residual_by_levels,
    partial_evaluate_by_levels,
};

use crate::arguments::{Asked, Input};
use crate::document::{Document, Kind, is_record};
use crate::form::{self, Form};
use crate::register;
use crate::work::Failure;

/// Bytes of the longest file that is read. A text of the longest record needs far less.
const LONGEST: u64 = 16 << 20;

/// What a command reads the words as.
#[derive(Clone, Copy, Debug, PartialEq, Eq)]
pub enum Due {
    /// A sheet.
    Sheet,
    /// A record.
    Record,
    /// Whichever they are.
    Either,
}

/// Words as they were given.
#[derive(Clone, Debug)]
pub struct Given {
    /// Where they come from.
    name: String,
    /// The words.
    pub words: Vec<u32>,
    /// The line of each, if they were given as text.
    lines: Option<Vec<usize>>,
    /// What the bytes look like, if nobody said that they are binary words and they may be none.
    mistaken: Option<String>,
}

impl Given {
    /// The words in a file, or on standard input.
    pub fn read(input: &Input, stdin: impl Read) -> Result<Self, Failure> {
        Self::taken(bytes_of(&input.file, stdin), |bytes, name| {
            Self::of(bytes, input.from, name)
        })
    }

    /// The words of a register.
    pub fn register(asked: &Asked, stdin: impl Read) -> Result<Self, Failure> {
        Self::taken(bytes_of(&asked.file, stdin), |bytes, name| {
            Self::of_register(bytes, asked.from, name)
        })
    }

    /// The words of the register in a file.
    pub fn register_in(file: &Path) -> Result<Self, Failure> {
        Self::taken(named(file), |bytes, name| {
            Self::of_register(bytes, None, name)
        })
    }

    /// The words of the sheet in a file; or the file's name and why what stands in it can't be read, which is no failure of a batch that it doesn't decide.
    pub fn sheet_in(file: &Path) -> Result<Result<Self, String>, Failure> {
        let name = file.display().to_string();
        let named = |message| format!("{name}: {message}");
        let bytes = File::open(file).and_then(bytes_in);
        let bytes = bytes.map_err(|error| Failure::Usage(named(error.to_string())))?;
        let read = short(bytes).and_then(|bytes| {
            let given = Self::of(&bytes, None, &name)?;
            given.text().cloned().map_or(Ok(given), Err)
        });
        Ok(read.map_err(named))
    }

    fn taken(
        (name, bytes): (String, Result<Vec<u8>, String>),
        of: impl FnOnce(&[u8], &str) -> Result<Self, String>,
    ) -> Result<Self, Failure> {
        let named = |message| Failure::Usage(format!("{name}: {message}"));
        let bytes = bytes.map_err(named)?;
        of(&bytes, &name).map_err(named)
    }

    /// A register has no text form: what isn't binary is taken for hexadecimal.
    fn of_register(
        bytes: &[u8],
        from: Option<register::Words>,
        name: &str,
    ) -> Result<Self, String> {
        let text = Form::of(bytes) != Form::Binary;
        let from = from.map(Form::from);
        Self::of(bytes, from.or(text.then_some(Form::Hex)), name)
    }

    fn of(bytes: &[u8], from: Option<Form>, name: &str) -> Result<Self, String> {
        let form = from.unwrap_or_else(|| Form::of(bytes));
        let guessed = form == Form::Binary && from.is_none();
        let mistaken = guessed.then(|| form::mistaken(bytes)).flatten();
        match form.read(bytes) {
            Ok((words, lines)) => Ok(Self {
                name: name.to_owned(),
                words,
                lines,
                mistaken,
            }),
            Err(message) => Err(mistaken.unwrap_or(message)),
        }
    }

    /// The failure that a refusal of the words is, with the place if there is one.
    pub fn refused(&self, refusal: Refusal, due: Due, levels: Option<&Levels>) -> Failure {
        match self.text() {
            Some(text) => Failure::Usage(format!("{}: {text}", self.name)),
            None => Failure::Refused(refusal, self.place(refusal, due, levels)),
        }
    }

    /// Which text the bytes are that were taken for binary words, if they are no document's.
    fn text(&self) -> Option<&String> {
        let no_document = |_: &&String| judged(&self.words, Due::Either, None).is_err();
        self.mistaken.as_ref().filter(no_document)
    }

    /// The failure that words are which are no register.
    pub fn no_register(&self, refusal: Refusal) -> Failure {
        match &self.mistaken {
            Some(mistaken) => Failure::Usage(format!("{}: {mistaken}", self.name)),
            None => Failure::Refused(refusal, Some(register::place(&self.words))),
        }
    }

    fn place(&self, refusal: Refusal, due: Due, levels: Option<&Levels>) -> Option<String> {
        let stops = || self.stops(refusal, due, levels);
        match refusal {
            Refusal::Length => Some(self.length(due)),
            Refusal::WordsEnd => Some(format!("after word {}, the last", self.words.len())),
            Refusal::Kind => Some(
                self.other(due)
                    .map_or_else(|| self.word(stops()), ToOwned::to_owned),
            ),
            Refusal::Level | Refusal::WordsAfterTree => Some(self.word(stops())),
            Refusal::Field => Some(self.field(stops(), due, levels)),
            Refusal::SheetNumber => self.sheet(),
            _ => None,
        }
    }

    /// The word with a field that it may not hold, and whether that is an outcome which is no level.
    fn field(&self, at: usize, due: Due, levels: Option<&Levels>) -> String {
        let word = self.word(at);
        match levels {
            Some(levels) if judged(&self.words[..=at], due, None) != Err(Refusal::Field) => {
                format!("{word}: its outcome is none of {} levels", levels.count())
            }
            _ => word,
        }
    }

    /// Which sheet a record is of.
    fn sheet(&self) -> Option<String> {
        let number = Record::read(&self.words).ok()?.number();
        Some(match number {
            0 => "the record has no sheet number".to_owned(),
            number => format!("the record is of sheet {number}"),
        })
    }

    /// Why no sheet or record has so many words.
    fn length(&self, due: Due) -> String {
        let words = self.words.len();
        if words == 0 {
            return "there is no word".to_owned();
        }
        let most = match due {
            Due::Sheet => SHEET_WORDS,
            Due::Either if !is_record(&self.words) => SHEET_WORDS,
            Due::Record | Due::Either => RECORD_WORDS,
        };
        let lines = self.lines.as_ref().and_then(|lines| lines.get(most));
        let from = lines.map_or_else(String::new, |line| {
            format!("; too many from line {line} on")
        });
        format!("{words} words, where at most {most} are due{from}")
    }

    /// Whole words that are refused for a kind are a sheet where a record is due, or a record where a sheet is.
    fn other(&self, due: Due) -> Option<&'static str> {
        let document = Document::read(&self.words).ok()?;
        match (due, document.kind()) {
            (Due::Record, Kind::Sheet(_)) => Some("this is a sheet: evaluate and reduce take it"),
            (Due::Sheet, Kind::Record(_)) => Some("this is a record: narrow and complete take it"),
            _ => None,
        }
    }

    /// Where reading stops: the last word of the shortest beginning that the proved reader refuses for the same cause. It refuses every longer one for
    /// that cause too, and a shorter one because it ends.
    fn stops(&self, refusal: Refusal, due: Due, levels: Option<&Levels>) -> usize {
        let same = |words: &[u32]| judged(words, due, levels).err() == Some(refusal);
        last_of_shortest(self.words.len(), |length| same(&self.words[..length]))
    }

    /// A word in a message: its line, or its number and digits.
    fn word(&self, at: usize) -> String {
        match &self.lines {
            Some(lines) => format!("line {}", lines[at]),
            None => format!("word {}, {:08X}", at + 1, self.words[at]),
        }
    }
}

/// The place of the last item of the shortest beginning that is refused, of so many items; every longer one is refused as well.
pub fn last_of_shortest(length: usize, is_refused: impl Fn(usize) -> bool) -> usize {
    let (mut shorter, mut refused) = (0, length);
    while refused - shorter > 1 {
        let middle = usize::midpoint(shorter, refused);
        if is_refused(middle) {
            refused = middle;
        } else {
            shorter = middle;
        }
    }
    shorter
}

/// What the proved reader says of words, by levels if there are any.
fn judged(words: &[u32], due: Due, levels: Option<&Levels>) -> Result<(), Refusal> {
    if let Some(levels) = levels {
        return judged_by(levels, words, due);
    }
    match due {
        Due::Sheet => Sheet::read(words).map(|_| ()),
        Due::Record => Record::read(words).map(|_| ()),
        Due::Either => Document::read(words).map(|_| ()),
    }
}

/// The same by levels: a call with no facts and no room, under the number that a record has, is refused for its words, or else for want of room.
fn judged_by(levels: &Levels, words: &[u32], due: Due) -> Result<(), Refusal> {
    let told = if due == Due::Sheet {
        partial_evaluate_by_levels(levels, words, 0, &[], &mut [])
    } else {
        let lead = words.first().map_or(0, |lead| lead >> 12 & 0xFFFF);
        let number = u16::try_from(lead).unwrap_or_default();
        complete_residual_by_levels(levels, words, number, &[], &mut [])
    };
    match told {
        Ok(_) | Err(Refusal::Room) => Ok(()),
        Err(refusal) => Err(refusal),
    }
}

/// What a file is called, and its bytes; - is standard input.
pub fn bytes_of(file: &Path, stdin: impl Read) -> (String, Result<Vec<u8>, String>) {
    if file == Path::new("-") {
        ("standard input".to_owned(), read(stdin))
    } else {
        named(file)
    }
}

/// The same of a file that is no standard input.
fn named(file: &Path) -> (String, Result<Vec<u8>, String>) {
    (file.display().to_string(), open(file))
}

/// The bytes of a file.
pub fn open(file: &Path) -> Result<Vec<u8>, String> {
    read(File::open(file).map_err(|error| error.to_string())?)
}

fn read(source: impl Read) -> Result<Vec<u8>, String> {
    short(bytes_in(source).map_err(|error| error.to_string())?)
}

/// All bytes, or one more than are read.
fn bytes_in(source: impl Read) -> io::Result<Vec<u8>> {
    let mut bytes = Vec::new();
    source.take(LONGEST + 1).read_to_end(&mut bytes)?;
    Ok(bytes)
}

/// The bytes, unless there are too many.
fn short(bytes: Vec<u8>) -> Result<Vec<u8>, String> {
    if bytes.len() as u64 > LONGEST {
        return Err("longer than 16 MiB".to_owned());
    }
    Ok(bytes)
}
