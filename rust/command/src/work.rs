//! What each subcommand does, from its arguments to the bytes for standard output.

use std::error::Error;
use std::fmt::{self, Display, Formatter};
use std::io::Read;
use std::path::{Path, PathBuf};

use vierskof::read::{Decision, Record};
use vierskof::{Levels, Presence, RECORD_WORDS, Refusal, TABLE_BYTES, tight_room};

use crate::arguments::{
    Arguments, Asked, Batched, Call, Command, Facts, Input, Join, Packed, Reduction, Unpacked,
    Windowed,
};
use crate::batch::{self, Desk};
use crate::document::Document;
use crate::facts;
use crate::form::Form;
use crate::given::{Due, Given, bytes_of, open};
use crate::levels;
use crate::tight::{self, Tight};
use crate::windows::{self, List};

/// Why there is no answer.
#[derive(Clone, Debug, PartialEq, Eq)]
pub enum Failure {
    /// The proved library refuses the words or the table; with where or why, if that can be said.
    Refused(Refusal, Option<String>),
    /// The command can't be carried out as it is given.
    Usage(String),
}

impl Failure {
    /// The exit status.
    pub const fn status(&self) -> u8 {
        match self {
            Self::Refused(..) => 1,
            Self::Usage(_) => 2,
        }
    }
}

impl Display for Failure {
    fn fmt(&self, f: &mut Formatter<'_>) -> fmt::Result {
        match self {
            Self::Refused(refusal, place) => {
                write!(f, "refused {}: {refusal}", refusal.number())?;
                place.iter().try_for_each(|place| write!(f, " ({place})"))
            }
            Self::Usage(message) => write!(f, "error: {message}"),
        }
    }
}

impl Error for Failure {}

/// What a command has done.
#[derive(Clone, Debug, PartialEq, Eq)]
pub struct Done {
    /// What is to be written.
    pub bytes: Vec<u8>,
    /// The exit status.
    pub status: u8,
}

impl Done {
    const fn plainly(bytes: Vec<u8>) -> Self {
        Self { bytes, status: 0 }
    }
}

/// A proved call that writes a record, by sets of products and by levels.
type Proved = (Plain, ByLevels);
type Plain = for<'o> fn(&[u32], u16, &[u8], &'o mut [u32]) -> Result<&'o [u32], Refusal>;
type ByLevels =
    for<'o> fn(&Levels, &[u32], u16, &[u8], &'o mut [u32]) -> Result<&'o [u32], Refusal>;

const EVALUATE: Proved = (vierskof::evaluate, vierskof::evaluate_by_levels);
const REDUCE: Proved = (
    vierskof::partial_evaluate,
    vierskof::partial_evaluate_by_levels,
);
const REDUCE_IN_ORDER: Proved = (
    vierskof::partial_evaluate_in_order,
    vierskof::partial_evaluate_in_order_by_levels,
);
const NARROW: Proved = (
    vierskof::narrow_residual,
    vierskof::narrow_residual_by_levels,
);
const NARROW_IN_ORDER: Proved = (
    vierskof::narrow_residual_in_order,
    vierskof::narrow_residual_in_order_by_levels,
);
const COMPLETE: Proved = (
    vierskof::complete_residual,
    vierskof::complete_residual_by_levels,
);

/// Carries a command out; what a file is due to hold and none is named comes from `stdin`.
pub fn run(arguments: &Arguments, stdin: impl Read) -> Result<Done, Failure> {
    use Presence::{Absent, Unknown};
    match &arguments.command {
        Command::Evaluate(call) => decide(call, stdin, Due::Sheet, EVALUATE, Absent),
        Command::Reduce(Reduction { call, in_order }) => {
            let proved = if *in_order { REDUCE_IN_ORDER } else { REDUCE };
            decide(call, stdin, Due::Sheet, proved, Unknown)
        }
        Command::Narrow(Reduction { call, in_order }) => {
            let proved = if *in_order { NARROW_IN_ORDER } else { NARROW };
            decide(call, stdin, Due::Record, proved, Unknown)
        }
        Command::Complete(call) => decide(call, stdin, Due::Record, COMPLETE, Absent),
        Command::Required(input) => required(input, stdin),
        Command::Show(shown) => rewritten(&shown.input, stdin, shown.to),
        Command::Assemble(assembled) => rewritten(&assembled.input, stdin, assembled.to),
        Command::InForce(asked) => in_force(asked, stdin),
        Command::Batch(batched) => batch(batched, stdin),
        Command::Join(tables) => join(tables),
        Command::Window(windowed) => window(windowed, stdin),
        Command::Pack(packed) => pack(packed, stdin),
        Command::Unpack(unpacked) => unpack(unpacked, stdin),
    }
}

fn decide(
    call: &Call,
    stdin: impl Read,
    due: Due,
    (plain, by_levels): Proved,
    rest: Presence,
) -> Result<Done, Failure> {
    let given = Given::read(&call.input, stdin)?;
    let table = table(&call.facts, rest)?;
    let levels = call.levels.as_deref().map(levels::read).transpose()?;
    let levels = levels.as_ref();
    let mut out = vec![0; RECORD_WORDS];
    let written = match levels {
        Some(levels) => by_levels(levels, &given.words, call.sheet, &table, &mut out),
        None => plain(&given.words, call.sheet, &table, &mut out),
    };
    let record = written.map_err(|refusal| {
        let told = match refusal {
            Refusal::Contradiction => facts::contradicted(&given.words, &table),
            _ => facts::faulty(&table, refusal).map(|fact| format!("fact {fact}")),
        };
        told.map_or_else(
            || given.refused(refusal, due, levels),
            |told| Failure::Refused(refusal, Some(told)),
        )
    })?;
    let document = Document::read(record).map_err(|refusal| Failure::Refused(refusal, None))?;
    let document = document.by_levels(levels.is_some());
    let status = if call.status { effect(record) } else { 0 };
    Ok(Done {
        bytes: call.to.write(&document),
        status,
    })
}

/// The exit status that says a record's effect.
fn effect(record: &[u32]) -> u8 {
    match Record::read(record).map(Record::decision) {
        Ok(Some(Decision::Permit(_))) => 0,
        Ok(Some(Decision::Deny(_))) => 3,
        Ok(None) | Err(_) => 4,
    }
}

fn required(input: &Input, stdin: impl Read) -> Result<Done, Failure> {
    let given = Given::read(input, stdin)?;
    let document = judged(&given)?;
    let lines = document.facts().iter().map(|fact| format!("{fact}\n"));
    Ok(Done::plainly(lines.collect::<String>().into_bytes()))
}

/// Words are judged before they are written, wherever they come from.
fn rewritten(input: &Input, stdin: impl Read, to: Form) -> Result<Done, Failure> {
    let given = Given::read(input, stdin)?;
    Ok(Done::plainly(to.write(&judged(&given)?)))
}

fn in_force(asked: &Asked, stdin: impl Read) -> Result<Done, Failure> {
    let given = Given::register(asked, stdin)?;
    let found = vierskof::in_force(&given.words, asked.group, asked.day);
    let found = found.map_err(|refusal| given.no_register(refusal))?;
    let number = found.map_or_else(|| "none".to_owned(), |number| number.to_string());
    Ok(Done::plainly((number + "\n").into_bytes()))
}

fn batch(batched: &Batched, stdin: impl Read) -> Result<Done, Failure> {
    let (name, bytes) = bytes_of(&batched.file, stdin);
    let named = |message| Failure::Usage(format!("{name}: {message}"));
    let text = windows::text(bytes.map_err(named)?).map_err(named)?;
    let requests = batch::requests(&text).map_err(|fault| named(fault.to_string()))?;
    let sheet = |(number, file): &(u16, PathBuf)| Ok((*number, Given::sheet_in(file)?));
    let desk = Desk {
        register: Given::register_in(&batched.register)?,
        sheets: batched.sheets.iter().map(sheet).collect::<Result<_, _>>()?,
        levels: batched.levels.as_deref().map(levels::read).transpose()?,
        allowance: batched.allowance,
    };
    Ok(Done::plainly(desk.run(&requests, batched.to.into())?))
}

fn judged(given: &Given) -> Result<Document<'_>, Failure> {
    Document::read(&given.words).map_err(|refusal| given.refused(refusal, Due::Either, None))
}

fn join(tables: &Join) -> Result<Done, Failure> {
    let read = |given: &Path| {
        if tables.hex {
            typed(given)
        } else {
            file(given)
        }
    };
    let (one, two) = (read(&tables.one)?, read(&tables.two)?);
    let mut out = [0; TABLE_BYTES];
    let joined = vierskof::join_tables(&one, &two, &mut out).map_err(|refusal| {
        let faulty = |table: &[u8]| facts::faulty(table, refusal);
        let fact = match refusal {
            Refusal::Clash => facts::clash(&one, &two),
            _ => faulty(&one).or_else(|| faulty(&two)),
        };
        Failure::Refused(refusal, fact.map(|fact| format!("fact {fact}")))
    })?;
    Ok(Done::plainly(tables.to.write(joined)))
}

/// The bytes of a file with a table.
fn file(file: &Path) -> Result<Vec<u8>, Failure> {
    open(file).map_err(|message| Failure::Usage(format!("{}: {message}", file.display())))
}

/// The bytes of a table that is typed in place of a file.
fn typed(text: &Path) -> Result<Vec<u8>, Failure> {
    let bytes = facts::bytes(&text.to_string_lossy()).map(|bytes| bytes.0);
    bytes.map_err(|message| Failure::Usage(format!("{}: {message}", text.display())))
}

fn window(windowed: &Windowed, stdin: impl Read) -> Result<Done, Failure> {
    let (name, bytes) = bytes_of(&windowed.file, stdin);
    let named = |message| Failure::Usage(format!("{name}: {message}"));
    let text = windows::text(bytes.map_err(named)?).map_err(named)?;
    let list = List::read(&text).map_err(|fault| named(fault.to_string()))?;
    let mut table = table(&windowed.facts, Presence::Absent)?;
    if windowed.facts.is_said() {
        table.resize(TABLE_BYTES, 0);
    }
    let Windowed { reading, today, .. } = *windowed;
    let mut out = [0; TABLE_BYTES];
    let set = vierskof::apply_windows(&list.words(), reading, today, &table, &mut out);
    let set = set.map_err(|refusal| {
        Failure::Refused(refusal, list.place(refusal, [reading, today], &table))
    })?;
    Ok(Done::plainly(list.write(
        set,
        windowed.to,
        &windowed.facts.facts,
    )))
}

fn pack(packed: &Packed, stdin: impl Read) -> Result<Done, Failure> {
    let given = Given::read(&packed.input, stdin)?;
    let call = tight::packing(&given.words);
    let mut out = vec![0; tight_room(given.words.len())];
    let bytes = call(&given.words, &mut out);
    let bytes = bytes.map_err(|refusal| given.refused(refusal, Due::Either, None))?;
    Ok(Done::plainly(if packed.hex {
        facts::digits(bytes).into_bytes()
    } else {
        bytes.to_vec()
    }))
}

fn unpack(unpacked: &Unpacked, stdin: impl Read) -> Result<Done, Failure> {
    let (name, bytes) = bytes_of(&unpacked.file, stdin);
    let named = |message: &str| Failure::Usage(format!("{name}: {message}"));
    let mut bytes = bytes.map_err(|message| named(&message))?;
    if unpacked.hex {
        let text = String::from_utf8_lossy(&bytes);
        bytes = facts::bytes(&text).map_err(named)?.0;
    }
    let told = unpacked.sheet || unpacked.record;
    let record = if told {
        unpacked.record
    } else {
        tight::begins_record(&bytes)
    };
    let form = Tight { bytes, record };
    let words = form.unpack().map_err(|refusal| match form.mistaken() {
        Some(mistaken) if !unpacked.hex => named(mistaken),
        _ => Failure::Refused(refusal, form.place(refusal)),
    })?;
    let document = Document::read(&words).map_err(|refusal| Failure::Refused(refusal, None))?;
    Ok(Done::plainly(unpacked.to.write(&document)))
}

fn table(facts: &Facts, rest: Presence) -> Result<Vec<u8>, Failure> {
    if let Some(named) = &facts.table {
        return file(named);
    }
    if let Some(typed) = &facts.table_hex {
        return Ok(typed.0.clone());
    }
    let table = facts::table(&facts.facts, rest);
    let table = table.map_err(|both| Failure::Usage(format!("--facts says {both}")))?;
    Ok(table.as_bytes().to_vec())
}
