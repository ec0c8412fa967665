//! Rows for the proof checker: the calls that write, as a source file of its own language.

use std::collections::BTreeSet;
use std::iter;

use crate::case::{Answer, Call, Case};
use crate::refusal::Refusal;

/// The words that rows are made of. Only those that are used are imported, as `rt tidy` leaves it.
const WORDS: [&str; 9] = [
    "evaluates",
    "completes",
    "reduces",
    "narrows",
    "reduces_in_order",
    "narrows_in_order",
    "row_under",
    "refuses",
    "writes",
];

/// The file's text: a comment that says how it was made, the imports that it needs, then a list of rows.
pub fn file(made_by: &str, cases: &[Case]) -> String {
    let mut rows: Vec<_> = cases.iter().map(row).collect();
    rows.push("[]".to_owned());
    let rows = rows.join("\n    ∷ ");
    let used: BTreeSet<&str> = rows.split([' ', '(', ')', '\n']).collect();
    let imported = WORDS.into_iter().filter(|word| used.contains(word));
    let imports: Vec<_> = iter::once("Row").chain(imported).collect();
    format!(
        "\
-- Made by: {made_by}
use Rattle.std.specs.Prelude.{{List, [], ◌∷◌}}
use Rattle.model.specs.Worked.{{{}}}

abbrev pub rows : List Row
rows =
    {rows}
",
        imports.join(", ")
    )
}

/// Sheet number, call, room, table, given words and answer.
fn row(case: &Case) -> String {
    format!(
        "row_under {} {} {} {} {} {}",
        case.number,
        constructor(case.call),
        case.room,
        list(&case.table, |byte| format!("0x{byte:02X}")),
        words(&case.words),
        answer(&case.answer())
    )
}

fn constructor(call: Call) -> &'static str {
    match call {
        Call::Evaluate => "evaluates",
        Call::PartialEvaluate => "reduces",
        Call::NarrowResidual => "narrows",
        Call::CompleteResidual => "completes",
        Call::PartialEvaluateInOrder => "reduces_in_order",
        Call::NarrowResidualInOrder => "narrows_in_order",
        other => unreachable!("{} writes no record", other.name()),
    }
}

fn answer(answer: &Result<Answer, Refusal>) -> String {
    match answer {
        Ok(Answer::Record(record)) => format!("(writes {})", words(record)),
        Ok(other) => unreachable!("{other:?} is no record"),
        Err(refusal) => format!("(refuses {})", refusal.number()),
    }
}

fn words(words: &[u32]) -> String {
    list(words, |word| format!("0x{word:X}"))
}

fn list<T>(items: &[T], shown: impl Fn(&T) -> String) -> String {
    if items.is_empty() {
        return "[]".to_owned();
    }
    let items: Vec<_> = items.iter().map(shown).collect();
    format!("({} ∷ [])", items.join(" ∷ "))
}
