//! The command beside the original's answers, its arguments and its standard input as a shell would hand them over.

use std::fmt::Write;

use clap::Parser;
use command::arguments::Arguments;
use command::work::{Failure, run};
use compare::case::{Answer, Call, Case};
use compare::generate::cases;
use compare::generate::chains::Chain;
use compare::generate::grow::Alphabet;
use compare::generate::numbers::SHEETS;
use compare::generate::rng::Rng;
use compare::narrow::Order;
use compare::reference;
use compare::refusal::Refusal;
use compare::words::RECORD_WORDS;

use super::words;

/// What the command writes, given these arguments apart by single spaces.
fn tried(arguments: &str, input: &str) -> Result<String, Failure> {
    let arguments = ["vierskof"].into_iter().chain(arguments.split(' '));
    let arguments = Arguments::try_parse_from(arguments).expect("arguments");
    let done = run(&arguments, input.as_bytes())?;
    Ok(String::from_utf8(done.bytes).expect("text"))
}

/// What it writes if it isn't refused.
#[track_caller]
fn answer(arguments: &str, input: &str) -> String {
    tried(arguments, input).unwrap_or_else(|failure| panic!("{arguments}: {failure}"))
}

fn hexadecimal(bytes: &[u8]) -> String {
    bytes.iter().fold(String::new(), |mut digits, byte| {
        write!(digits, "{byte:02x}").expect("a string has room");
        digits
    })
}

/// Words as document 01 writes them.
fn hex(words: &[u32]) -> String {
    let words: Vec<String> = words.iter().map(|word| format!("{word:08X}")).collect();
    words.join(" ")
}

/// Runs a call over text with a sheet's number and a table's bytes.
fn staged(name: &str, document: &str, number: u16, table: &[u8]) -> String {
    let digits = hexadecimal(table);
    let arguments = format!("{name} --sheet {number} --table-hex={digits}");
    answer(&arguments, document)
}

/// What a shown document says in words.
fn said(shown: &str) -> Vec<u32> {
    words(&answer("assemble", shown))
}

/// Whether the call is one of the three questions about a record.
const fn is_question(call: Call) -> bool {
    matches!(
        call,
        Call::IsPermitConstant | Call::IsDenyConstant | Call::CarriesObligation
    )
}

/// The subcommand of a call; the questions have none.
fn subcommand(call: Call) -> &'static str {
    match call {
        Call::Evaluate => "evaluate",
        Call::PartialEvaluate => "reduce",
        Call::NarrowResidual => "narrow",
        Call::CompleteResidual => "complete",
        Call::RequiredFacts | Call::RequiredResidualFacts => "required",
        Call::PartialEvaluateInOrder => "reduce --in-order",
        Call::NarrowResidualInOrder => "narrow --in-order",
        _ => panic!("{call:?} has no subcommand"),
    }
}

/// What the command answers to a case: a record's words, or the facts, or the refusal's number.
fn found(case: &Case) -> Result<Vec<u32>, u8> {
    let name = subcommand(case.call);
    let arguments = if case.call.writes() {
        let (number, table) = (case.number, hexadecimal(&case.table));
        format!("{name} --to hex --sheet {number} --table-hex={table}")
    } else {
        name.to_owned()
    };
    let text = tried(&arguments, &hex(&case.words)).map_err(|failure| match failure {
        Failure::Refused(refusal, _) => u8::try_from(refusal.number()).expect("a number"),
        Failure::Usage(message) => panic!("{message}: {case:08X?}"),
    })?;
    let radix = if case.call.writes() { 16 } else { 10 };
    let number = |word| u32::from_str_radix(word, radix).expect("a number");
    Ok(text.split_whitespace().map(number).collect())
}

#[test]
fn drawn_calls() {
    // The kind of the first word tells which facts are required, so only words that have the call's kind are asked.
    let asks = |case: &Case| {
        let record = case.words.first().is_some_and(|word| word >> 28 >= 14);
        // The command takes no number that no record carries.
        let number = u16::try_from(case.number).is_ok();
        number && (case.call.writes() || record != case.call.reads_sheet())
    };
    let calls = Call::ALL.into_iter();
    let calls: Vec<Call> = calls.filter(|call| !is_question(*call)).collect();
    let mut refused = 0;
    for mut case in cases::draw(5, 700, &calls).into_iter().filter(asks) {
        case.room = RECORD_WORDS;
        let due = case
            .answer()
            .map_err(Refusal::number)
            .map(|answer| match answer {
                Answer::Record(record) => record,
                Answer::Facts(set) => set.facts().map(u32::from).collect(),
                Answer::Says(_) => unreachable!("no question was drawn"),
            });
        refused += usize::from(due.is_err());
        assert_eq!(found(&case), due, "{case:08X?}");
    }
    assert!(refused > 50, "{refused}");
}

#[test]
fn chains_of_stages() {
    let mut rng = Rng::new(11);
    for _ in 0..40 {
        let alphabet = Alphabet::draw(&mut rng);
        let chain = Chain::draw(&mut rng, &alphabet, 40).under(rng.pick(&SHEETS));
        let number = chain.number;
        let sheet = answer("show", &hex(&chain.sheet));
        for (order, option) in [
            (Order::PermitsFirst, ""),
            (Order::SheetOrder, " --in-order"),
        ] {
            let mut record = staged(&format!("reduce{option}"), &sheet, number, &chain.reduction);
            let mut records = vec![said(&record)];
            for table in &chain.narrowings {
                record = staged(&format!("narrow{option}"), &record, number, table);
                records.push(said(&record));
            }
            assert_eq!(records, chain.records(order));
            let last = records.last().expect("the reduction's record");
            let under = u32::from(number);
            let completed = reference::complete_residual(last, under, &chain.known, chain.room());
            let found = said(&staged("complete", &record, number, &chain.known));
            assert_eq!(Ok(found), completed);
        }
        let under = u32::from(number);
        let direct = reference::evaluate(&chain.sheet, under, &chain.known, chain.room());
        let found = said(&staged("evaluate", &sheet, number, &chain.known));
        assert_eq!(Ok(found), direct);
    }
}

/// The word at which the comparison's own reader stops is the one that a refusal names.
#[test]
fn refusals_name_the_word() {
    let mut named = 0;
    for case in cases::draw(6, 2_000, &[Call::RequiredFacts]) {
        let Err(refusal @ (Refusal::Kind | Refusal::Level | Refusal::Field)) =
            compare::words::read::sheet(&case.words)
        else {
            continue;
        };
        let Err(Failure::Refused(found, Some(place))) = tried("evaluate", &hex(&case.words)) else {
            panic!("{case:08X?}");
        };
        assert_eq!(found.number(), u32::from(refusal.number()));
        let Some(word) = place.strip_prefix("word ") else {
            assert!(place.starts_with("this is a record"), "{place}");
            continue;
        };
        let (number, digits) = word.split_once(", ").expect(&place);
        let number: usize = number.parse().expect(&place);
        assert_eq!(digits, hex(&case.words[number - 1..number]));
        // Up to this word the reader meets the cause, and before it the end.
        let read = |words: &[u32]| compare::words::read::sheet(words).err();
        assert_eq!(read(&case.words[..number]), Some(refusal));
        let ends = if number == 1 {
            Refusal::Length
        } else {
            Refusal::Ended
        };
        assert_eq!(read(&case.words[..number - 1]), Some(ends));
        named += 1;
    }
    assert!(named > 100, "{named}");
}
