//! Tests of the calls, the format, the listing and the generated files.

#[cfg(feature = "proved")]
mod batches;
mod codec;
#[cfg(feature = "proved")]
mod command;
mod contradictions;
#[cfg(feature = "proved")]
mod dependence;
mod files;
mod in_order;
#[cfg(feature = "proved")]
mod join;
mod levels;
mod limits;
mod listing;
mod numbers;
mod original;
#[cfg(feature = "proved")]
mod proved;
mod readings;
#[cfg(feature = "proved")]
mod registers;
mod repeats;
#[cfg(feature = "proved")]
mod round_trip;
mod silence;
#[cfg(feature = "proved")]
mod sitting;
mod stages;
mod tight;
#[cfg(feature = "proved")]
mod typed;
mod windows;
mod worked;

use compare::case::{Answer, Call, Case};

/// Words written as document 01 writes them: hexadecimal, with spaces between.
fn words(text: &str) -> Vec<u32> {
    text.split_whitespace()
        .map(|word| u32::from_str_radix(word, 16).expect("a word"))
        .collect()
}

/// Bytes written likewise.
fn bytes(text: &str) -> Vec<u8> {
    text.split_whitespace()
        .map(|byte| u8::from_str_radix(byte, 16).expect("a byte"))
        .collect()
}

/// The number of a call's refusal, or 0 and the record that it writes, of a sheet without a number.
fn written(call: Call, given: &[u32], table: &[u8], room: usize) -> (u8, Vec<u32>) {
    written_under(0, call, given, table, room)
}

/// The same of a sheet with a number.
fn written_under(
    number: u32,
    call: Call,
    given: &[u32],
    table: &[u8],
    room: usize,
) -> (u8, Vec<u32>) {
    let case = Case {
        call,
        table: table.to_vec(),
        words: given.to_vec(),
        number,
        room,
    };
    match case.answer() {
        Ok(Answer::Record(record)) => (0, record),
        Ok(other) => panic!("{other:?} is no record"),
        Err(refusal) => (refusal.number(), Vec::new()),
    }
}

/// Checks a call's record, everything in document 01's hexadecimal.
#[track_caller]
fn writes(call: Call, given: &str, table: &str, record: &str) {
    let (number, found) = written(call, &words(given), &bytes(table), 16_384);
    assert_eq!((number, found), (0, words(record)), "{call:?} {given}");
}

/// Checks a call's refusal, everything in document 01's hexadecimal.
#[track_caller]
fn refuses(call: Call, given: &str, table: &str, number: u8) {
    let (found, _) = written(call, &words(given), &bytes(table), 16_384);
    assert_eq!(found, number, "{call:?} {given}");
}
