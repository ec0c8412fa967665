//! Stored answers, for programs that have no Rust at hand, and a case with its answer in one line of text.

use std::fmt::{UpperHex, Write as _};

use crate::case::{Answer, Call, Case};
use crate::join::Join;
use crate::levels::ByLevels;
use crate::reference::FactSet;
use crate::refusal::Refusal;
use crate::register::Question;

/// What the number of a stored call has beside the call's own, if it goes by an outcome table.
const BY_LEVELS: u8 = 32;

/// Words of a set of facts: sixteen 64-bit numbers, the upper half of each first.
const SET_WORDS: usize = 32;

/// The file's bytes: a line of text that says how it was made, then the cases with their answers.
pub fn file(made_by: &str, cases: &[Case]) -> Vec<u8> {
    let mut bytes = format!("# Made by: {made_by} (gatekeep at commit 4acf26c4c1)\n").into_bytes();
    for case in cases {
        bytes.extend(stored(case, &case.answer()));
    }
    bytes
}

/// A file of joins: a line of text, then of each join five 16-bit numbers (room, bytes of one table, of the other, number, bytes written), the tables and the
/// bytes written, all most significant byte first.
pub fn joins(made_by: &str, joins: &[Join]) -> Vec<u8> {
    let mut bytes = format!("# Made by: {made_by}\n").into_bytes();
    for join in joins {
        let answer = join.answer();
        let number = answer
            .as_ref()
            .map_or_else(|refusal| refusal.number(), |_| 0);
        let written = answer.unwrap_or_default();
        let Join { one, two, room } = join;
        for number in [
            *room,
            one.len(),
            two.len(),
            usize::from(number),
            written.len(),
        ] {
            let number = u16::try_from(number).expect("a stored number has 16 bits");
            bytes.extend(number.to_be_bytes());
        }
        bytes.extend([one.as_slice(), two, &written].concat());
    }
    bytes
}

/// A call by an outcome table in the same form as [`stored`], with [`BY_LEVELS`] in its number. In front of the fact table, in its place, stand the count of
/// levels, 32 bits, the bytes of the outcome table, 16 bits, and these bytes.
pub fn by_levels(by: &ByLevels) -> Vec<u8> {
    let outcomes = &by.levels.bytes;
    let length = u16::try_from(outcomes.len()).expect("a stored number has 16 bits");
    let mut table = by.levels.count.to_be_bytes().to_vec();
    table.extend(length.to_be_bytes());
    table.extend(outcomes);
    table.extend(&by.case.table);
    let case = Case {
        table,
        ..by.case.clone()
    };
    let mut bytes = stored(&case, &by.answer());
    bytes[1] |= BY_LEVELS;
    bytes
}

/// Eight 16-bit numbers: call, room, table bytes, words, number, value, answer words, sheet number.
/// Then the table, the words, and the words that stand first in the output afterwards, all most
/// significant byte first. The rest of the output is as it was.
pub fn stored(case: &Case, answer: &Result<Answer, Refusal>) -> Vec<u8> {
    let number = answer
        .as_ref()
        .map_or_else(|refusal| refusal.number(), |_| 0);
    let (value, words) = given(case.call, answer);
    let room = if counts(case.call) {
        SET_WORDS
    } else {
        case.room
    };
    let numbers = [
        case.call as usize,
        room,
        case.table.len(),
        case.words.len(),
        usize::from(number),
        value,
        words.len(),
        case.number as usize,
    ];
    let mut bytes = Vec::new();
    for number in numbers {
        let number = u16::try_from(number).expect("a stored number has 16 bits");
        bytes.extend(number.to_be_bytes());
    }
    bytes.extend(&case.table);
    for word in case.words.iter().chain(&words) {
        bytes.extend(word.to_be_bytes());
    }
    bytes
}

/// A question to a register in the same form, under the number after the last call's. The group and the day, four bytes each, stand in the table's place, and
/// the value, which 16 bits may not hold, is the one answer word.
pub fn asked(question: &Question) -> Vec<u8> {
    let returned = question.returned();
    let number = u16::try_from(returned >> 32).expect("a refusal has a small number");
    let value = (returned & 0xFFFF_FFFF) as u32;
    let words = u16::try_from(question.words.len()).expect("a stored number has 16 bits");
    let call = u16::try_from(Call::ALL.len()).expect("few calls");
    let head = [call, 0, 8, words, number, 0, 1, 0];
    let mut bytes: Vec<u8> = head.into_iter().flat_map(u16::to_be_bytes).collect();
    let given = [question.group, question.day].into_iter();
    for word in given.chain(question.words.iter().copied()).chain([value]) {
        bytes.extend(word.to_be_bytes());
    }
    bytes
}

/// What the call returns besides its number (words written, facts counted, yes or no), and the
/// words that it leaves. Refused, a call leaves none, but for a set of facts, which it empties.
fn given(call: Call, answer: &Result<Answer, Refusal>) -> (usize, Vec<u32>) {
    match answer {
        Ok(Answer::Record(record)) => (record.len(), record.clone()),
        Ok(Answer::Facts(set)) => (set.count() as usize, halves(set)),
        Ok(Answer::Says(yes)) => (usize::from(*yes), Vec::new()),
        Err(_) if counts(call) => (0, halves(&FactSet::default())),
        Err(_) => (0, Vec::new()),
    }
}

/// Whether the call answers with a set of facts.
const fn counts(call: Call) -> bool {
    matches!(call, Call::RequiredFacts | Call::RequiredResidualFacts)
}

fn halves(set: &FactSet) -> Vec<u32> {
    let halves = |number: &u64| [(number >> 32) as u32, (number & 0xFFFF_FFFF) as u32];
    set.0.iter().flat_map(halves).collect()
}

/// `CALL SHEET-NUMBER TABLE WORDS ROOM NUMBER ANSWER`.
pub fn line(case: &Case, answer: &Result<Answer, Refusal>) -> String {
    let (number, answer) = match answer {
        Ok(answer) => (0, shown(answer)),
        Err(refusal) => (refusal.number(), "-".to_owned()),
    };
    format!(
        "{} {} {} {} {} {number} {answer}",
        case.call.name(),
        case.number,
        or_dash(hex(&case.table, 2)),
        or_dash(hex(&case.words, 8)),
        case.room,
    )
}

fn shown(answer: &Answer) -> String {
    match answer {
        Answer::Record(record) => hex(record, 8),
        Answer::Facts(set) => hex(&set.0, 16),
        Answer::Says(yes) => u8::from(*yes).to_string(),
    }
}

/// The numbers run together, each of this many digits.
fn hex<T: UpperHex>(numbers: &[T], digits: usize) -> String {
    numbers.iter().fold(String::new(), |mut text, number| {
        write!(text, "{number:0digits$X}").expect("a string takes what is written");
        text
    })
}

fn or_dash(text: String) -> String {
    if text.is_empty() {
        "-".to_owned()
    } else {
        text
    }
}
