//! The original's answer to a call, for the fuzzer, which is a program in C. Where the original has no such call, the comparison's own answers.

use std::slice;

use compare::batch::{Batch, Reply};
use compare::case::{Answer, Call, Case};
use compare::join::Join;
use compare::levels::{Given, by_levels};
use compare::reference::{FactSet, evaluate};
use compare::refusal::Refusal;
use compare::register::Question;
use compare::tight::{Kind, Packing, Unpacking};
use compare::words::tree::{Decided, Record};
use compare::words::{RECORD_WORDS, read};

/// An outcome table, as the fuzzer has it.
#[repr(C)]
pub struct Outcomes {
    levels: u32,
    table: *const u8,
    bytes: usize,
}

impl Outcomes {
    /// # Safety
    ///
    /// Behind the pointer there are as many bytes as the number after it says.
    unsafe fn given(&self) -> Given {
        // SAFETY: what the caller has to see to.
        let table = unsafe { slice::from_raw_parts(self.table, self.bytes) };
        Given {
            count: self.levels,
            bytes: table.to_vec(),
        }
    }
}

/// Answers as the C interface does, by an outcome table if there is one, and leaves in `out` what it leaves: a record's words, or a set's numbers, the lower half of each first.
///
/// # Safety
///
/// Behind each pointer there are as many elements as the number after it says, and nobody else writes `out`.
#[unsafe(no_mangle)]
pub unsafe extern "C" fn judge_answer(
    call: usize,
    by: Option<&Outcomes>,
    words: *const u32,
    count: usize,
    number: u32,
    table: *const u8,
    bytes: usize,
    out: *mut u32,
    room: usize,
) -> u64 {
    // SAFETY: what the caller has to see to.
    let (words, table, out) = unsafe {
        (
            slice::from_raw_parts(words, count),
            slice::from_raw_parts(table, bytes),
            slice::from_raw_parts_mut(out, room),
        )
    };
    let Some(&call) = Call::ALL.get(call) else {
        return registered(words, table);
    };
    let case = Case {
        call,
        table: table.to_vec(),
        words: words.to_vec(),
        number,
        room,
    };
    // SAFETY: what the caller has to see to.
    let given = by.map(|by| unsafe { by.given() });
    let answer = match given {
        Some(given) if call.writes() => by_levels(&given, || case.answer()).and_then(|told| told),
        _ => case.answer(),
    };
    match answer {
        Ok(Answer::Record(record)) => {
            out[..record.len()].copy_from_slice(&record);
            record.len() as u64
        }
        Ok(Answer::Facts(set)) => {
            put_set(&set, out);
            u64::from(set.count())
        }
        Ok(Answer::Says(yes)) => u64::from(yes),
        Err(refusal) => {
            if matches!(call, Call::RequiredFacts | Call::RequiredResidualFacts) {
                put_set(&FactSet::default(), out);
            }
            u64::from(refusal.number()) << 32
        }
    }
}

/// Whether the original evaluates a sheet, by an outcome table if there is one, to the clause of a Resolved record: effect, outcome, denied outcome, obligations, label, reason and shape. Fact
/// lists and consulted facts are not looked at.
///
/// # Safety
///
/// Behind each pointer there are as many elements as the number after it says.
#[unsafe(no_mangle)]
pub unsafe extern "C" fn judge_clause(
    by: Option<&Outcomes>,
    words: *const u32,
    count: usize,
    known: *const u8,
    bytes: usize,
    record: *const u32,
    length: usize,
) -> bool {
    // SAFETY: what the caller has to see to.
    let (sheet, known, record) = unsafe {
        (
            slice::from_raw_parts(words, count),
            slice::from_raw_parts(known, bytes),
            slice::from_raw_parts(record, length),
        )
    };
    // SAFETY: what the caller has to see to.
    let given = by.map(|by| unsafe { by.given() });
    let evaluated = || evaluate(sheet, 0, known, RECORD_WORDS);
    let sitting = match given {
        Some(given) => by_levels(&given, evaluated).and_then(|told| told),
        None => evaluated(),
    };
    sitting.is_ok_and(|sitting| clause(record).is_some_and(|found| clause(&sitting) == Some(found)))
}

/// Answers as the call on a batch does, by an outcome table if there is one, and leaves in `replies` and `out` what it leaves.
///
/// # Safety
///
/// Behind each pointer there are as many elements as the number after it says, and nobody else writes `replies` and `out`.
#[unsafe(no_mangle)]
pub unsafe extern "C" fn judge_batch(
    by: Option<&Outcomes>,
    entries: *const u32,
    entry_words: usize,
    sheets: *const u32,
    sheet_words: usize,
    requests: *const u32,
    request_words: usize,
    allowance: u32,
    replies: *mut u64,
    places: usize,
    out: *mut u32,
    room: usize,
) -> u64 {
    // SAFETY: what the caller has to see to.
    let (batch, replies, out) = unsafe {
        let batch = Batch {
            levels: by.map(|by| by.given()),
            register: slice::from_raw_parts(entries, entry_words).to_vec(),
            sheets: slice::from_raw_parts(sheets, sheet_words).to_vec(),
            requests: slice::from_raw_parts(requests, request_words).to_vec(),
            allowance,
            places,
            room,
        };
        let replies = slice::from_raw_parts_mut(replies, places);
        (batch, replies, slice::from_raw_parts_mut(out, room))
    };
    let told = match batch.answer() {
        Ok(told) => told,
        Err(refusal) => return u64::from(refusal.number()) << 32,
    };
    for (place, reply) in replies.iter_mut().zip(&told) {
        *place = reply.number();
    }
    let records: Vec<u32> = told.iter().flat_map(Reply::record).copied().collect();
    out[..records.len()].copy_from_slice(&records);
    records.len() as u64
}

fn clause(record: &[u32]) -> Option<Decided> {
    match read::record(record) {
        Ok(Record::Resolved { decided, .. }) => Some(decided.without_facts()),
        _ => None,
    }
}

/// A register's answer: the group and the day stand in the table's place, four bytes each, and are 0 where it ends before them.
fn registered(words: &[u32], table: &[u8]) -> u64 {
    let (numbers, _) = table.as_chunks();
    let mut numbers = numbers.iter().copied().map(u32::from_be_bytes);
    let question = Question {
        words: words.to_vec(),
        group: numbers.next().unwrap_or_default(),
        day: numbers.next().unwrap_or_default(),
    };
    question.returned()
}

/// Joins two tables as the C interface does, and leaves in `out` what it leaves.
///
/// # Safety
///
/// As for [`judge_answer`].
#[unsafe(no_mangle)]
pub unsafe extern "C" fn judge_join(
    one: *const u8,
    one_bytes: usize,
    two: *const u8,
    two_bytes: usize,
    out: *mut u8,
    room: usize,
) -> u64 {
    // SAFETY: what the caller has to see to.
    let (one, two, out) = unsafe {
        (
            slice::from_raw_parts(one, one_bytes),
            slice::from_raw_parts(two, two_bytes),
            slice::from_raw_parts_mut(out, room),
        )
    };
    let (one, two) = (one.to_vec(), two.to_vec());
    returned((Join { one, two, room }).answer(), out)
}

/// Packs a sheet or a record as the C interface does, and leaves in `out` what it leaves.
///
/// # Safety
///
/// As for [`judge_answer`].
#[unsafe(no_mangle)]
pub unsafe extern "C" fn judge_pack(
    record: bool,
    words: *const u32,
    count: usize,
    out: *mut u8,
    room: usize,
) -> u64 {
    // SAFETY: what the caller has to see to.
    let (words, out) = unsafe {
        (
            slice::from_raw_parts(words, count),
            slice::from_raw_parts_mut(out, room),
        )
    };
    let (kind, words) = (kind(record), words.to_vec());
    returned(Packing { kind, words, room }.answer(), out)
}

/// Unpacks a tight form as the C interface does, and leaves in `out` what it leaves.
///
/// # Safety
///
/// As for [`judge_answer`].
#[unsafe(no_mangle)]
pub unsafe extern "C" fn judge_unpack(
    record: bool,
    bytes: *const u8,
    count: usize,
    out: *mut u32,
    room: usize,
) -> u64 {
    // SAFETY: what the caller has to see to.
    let (bytes, out) = unsafe {
        (
            slice::from_raw_parts(bytes, count),
            slice::from_raw_parts_mut(out, room),
        )
    };
    let (kind, bytes) = (kind(record), bytes.to_vec());
    returned(Unpacking { kind, bytes, room }.answer(), out)
}

const fn kind(record: bool) -> Kind {
    if record { Kind::Record } else { Kind::Sheet }
}

/// What a call returns that writes this into `out`, or is turned back.
fn returned<T: Copy>(answer: Result<Vec<T>, Refusal>, out: &mut [T]) -> u64 {
    match answer {
        Ok(written) => {
            out[..written.len()].copy_from_slice(&written);
            written.len() as u64
        }
        Err(refusal) => u64::from(refusal.number()) << 32,
    }
}

fn put_set(set: &FactSet, out: &mut [u32]) {
    for (number, halves) in set.0.iter().zip(out.chunks_exact_mut(2)) {
        halves.copy_from_slice(&[(number & 0xFFFF_FFFF) as u32, (number >> 32) as u32]);
    }
}
