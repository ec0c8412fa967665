//! The proved batch against the plain desk, through the C interface, which takes any allowance and any outcome table, and through the safe crate; and each
//! decided reply against a direct call.
#![allow(unsafe_code)]

use vierskof::{Replies, Reply as Told};

use super::levels;
use crate::batch::{Batch, REQUEST_WORDS, Reply, Request, handed};
use crate::refusal::Refusal;
use crate::words::read::sheet_number;

unsafe extern "C" {
    fn vierskof_evaluate_batch(
        entries: *const u32,
        entry_words: usize,
        sheets: *const u32,
        sheet_words: usize,
        requests: *const u32,
        request_words: usize,
        allowance: u32,
        replies: *mut u64,
        places: usize,
        out: *mut u32,
        room: usize,
    ) -> u64;
    fn vierskof_evaluate_batch_by_levels(
        levels: u32,
        outcomes: *const u8,
        outcome_bytes: usize,
        entries: *const u32,
        entry_words: usize,
        sheets: *const u32,
        sheet_words: usize,
        requests: *const u32,
        request_words: usize,
        allowance: u32,
        replies: *mut u64,
        places: usize,
        out: *mut u32,
        room: usize,
    ) -> u64;
}

/// What the C interface returns.
pub fn returned(batch: &Batch, replies: &mut [u64], out: &mut [u32]) -> u64 {
    let Batch {
        levels,
        register,
        sheets,
        requests,
        allowance,
        ..
    } = batch;
    let (places, room) = (replies.len(), out.len());
    // SAFETY: each pointer comes from a slice with that slice's length; the proved call reads and writes no further.
    unsafe {
        match levels {
            None => vierskof_evaluate_batch(
                register.as_ptr(),
                register.len(),
                sheets.as_ptr(),
                sheets.len(),
                requests.as_ptr(),
                requests.len(),
                *allowance,
                replies.as_mut_ptr(),
                places,
                out.as_mut_ptr(),
                room,
            ),
            Some(levels) => vierskof_evaluate_batch_by_levels(
                levels.count,
                levels.bytes.as_ptr(),
                levels.bytes.len(),
                register.as_ptr(),
                register.len(),
                sheets.as_ptr(),
                sheets.len(),
                requests.as_ptr(),
                requests.len(),
                *allowance,
                replies.as_mut_ptr(),
                places,
                out.as_mut_ptr(),
                room,
            ),
        }
    }
}

/// Places and an output that no reply and no record leaves as they are.
fn before(batch: &Batch) -> (Vec<u64>, Vec<u32>) {
    let places = (0x0F0F_0F0F_0F0F_0F0F..).take(batch.places).collect();
    let out = (0x0F0F_0F0F..).take(batch.room).collect();
    (places, out)
}

/// Whether the proved batch answers as the plain desk does, and leaves what it must.
pub fn agrees(batch: &Batch) -> bool {
    let (mut due_replies, mut due_out) = before(batch);
    let answer = batch.answer();
    let due = match &answer {
        Err(refusal) => u64::from(refusal.number()) << 32,
        Ok(replies) => {
            for (place, reply) in due_replies.iter_mut().zip(replies) {
                *place = reply.number();
            }
            let records: Vec<u32> = replies.iter().flat_map(Reply::record).copied().collect();
            due_out[..records.len()].copy_from_slice(&records);
            records.len() as u64
        }
    };
    let (mut replies, mut out) = before(batch);
    let found = returned(batch, &mut replies, &mut out);
    found == due
        && replies == due_replies
        && out == due_out
        && is_told(batch, answer.as_deref(), &due_replies, &due_out)
}

/// Whether the safe crate tells the same replies or the same refusal, and leaves the same places and words. What it can't be given it isn't asked.
fn is_told(
    batch: &Batch,
    answer: Result<&[Reply], &Refusal>,
    due_replies: &[u64],
    due_out: &[u32],
) -> bool {
    let (mut replies, mut out) = before(batch);
    let Ok(allowance) = u16::try_from(batch.allowance) else {
        return true;
    };
    let Batch {
        register,
        sheets,
        requests,
        ..
    } = batch;
    let told: Result<Replies<'_>, _> = match &batch.levels {
        None => vierskof::evaluate_batch(
            register,
            sheets,
            requests,
            allowance,
            &mut replies,
            &mut out,
        ),
        Some(given) => {
            let Some(levels) = levels::levels(given) else {
                return answer == Err(&Refusal::OutcomeTable);
            };
            vierskof::evaluate_batch_by_levels(
                &levels,
                register,
                sheets,
                requests,
                allowance,
                &mut replies,
                &mut out,
            )
        }
    };
    let same = match (told, answer) {
        (Ok(told), Ok(answer)) => told.len() == answer.len() && told.zip(answer).all(alike),
        (Err(told), Err(refusal)) => told.number() == u32::from(refusal.number()),
        (Ok(_), Err(_)) | (Err(_), Ok(_)) => false,
    };
    same && replies == due_replies && out == due_out
}

fn alike((told, reply): (Told<'_>, &Reply)) -> bool {
    match (told, reply) {
        (Told::None, Reply::None) => true,
        (Told::Refused(told), Reply::Refused(refusal)) => {
            told.number() == u32::from(refusal.number())
        }
        (
            Told::Decided { record, nodes },
            Reply::Decided {
                record: due,
                nodes: visited,
            },
        ) => record == due && usize::from(nodes) == *visited,
        _ => false,
    }
}

/// How many replies of a batch are decided, if each of them is what a direct call with its sheet's number answers into the same room, and no count exceeds the
/// sheet's words or what was left.
pub fn directly(batch: &Batch) -> Option<usize> {
    let (mut replies, mut out) = before(batch);
    let found = returned(batch, &mut replies, &mut out);
    if found >> 32 != 0 {
        return Some(0);
    }
    let sheets = handed(&batch.sheets)?;
    let (requests, _) = batch.requests.as_chunks::<REQUEST_WORDS>();
    let (mut used, mut left, mut decided) = (0, batch.allowance as usize, 0);
    for (reply, request) in replies.iter().zip(requests) {
        if *reply == 0 || reply >> 32 != 0 {
            continue;
        }
        let (nodes, words) = ((reply >> 16) as usize, (reply & 0xFFFF) as usize);
        let record = &out[used..used + words];
        let number = u16::try_from(sheet_number(record)).ok()?;
        let (_, sheet) = sheets.iter().find(|(of, _)| *of == number)?;
        let facts = Request::of(request).table;
        let mut own = vec![0; batch.room - used];
        let direct = match &batch.levels {
            None => vierskof::evaluate(sheet, number, &facts, &mut own),
            Some(given) => {
                let levels = levels::levels(given)?;
                vierskof::evaluate_by_levels(&levels, sheet, number, &facts, &mut own)
            }
        };
        if direct != Ok(record) || nodes > sheet.len() || nodes > left {
            return None;
        }
        used += words;
        left -= nodes;
        decided += 1;
    }
    (used as u64 == found).then_some(decided)
}
