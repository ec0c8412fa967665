//! The proved calls against the original, or against the comparison's own where it has no such call: answer, every word of the output before and after, sets and refusals.

pub mod batch;
mod c;
pub mod levels;

use crate::case::{Answer, Call, Case};
use crate::join::Join;
use crate::narrow::Order;
use crate::refusal::Refusal;
use crate::register::Question;
use crate::tight::{Kind, Packing, Unpacking};
use crate::windows;
use crate::words::read::sheet_number;
use crate::words::write::numbered;

/// A proved call that takes words, a sheet's number, a table and an output.
pub type Writer =
    for<'o> fn(&[u32], u16, &[u8], &'o mut [u32]) -> Result<&'o [u32], vierskof::Refusal>;

/// The proved reduction and narrowing that hold arms in this order.
pub fn pair(order: Order) -> (Writer, Writer) {
    match order {
        Order::PermitsFirst => (vierskof::partial_evaluate, vierskof::narrow_residual),
        Order::SheetOrder => (
            vierskof::partial_evaluate_in_order,
            vierskof::narrow_residual_in_order,
        ),
    }
}

/// Whether the proved call answers as the original does, and leaves what it must; and whether it answers alike under a number and under 0.
pub fn agrees(case: &Case) -> bool {
    let expected = case.answer();
    match case.call {
        Call::Evaluate => writes(case, &expected, vierskof::evaluate, c::evaluate),
        Call::PartialEvaluate => {
            let call = vierskof::partial_evaluate;
            writes(case, &expected, call, c::partial_evaluate)
        }
        Call::NarrowResidual => {
            let call = vierskof::narrow_residual;
            writes(case, &expected, call, c::narrow_residual)
        }
        Call::CompleteResidual => {
            let call = vierskof::complete_residual;
            writes(case, &expected, call, c::complete_residual)
        }
        Call::RequiredFacts => requires(case, &expected, vierskof::required_facts),
        Call::RequiredResidualFacts => requires(case, &expected, vierskof::required_residual_facts),
        Call::IsPermitConstant => says(case, &expected, vierskof::is_permit_constant),
        Call::IsDenyConstant => says(case, &expected, vierskof::is_deny_constant),
        Call::CarriesObligation => says(case, &expected, vierskof::carries_obligation),
        Call::PartialEvaluateInOrder => {
            let call = vierskof::partial_evaluate_in_order;
            writes(case, &expected, call, c::partial_evaluate_in_order)
        }
        Call::NarrowResidualInOrder => {
            let call = vierskof::narrow_residual_in_order;
            writes(case, &expected, call, c::narrow_residual_in_order)
        }
    }
}

/// Whether the proved call finds the sheet in force that sorting finds.
pub fn finds(question: &Question) -> bool {
    let group = u8::try_from(question.group).expect("a group that an entry can have");
    let found = vierskof::in_force(&question.words, group, question.day);
    match question.answer() {
        Ok(number) => found == Ok(number),
        Err(refusal) => refused(&found, refusal),
    }
}

fn writes(case: &Case, expected: &Result<Answer, Refusal>, call: Writer, beyond: c::Call) -> bool {
    // Words that no record has at these places, so that one that is wrongly written or left shows.
    let before: Vec<u32> = (0x0F0F_0F0F..).take(case.room).collect();
    let mut out = before.clone();
    let found = match u16::try_from(case.number) {
        Ok(number) => called(call(&case.words, number, &case.table, &mut out)),
        Err(_) => told(
            beyond(&case.words, case.number, &case.table, &mut out),
            &out,
        ),
    };
    let right = match expected {
        Ok(Answer::Record(record)) => {
            found.as_ref() == Ok(record)
                && out[..record.len()] == record[..]
                && out[record.len()..] == before[record.len()..]
        }
        Ok(_) => false,
        Err(refusal) => found == Err(u32::from(refusal.number())) && out == before,
    };
    right && is_masked(case, &found, call)
}

/// The record that a proved call wrote, or the number of its refusal.
fn called(found: Result<&[u32], vierskof::Refusal>) -> Result<Vec<u32>, u32> {
    found
        .map(<[u32]>::to_vec)
        .map_err(vierskof::Refusal::number)
}

/// The same of what the C interface returned.
fn told(returned: u64, out: &[u32]) -> Result<Vec<u32>, u32> {
    let (number, words) = ((returned >> 32) as u32, (returned & 0xFFFF_FFFF) as u32);
    if number == 0 {
        Ok(out[..words as usize].to_vec())
    } else {
        Err(number)
    }
}

/// Whether the call answers under 0 as it does under a number, but for the sixteen bits of the number. Where that is another sheet's, there is an answer
/// under 0, or 17, or no room for it.
fn is_masked(case: &Case, found: &Result<Vec<u32>, u32>, call: Writer) -> bool {
    let mut out = vec![0; case.room];
    let plain = called(call(&case.unnumbered().words, 0, &case.table, &mut out));
    match (found, plain) {
        (Ok(record), Ok(plain)) => {
            sheet_number(record) == case.number
                && sheet_number(&plain) == 0
                && numbered(0, record.clone()) == plain
        }
        (Err(16), plain) => matches!(plain, Ok(_) | Err(11 | 17)),
        (found, plain) => *found == plain,
    }
}

/// Whether the proved join answers as the comparison's own does, and leaves what it must.
pub fn joins(join: &Join) -> bool {
    let before: Vec<u8> = (0xC3..=0xFF).cycle().take(join.room).collect();
    let mut out = before.clone();
    let found = vierskof::join_tables(&join.one, &join.two, &mut out).map(<[u8]>::to_vec);
    match join.answer() {
        Ok(bytes) => {
            found.as_ref() == Ok(&bytes)
                && out[..bytes.len()] == bytes[..]
                && out[bytes.len()..] == before[bytes.len()..]
        }
        Err(refusal) => refused(&found, refusal) && out == before,
    }
}

/// Whether the proved call packs words as the comparison's own does, and leaves what it must; and whether the same words come back. The form of accepted words
/// has four bytes a word at most.
pub fn packs(packing: &Packing) -> bool {
    let Packing { kind, words, room } = packing;
    let before: Vec<u8> = (0xC3..=0xFF).cycle().take(*room).collect();
    let mut out = before.clone();
    let found = packed(*kind, words, &mut out).map(<[u8]>::to_vec);
    match packing.answer() {
        Ok(bytes) => {
            found.as_ref() == Ok(&bytes)
                && out[..bytes.len()] == bytes[..]
                && out[bytes.len()..] == before[bytes.len()..]
                && bytes.len() <= vierskof::tight_room(words.len())
                && unpacked(*kind, &bytes, &mut vec![0; words.len()]) == Ok(words)
        }
        Err(refusal) => refused(&found, refusal) && out == before,
    }
}

/// Whether the proved call unpacks bytes as the comparison's own does, and leaves what it must; and whether the words are packed as the same bytes.
pub fn unpacks(unpacking: &Unpacking) -> bool {
    let Unpacking { kind, bytes, room } = unpacking;
    // Words that no sheet or record has at these places.
    let before: Vec<u32> = (0x0F0F_0F0F..).take(*room).collect();
    let mut out = before.clone();
    let found = unpacked(*kind, bytes, &mut out).map(<[u32]>::to_vec);
    match unpacking.answer() {
        Ok(words) => {
            found.as_ref() == Ok(&words)
                && out[..words.len()] == words[..]
                && out[words.len()..] == before[words.len()..]
                && packed(*kind, &words, &mut vec![0; bytes.len()]) == Ok(bytes)
        }
        Err(refusal) => refused(&found, refusal) && out == before,
    }
}

fn requires(
    case: &Case,
    expected: &Result<Answer, Refusal>,
    call: fn(&[u32]) -> Result<vierskof::FactSet, vierskof::Refusal>,
) -> bool {
    let found = call(&case.words);
    match expected {
        Ok(Answer::Facts(facts)) => found.is_ok_and(|set| *set.numbers() == facts.0),
        Ok(_) => false,
        Err(refusal) => refused(&found, *refusal),
    }
}

fn says(
    case: &Case,
    expected: &Result<Answer, Refusal>,
    call: fn(&[u32]) -> Result<bool, vierskof::Refusal>,
) -> bool {
    let found = call(&case.words);
    match expected {
        Ok(Answer::Says(yes)) => found == Ok(*yes),
        Ok(_) => false,
        Err(refusal) => refused(&found, *refusal),
    }
}

/// Whether the proved call sets facts by age as the comparison's own does, and leaves what it must.
pub fn sets_as(case: &windows::Case) -> bool {
    let before: Vec<u8> = (0x0F..=0xFF).cycle().take(case.room).collect();
    let mut out = before.clone();
    let date = |[year, month, day]: windows::Numbers| vierskof::Date { year, month, day };
    let (reading, today) = (date(case.reading), date(case.today));
    let found = vierskof::apply_windows(&case.windows, reading, today, &case.table, &mut out);
    let found = found.map(<[u8]>::to_vec);
    match case.answer() {
        Ok(bytes) => {
            found.as_ref() == Ok(&bytes)
                && out[..bytes.len()] == bytes[..]
                && out[bytes.len()..] == before[bytes.len()..]
        }
        Err(refusal) => refused(&found, refusal) && out == before,
    }
}

/// The proved call that packs words of this kind.
pub fn packed<'o>(
    kind: Kind,
    words: &[u32],
    out: &'o mut [u8],
) -> Result<&'o [u8], vierskof::Refusal> {
    match kind {
        Kind::Sheet => vierskof::pack_sheet(words, out),
        Kind::Record => vierskof::pack_record(words, out),
    }
}

/// The proved call that unpacks bytes of this kind.
pub fn unpacked<'o>(
    kind: Kind,
    bytes: &[u8],
    out: &'o mut [u32],
) -> Result<&'o [u32], vierskof::Refusal> {
    match kind {
        Kind::Sheet => vierskof::unpack_sheet(bytes, out),
        Kind::Record => vierskof::unpack_record(bytes, out),
    }
}

/// Whether the proved call was turned back with the original's number.
fn refused<T>(found: &Result<T, vierskof::Refusal>, expected: Refusal) -> bool {
    found
        .as_ref()
        .is_err_and(|refusal| refusal.number() == u32::from(expected.number()))
}
