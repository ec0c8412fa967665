//! The listing: what the program `sitting` prints for the bytes that it reads.

use gatekeep::DenyShape;

use crate::reference;
use crate::refusal::Refusal;
use crate::words::tree::{Decided, Entry, Record, Seen};
use crate::words::{RECORD_WORDS, SHEET_WORDS, TABLE_BYTES, read};

/// The bytes printed for the input's bytes.
pub fn listing(input: &[u8]) -> Vec<u8> {
    match decided(input) {
        Ok((consulted, decided)) => lines(&consulted, &decided).into_bytes(),
        Err(refusal) => format!("refused {}\n", refusal.number()).into_bytes(),
    }
}

fn decided(input: &[u8]) -> Result<(Vec<Entry>, Decided), Refusal> {
    let (sheet, table) = parts(input)?;
    let words = reference::evaluate(&sheet, 0, table, RECORD_WORDS)?;
    match read::record(&words)? {
        Record::Resolved { consulted, decided } => Ok((consulted, decided)),
        Record::Pending { .. } => unreachable!("evaluation resolves"),
    }
}

/// The sheet's words and the table's bytes; later input is ignored.
fn parts(input: &[u8]) -> Result<(Vec<u32>, &[u8]), Refusal> {
    let (words, rest) = count(input)?;
    if !(1..=SHEET_WORDS).contains(&words) {
        return Err(Refusal::Length);
    }
    let (words, rest) = rest.split_at_checked(4 * words).ok_or(Refusal::Ended)?;
    let (bytes, rest) = count(rest)?;
    if bytes > TABLE_BYTES {
        return Err(Refusal::TableLength);
    }
    let table = rest.get(..bytes).ok_or(Refusal::Ended)?;
    let (words, _) = words.as_chunks();
    Ok((
        words.iter().copied().map(u32::from_be_bytes).collect(),
        table,
    ))
}

/// A 16-bit number and the bytes after it.
fn count(input: &[u8]) -> Result<(usize, &[u8]), Refusal> {
    let (number, rest) = input.split_first_chunk().ok_or(Refusal::Ended)?;
    Ok((usize::from(u16::from_be_bytes(*number)), rest))
}

fn lines(consulted: &[Entry], decided: &Decided) -> String {
    let (effect, products, shape, obligations) = match decided {
        Decided::Permit(permit) => (
            "permit",
            format!("{:04X}", permit.outcome.0),
            "-",
            joined(permit.obligations.iter().map(u8::to_string)),
        ),
        Decided::Deny(deny) => (
            "deny",
            "----".to_owned(),
            match deny.shape {
                DenyShape::Forbidden => "forbidden",
                DenyShape::Hidden => "hidden",
            },
            joined(std::iter::empty()),
        ),
    };
    let facts = joined(decided.facts().iter().map(u16::to_string));
    let consulted = joined(consulted.iter().copied().map(read_as));
    format!(
        "effect {effect}\nproducts {products}\nshape {shape}\nobligations {obligations}\n\
         facts {facts}\nconsulted {consulted}\n"
    )
}

fn read_as((fact, seen): Entry) -> String {
    let seen = match seen {
        Seen::Present => "present",
        Seen::Absent => "absent",
        Seen::Silent => "silent",
        Seen::Unknown => unreachable!("evaluation reads no Unknown"),
    };
    format!("{fact}={seen}")
}

/// The items with commas between them, or `-` for none.
fn joined(items: impl Iterator<Item = String>) -> String {
    let items: Vec<_> = items.collect();
    if items.is_empty() {
        "-".to_owned()
    } else {
        items.join(",")
    }
}
