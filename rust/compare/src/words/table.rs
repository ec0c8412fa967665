//! Fact tables: four 2-bit fields a byte, fact 0 first.

use gatekeep::Presence;

use super::TABLE_BYTES;
use crate::refusal::Refusal;

/// How each fact reads, up to the table's end.
#[derive(Clone, Debug, PartialEq, Eq)]
pub struct Table(Vec<Presence>);

impl Table {
    /// Reads a table that may hold Unknown.
    pub fn partial(bytes: &[u8]) -> Result<Self, Refusal> {
        Self::read(bytes, Ok(Presence::Unknown))
    }

    /// Reads a table that holds no Unknown.
    pub fn known(bytes: &[u8]) -> Result<Self, Refusal> {
        Self::read(bytes, Err(Refusal::TableUnknown))
    }

    /// Reads the fields from fact 0, so that the first faulty one decides the refusal.
    fn read(bytes: &[u8], unknown: Result<Presence, Refusal>) -> Result<Self, Refusal> {
        if bytes.len() > TABLE_BYTES {
            return Err(Refusal::TableLength);
        }
        let presence = |field| match field {
            0 => Ok(Presence::Absent),
            1 => Ok(Presence::Present),
            2 => unknown,
            _ => Err(Refusal::TableField),
        };
        fields(bytes)
            .map(presence)
            .collect::<Result<_, _>>()
            .map(Self)
    }

    /// How the fact reads: past the end Absent, never Unknown.
    pub fn presence(&self, fact: u16) -> Presence {
        self.observation(fact).unwrap_or(Presence::Absent)
    }

    /// What was entered of the fact: past the end nothing.
    pub fn observation(&self, fact: u16) -> Option<Presence> {
        self.0.get(usize::from(fact)).copied()
    }

    /// Each fact up to the table's end, and how it reads.
    pub fn entries(&self) -> impl Iterator<Item = (u16, Presence)> {
        (0..).zip(self.0.iter().copied())
    }
}

/// The fields of a table's bytes, faulty ones too.
pub fn fields(bytes: &[u8]) -> impl Iterator<Item = u8> {
    bytes
        .iter()
        .flat_map(|byte| [6, 4, 2, 0].map(|shift| byte >> shift & 3))
}

/// The bytes that hold these fields, the last byte filled with 0.
pub fn pack(fields: &[u8]) -> Vec<u8> {
    let byte = |four: &[u8]| {
        let shifts = [6, 4, 2, 0];
        four.iter()
            .zip(shifts)
            .fold(0, |byte, (field, shift)| byte | field << shift)
    };
    fields.chunks(4).map(byte).collect()
}
