//! The register of sheets by sorting, written from request 5: the original has none.

use crate::refusal::Refusal;

/// What a register is asked for, and the words that are to be one.
#[derive(Clone, Debug, PartialEq, Eq)]
pub struct Question {
    /// The register's words.
    pub words: Vec<u32>,
    /// The group, which may be one that no entry can have.
    pub group: u32,
    /// The day.
    pub day: u32,
}

/// An entry, in the order of its fields: of one group those that are in force later come later.
#[derive(Clone, Copy, PartialEq, Eq, PartialOrd, Ord)]
struct Entry {
    group: u32,
    day: u32,
    number: u16,
    withdrawn: bool,
    zero: u8,
}

impl Entry {
    fn of([lead, day]: [u32; 2]) -> Self {
        let [group, flags, high, low] = lead.to_be_bytes();
        Self {
            group: u32::from(group),
            day,
            number: u16::from_be_bytes([high, low]),
            withdrawn: flags >= 0x80,
            zero: flags & 0x7F,
        }
    }
}

impl Question {
    /// The number of the sheet in force, if there is one.
    ///
    /// # Errors
    ///
    /// The words are no register.
    pub fn answer(&self) -> Result<Option<u16>, Refusal> {
        let mut entries = entries(&self.words).ok_or(Refusal::Register)?;
        entries.retain(|entry| entry.group == self.group && !entry.withdrawn);
        entries.sort_unstable();
        let due = entries.partition_point(|entry| entry.day <= self.day);
        Ok(entries[..due].last().map(|entry| entry.number))
    }

    /// What the C interface returns.
    pub fn returned(&self) -> u64 {
        match self.answer() {
            Ok(Some(number)) => u64::from(number),
            Ok(None) => 1 << 16,
            Err(refusal) => u64::from(refusal.number()) << 32,
        }
    }
}

/// The entries of a register.
fn entries(words: &[u32]) -> Option<Vec<Entry>> {
    let (pairs, []) = words.as_chunks() else {
        return None;
    };
    let entries: Vec<Entry> = pairs.iter().copied().map(Entry::of).collect();
    let mut sheets: Vec<(u32, u16)> = entries.iter().map(|e| (e.group, e.number)).collect();
    sheets.sort_unstable();
    let repeated = sheets.windows(2).any(|pair| pair[0] == pair[1]);
    let zeros = entries.iter().all(|entry| entry.zero == 0);
    (entries.len() <= 256 && zeros && !repeated).then_some(entries)
}
