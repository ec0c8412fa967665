//! The register of sheets: which sheet is in force for a group on a day.

use crate::calls::value;
use crate::{Refusal, c};

/// An entry of a register: a sheet of a group, and the day from which on it is in force.
///
/// ```
/// use vierskof::Entry;
///
/// let entry = Entry {
///     group: 1,
///     number: 7,
///     day: 100,
///     withdrawn: false,
/// };
/// assert_eq!(entry.words(), [0x0100_0007, 100]);
/// ```
#[derive(Clone, Copy, Debug, PartialEq, Eq, Hash)]
pub struct Entry {
    /// The group whose records the sheet rules.
    pub group: u8,
    /// The sheet's number.
    pub number: u16,
    /// The effective day, counted from 1900-01-01, which is day 0.
    pub day: u32,
    /// Whether it has been withdrawn. It is then never in force, and hides no other.
    pub withdrawn: bool,
}

impl Entry {
    /// Its two words.
    #[must_use]
    pub const fn words(self) -> [u32; 2] {
        let lead = (self.group as u32) << 24 | (self.withdrawn as u32) << 23 | self.number as u32;
        [lead, self.day]
    }
}

/// The number of the sheet that is in force for a group on a day, counted from 1900-01-01; `None` exactly if no entry qualifies.
///
/// An entry qualifies if it is of the group, is not withdrawn, and its effective day is not after the day. Of these the latest is in force, on equal days
/// the one with the greater number. The order of the entries never matters.
///
/// # Errors
///
/// [`Refusal::Register`], whatever group is asked for, unless the words are 0 to 256 entries of two words each, every field that must be 0 is, and no group and
/// number stand twice.
///
/// # Examples
///
/// ```
/// use vierskof::{Entry, Refusal, in_force};
///
/// let entry = |number, day| Entry { group: 1, number, day, withdrawn: false };
/// let entries = [entry(7, 100), entry(9, 200), entry(3, 200)].map(Entry::words);
/// let register = entries.as_flattened();
/// assert_eq!(in_force(register, 1, 99), Ok(None));
/// assert_eq!(in_force(register, 1, 199), Ok(Some(7)));
/// assert_eq!(in_force(register, 1, 200), Ok(Some(9)));
/// assert_eq!(in_force(&register[1..], 1, 200), Err(Refusal::Register));
/// ```
pub fn in_force(entries: &[u32], group: u8, day: u32) -> Result<Option<u16>, Refusal> {
    let number = value(c::sheet_in_force(entries, u32::from(group), day))?;
    // The number after the last says none.
    Ok(u16::try_from(number).ok())
}

#[cfg(test)]
mod tests {
    use super::c::sheet_in_force;

    const REGISTER: [u32; 10] = [
        0x0100_0007,
        0x64,
        0x0100_0009,
        0xC8,
        0x0180_000C,
        0xFA,
        0x0100_0003,
        0xC8,
        0x0200_0000,
        0,
    ];

    /// What the C interface returns: the rows that the definition computes, and groups that no entry can have.
    #[test]
    fn returned_numbers() {
        for (group, day, returned) in [
            (1, 99, 0x1_0000),
            (1, 100, 7),
            (1, 199, 7),
            (1, 200, 9),
            (1, 300, 9),
            (2, 0, 0),
            (3, 300, 0x1_0000),
            (257, 300, 0x1_0000),
            (u32::MAX, u32::MAX, 0x1_0000),
        ] {
            let found = sheet_in_force(&REGISTER, group, day);
            assert_eq!(found, returned, "group {group}, day {day}");
        }
        let unsigned = [0x0100_0007, u32::MAX, 0x0100_0008, 0x8000_0000];
        assert_eq!(sheet_in_force(&unsigned, 1, 0x8000_0000), 8);
        assert_eq!(sheet_in_force(&[], 0, 0), 0x1_0000);
        let two_groups = [0x0100_0007, 0, 0x0200_0007, 9];
        assert_eq!(sheet_in_force(&two_groups, 1, 5), 7);
        for refused in [
            &REGISTER[..1],
            &[0x0100_0007, 0, 0x0180_0007, 9],
            &[0x0100_0007, 0, 0x0240_0008, 0],
        ] {
            for group in [0, 1, 257] {
                assert_eq!(sheet_in_force(refused, group, 5), 0xF_0000_0000);
            }
        }
    }
}
