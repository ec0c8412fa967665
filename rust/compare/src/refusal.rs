//! The numbered causes for which a call is turned back.

/// A cause of document 01's table, or of a request after it; the discriminant is its number. 9 is free: obligations may repeat.
#[derive(Clone, Copy, Debug, PartialEq, Eq)]
#[repr(u8)]
pub enum Refusal {
    /// Sheet or record length outside its range.
    Length = 1,
    /// Table over 256 bytes.
    TableLength = 2,
    /// Field 3 in a table.
    TableField = 3,
    /// Unknown in a known table.
    TableUnknown = 4,
    /// Kind not allowed here.
    Kind = 5,
    /// Words end before the record or tree is complete.
    Ended = 6,
    /// 33rd level.
    Level = 7,
    /// A field that must be 0 isn't, or holds what its list or count doesn't allow.
    Field = 8,
    /// Words after the tree.
    Trailing = 10,
    /// Result longer than the output or 16,384 words, or a list in it over 4,095 facts or 127 obligations.
    Room = 11,
    /// A date that doesn't exist or lies outside 1900 to 2199.
    Date = 12,
    /// A list of windows that isn't as it has to be, or a table for it that isn't 256 bytes.
    Windows = 13,
    /// Present in one of two joined tables, Absent in the other.
    Clash = 14,
    /// Words that are no register of sheets.
    Register = 15,
    /// Record of another sheet, or a number that no record carries.
    SheetNumber = 16,
    /// A narrowing's table has as Present what the record consulted as Absent, or the reverse.
    Contradiction = 17,
    /// More nodes than a batch's allowance has left.
    Allowance = 18,
    /// The bits of a tight form end before a field is complete.
    BitsEnd = 19,
    /// The last byte of a tight form isn't filled with 0 bits, or a byte follows.
    Filler = 20,
    /// An outcome table that is not accepted.
    OutcomeTable = 21,
}

impl Refusal {
    /// Its number.
    pub const fn number(self) -> u8 {
        self as u8
    }
}
