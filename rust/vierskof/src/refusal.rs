//! The numbered causes for which a call is turned back.

use core::error::Error;
use core::fmt;

use crate::OutOfRange;

/// Why a call was turned back.
///
/// The discriminant is the cause's number; 9 is free, and no call returns it. Where there are several causes, the call names the first
/// that its reading meets: the outcome table if it has one, the length of the words, then the table, then the words from the first,
/// then what follows them, then a record's number, then, of a narrowing, whether the table contradicts
/// the record, then the room. A register has one cause alone. A join looks at both
/// lengths, both tables' fields, whether they clash, then the room. For windows it is the dates,
/// the list, the table, the room. Unpacking looks at the length of the bytes, then at each field,
/// whether it is complete and then what it holds, then at the filler, then at the room. A batch looks at
/// its outcome table, the count of its requests, the register, the list of sheets, the places for
/// replies; a request of it is refused as by the direct call, with the allowance before the room.
///
/// ```
/// use vierskof::Refusal;
///
/// let refusal = vierskof::required_facts(&[0x7000_0000, 0x7000_0000]).unwrap_err();
/// assert_eq!(refusal, Refusal::WordsAfterTree);
/// assert_eq!(refusal.number(), 10);
/// assert_eq!(refusal.to_string(), "there are words after the tree");
/// assert_eq!(Refusal::try_from(10), Ok(refusal));
/// ```
#[derive(Clone, Copy, Debug, PartialEq, Eq, PartialOrd, Ord, Hash)]
#[non_exhaustive]
#[repr(u32)]
pub enum Refusal {
    /// A sheet is 1 to 4,096 words long, a record 1 to 16,384, and a tight form at most 65,536 bytes. A batch is 0 to 64 whole requests, with an allowance of
    /// at most 65,535, which its type holds to here.
    Length = 1,
    /// A table is at most 256 bytes long.
    TableLength = 2,
    /// A table has a field 3, which is no presence.
    TableField = 3,
    /// A known table has an Unknown fact.
    UnknownFact = 4,
    /// A node has a kind that may not stand there.
    Kind = 5,
    /// The words end before the record or tree is complete, or the list of a batch's sheets before its last one is.
    WordsEnd = 6,
    /// A node stands on a 33rd level.
    Level = 7,
    /// A field that must be 0 isn't, an obligation is over 63, a grant has over 64 of them, or, in a call by levels, an outcome is no level.
    Field = 8,
    /// There are words after the tree.
    WordsAfterTree = 10,
    /// The result is longer than the output; or it is a sheet over 4,096 words, or a record over 16,384, or with a list of over 4,095 facts or 127 obligations;
    /// or a batch has fewer places for replies than requests.
    Room = 11,
    /// A date doesn't exist, or isn't of the years 1900 to 2199.
    Date = 12,
    /// A list of windows has an odd number of words, over 32 windows, a field that must be 0 and isn't or a first age above the last, or its table isn't 256
    /// bytes long.
    Windows = 13,
    /// A fact is Present in one of two joined tables and Absent in the other.
    Clash = 14,
    /// The words are no register of sheets: an odd count of them or over 512, a field that must be 0 and isn't, or one group and number twice.
    Register = 15,
    /// A record is of another sheet than the one that is expected.
    SheetNumber = 16,
    /// A narrowing's table has a fact as Present that the record consulted as Absent, or the reverse.
    Contradiction = 17,
    /// A request's evaluation visits more nodes than a batch's allowance has left.
    Allowance = 18,
    /// The bits of a tight form end before a field is complete.
    BitsEnd = 19,
    /// The last byte of a tight form isn't filled with 0 bits, or a byte follows, be it 0.
    Filler = 20,
    /// An outcome table has no level or over 16, another length than twice the square of their number, a byte that is no level, or operations that are not
    /// commutative, associative and absorbing.
    OutcomeTable = 21,
}

impl Refusal {
    /// Every refusal, in the order of their numbers.
    pub const ALL: &[Self] = &[
        Self::Length,
        Self::TableLength,
        Self::TableField,
        Self::UnknownFact,
        Self::Kind,
        Self::WordsEnd,
        Self::Level,
        Self::Field,
        Self::WordsAfterTree,
        Self::Room,
        Self::Date,
        Self::Windows,
        Self::Clash,
        Self::Register,
        Self::SheetNumber,
        Self::Contradiction,
        Self::Allowance,
        Self::BitsEnd,
        Self::Filler,
        Self::OutcomeTable,
    ];

    /// The number of the cause.
    #[must_use]
    pub const fn number(self) -> u32 {
        self as u32
    }

    const fn sentence(self) -> &'static str {
        match self {
            Self::Length => "the length of the sheet, record, tight form or batch is not accepted",
            Self::TableLength => "the fact table is longer than 256 bytes",
            Self::TableField => "a field of the fact table is 3, which is no presence",
            Self::UnknownFact => "a fact is Unknown in a table that has to be known",
            Self::Kind => "a node's kind may not stand where it stands",
            Self::WordsEnd => "the words end before the record or tree is complete",
            Self::Level => "the tree has more than 32 levels",
            Self::Field => "a field holds a number that it may not hold",
            Self::WordsAfterTree => "there are words after the tree",
            Self::Room => "the result has no room in the output or exceeds its limits",
            Self::Date => "a date doesn't exist or lies outside the years 1900 to 2199",
            Self::Windows => {
                "the list of windows is not as it has to be, or its table is not 256 bytes long"
            }
            Self::Clash => "a fact is Present in one table and Absent in the other",
            Self::Register => "the words are no register of sheets",
            Self::SheetNumber => "the record is not of the sheet that is expected",
            Self::Contradiction => "the table contradicts a reading that the record has",
            Self::Allowance => "the evaluation visits more nodes than the allowance has left",
            Self::BitsEnd => "the bits end before a field is complete",
            Self::Filler => "the last byte is not filled with 0 bits, or a byte follows",
            Self::OutcomeTable => "the outcome table is not accepted",
        }
    }
}

impl fmt::Display for Refusal {
    fn fmt(&self, f: &mut fmt::Formatter<'_>) -> fmt::Result {
        f.pad(self.sentence())
    }
}

impl Error for Refusal {}

impl From<Refusal> for u32 {
    fn from(refusal: Refusal) -> Self {
        refusal.number()
    }
}

impl TryFrom<u32> for Refusal {
    type Error = OutOfRange;

    fn try_from(number: u32) -> Result<Self, OutOfRange> {
        let mut all = Self::ALL.iter().copied();
        all.find(|refusal| refusal.number() == number)
            .ok_or(OutOfRange::new("no refusal has this number"))
    }
}
