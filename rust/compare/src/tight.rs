//! The tight form, by a reader and a writer of bits over the comparison's own trees. The original has no such form.

use std::convert::Infallible;

use gatekeep::DenyShape;

use crate::products::Products;
use crate::refusal::Refusal;
use crate::words::tree::{
    Condition, Decided, Deny, Entry, Grant, Permit, Record, Residual, Seen, Sheet, Tree,
};
use crate::words::{GRANT_OBLIGATIONS, LEVELS, RECORD_WORDS, SHEET_WORDS, read, write};

/// The most bytes that are unpacked.
pub const TIGHT_BYTES: usize = 65_536;

/// What words or bytes are taken for.
#[derive(Clone, Copy, Debug, PartialEq, Eq)]
pub enum Kind {
    /// A sheet.
    Sheet,
    /// A record.
    Record,
}

impl Kind {
    /// Both.
    pub const ALL: [Self; 2] = [Self::Sheet, Self::Record];

    const fn most_words(self) -> usize {
        match self {
            Self::Sheet => SHEET_WORDS,
            Self::Record => RECORD_WORDS,
        }
    }
}

/// Words to be packed, and the output's length in bytes.
#[derive(Clone, Debug, PartialEq, Eq)]
pub struct Packing {
    /// What the words are taken for.
    pub kind: Kind,
    /// The words.
    pub words: Vec<u32>,
    /// The output's length.
    pub room: usize,
}

impl Packing {
    /// The bytes written, or why the call is turned back.
    pub fn answer(&self) -> Result<Vec<u8>, Refusal> {
        let bytes = match self.kind {
            Kind::Sheet => sheet(&read::sheet(&self.words)?),
            Kind::Record => record(read::sheet_number(&self.words), &read::record(&self.words)?),
        };
        fitting(bytes, self.room)
    }
}

/// Bytes to be unpacked, and the output's length in words.
#[derive(Clone, Debug, PartialEq, Eq)]
pub struct Unpacking {
    /// What the bytes are taken for.
    pub kind: Kind,
    /// The bytes.
    pub bytes: Vec<u8>,
    /// The output's length.
    pub room: usize,
}

impl Unpacking {
    /// The words written, or why the call is turned back.
    pub fn answer(&self) -> Result<Vec<u32>, Refusal> {
        if self.bytes.len() > TIGHT_BYTES {
            return Err(Refusal::Length);
        }
        let words = match self.kind {
            Kind::Sheet => {
                let sheet: Sheet = whole(&self.bytes, |bits| bits.tree(1))?;
                write::tree(&sheet)
            }
            Kind::Record => {
                let (number, record) = whole(&self.bytes, Reader::record)?;
                write::numbered(number, write::record(&record))
            }
        };
        fitting(words, self.room.min(self.kind.most_words()))
    }
}

/// The tight form of a sheet.
pub fn sheet(sheet: &Sheet) -> Vec<u8> {
    alone(sheet)
}

/// The tight form of a residual, as if it were a sheet: it may be none, and then no call accepts it as one.
pub fn residual(residual: &Residual) -> Vec<u8> {
    alone(residual)
}

fn alone<S: Stored>(tree: &Tree<S>) -> Vec<u8> {
    let mut bits = Writer::default();
    bits.tree(tree);
    bits.filled()
}

/// The tight form of a record, of the sheet with this number.
pub fn record(number: u32, record: &Record) -> Vec<u8> {
    let mut bits = Writer::default();
    match record {
        Record::Resolved { consulted, decided } => {
            bits.lead(14, number, consulted);
            decided.put(&mut bits);
        }
        Record::Pending {
            consulted,
            residual,
        } => {
            bits.lead(15, number, consulted);
            bits.tree(residual);
        }
    }
    bits.filled()
}

/// What is written, if it is at most so long.
fn fitting<T>(written: Vec<T>, room: usize) -> Result<Vec<T>, Refusal> {
    if written.len() > room {
        return Err(Refusal::Room);
    }
    Ok(written)
}

/// Reads all of the bytes by `read`, refusing what follows unless it is the filler.
fn whole<'a, T>(
    bytes: &'a [u8],
    read: impl FnOnce(&mut Reader<'a>) -> Result<T, Refusal>,
) -> Result<T, Refusal> {
    let mut bits = Reader {
        rest: bytes,
        held: 0,
        count: 0,
    };
    let found = read(&mut bits)?;
    if bits.rest.is_empty() && bits.held == 0 {
        Ok(found)
    } else {
        Err(Refusal::Filler)
    }
}

/// What a tree's nodes 12 and 13 hold, and so whether it may have such nodes.
trait Stored: Sized {
    /// The last kind that may stand where a policy is due.
    const LAST: u32;

    /// Reads what follows the kind.
    fn take(bits: &mut Reader, kind: u32) -> Result<Self, Refusal>;

    /// Appends the node.
    fn put(&self, bits: &mut Writer);
}

impl Stored for Infallible {
    const LAST: u32 = 11;

    fn take(_bits: &mut Reader, _kind: u32) -> Result<Self, Refusal> {
        Err(Refusal::Kind)
    }

    fn put(&self, _bits: &mut Writer) {
        match *self {}
    }
}

impl Stored for Decided {
    const LAST: u32 = 13;

    fn take(bits: &mut Reader, kind: u32) -> Result<Self, Refusal> {
        match kind {
            12 => bits.permit().map(Self::Permit),
            13 => bits.deny().map(Self::Deny),
            _ => Err(Refusal::Kind),
        }
    }

    fn put(&self, bits: &mut Writer) {
        match self {
            Self::Permit(permit) => bits.permit(permit),
            Self::Deny(deny) => bits.deny(deny),
        }
    }
}

/// Bits, of which those that fill no byte yet are held.
#[derive(Default)]
struct Writer {
    bytes: Vec<u8>,
    held: u64,
    count: u32,
}

impl Writer {
    fn put(&mut self, value: impl Into<u32>, width: u32) {
        self.held = self.held << width | u64::from(value.into());
        self.count += width;
        while self.count >= 8 {
            self.count -= 8;
            self.bytes.push((self.held >> self.count & 0xFF) as u8);
        }
    }

    /// The bytes, the last one filled with 0 bits.
    fn filled(mut self) -> Vec<u8> {
        if self.count > 0 {
            self.put(0_u32, 8 - self.count);
        }
        self.bytes
    }

    fn count(&mut self, length: usize, width: u32) {
        assert!(length >> width == 0, "a count that its field can hold");
        self.put(u32::try_from(length).expect("a list's length"), width);
    }

    /// A present bit, and the number only if there is one.
    fn optional(&mut self, number: Option<u16>, width: u32) {
        self.put(number.is_some(), 1);
        if let Some(number) = number {
            self.put(number, width);
        }
    }

    fn shape(&mut self, shape: DenyShape) {
        self.put(shape == DenyShape::Hidden, 1);
    }

    fn obligations(&mut self, obligations: &[u8]) {
        for obligation in obligations {
            self.put(*obligation, 6);
        }
    }

    fn facts(&mut self, facts: &[u16]) {
        for fact in facts {
            self.put(*fact, 10);
        }
    }

    fn lead(&mut self, kind: u32, number: u32, consulted: &[Entry]) {
        self.put(kind, 4);
        self.put(number, 16);
        self.count(consulted.len(), 12);
        for (fact, seen) in consulted {
            let presence: u32 = match seen {
                Seen::Absent => 0,
                Seen::Present => 1,
                Seen::Unknown => 2,
                Seen::Silent => 3,
            };
            self.put(presence, 2);
            self.put(*fact, 10);
        }
    }

    fn tree<S: Stored>(&mut self, tree: &Tree<S>) {
        match tree {
            Tree::Permit(outcome) => {
                self.put(6_u32, 4);
                self.put(outcome.0, 16);
            }
            Tree::Deny => self.put(7_u32, 4),
            Tree::Grant(grant) => self.grant(grant),
            Tree::All(arms) => self.arms(9, arms, Self::tree),
            Tree::Any(arms) => self.arms(10, arms, Self::tree),
            Tree::OrElse(primary, fallback) => {
                self.put(11_u32, 4);
                self.tree(primary);
                self.tree(fallback);
            }
            Tree::Stored(stored) => stored.put(self),
        }
    }

    fn condition(&mut self, condition: &Condition) {
        match condition {
            Condition::Always => self.put(0_u32, 4),
            Condition::Never => self.put(1_u32, 4),
            Condition::Has(fact) => {
                self.put(2_u32, 4);
                self.put(*fact, 10);
            }
            Condition::Not(inner) => {
                self.put(3_u32, 4);
                self.condition(inner);
            }
            Condition::All(arms) => self.arms(4, arms, Self::condition),
            Condition::Any(arms) => self.arms(5, arms, Self::condition),
        }
    }

    fn arms<T>(&mut self, kind: u32, arms: &[T], put: fn(&mut Self, &T)) {
        self.put(kind, 4);
        self.count(arms.len(), 12);
        for arm in arms {
            put(self, arm);
        }
    }

    fn grant(&mut self, grant: &Grant) {
        self.put(8_u32, 4);
        self.shape(grant.shape);
        self.count(grant.obligations.len(), 7);
        self.put(grant.outcome.0, 16);
        self.optional(grant.label, 15);
        self.optional(grant.reason, 15);
        self.obligations(&grant.obligations);
        self.condition(&grant.condition);
    }

    fn permit(&mut self, permit: &Permit) {
        self.put(12_u32, 4);
        self.count(permit.obligations.len(), 7);
        self.put(permit.outcome.0, 16);
        self.optional(permit.label, 15);
        self.count(permit.satisfied.len(), 12);
        self.obligations(&permit.obligations);
        self.facts(&permit.satisfied);
    }

    fn deny(&mut self, deny: &Deny) {
        self.put(13_u32, 4);
        self.shape(deny.shape);
        self.optional(deny.denied.map(|outcome| outcome.0), 16);
        self.optional(deny.label, 15);
        self.optional(deny.reason, 15);
        self.count(deny.unsatisfied.len(), 12);
        self.facts(&deny.unsatisfied);
    }
}

/// Bits that are still to be read: those held, of a byte that is read in part, and then those of the other bytes.
struct Reader<'a> {
    rest: &'a [u8],
    held: u32,
    count: u32,
}

impl Reader<'_> {
    /// The next field of so many bits, at most 16.
    fn take(&mut self, width: u32) -> Result<u32, Refusal> {
        while self.count < width {
            let (&byte, rest) = self.rest.split_first().ok_or(Refusal::BitsEnd)?;
            self.held = self.held << 8 | u32::from(byte);
            self.count += 8;
            self.rest = rest;
        }
        self.count -= width;
        let value = self.held >> self.count;
        self.held &= (1 << self.count) - 1;
        Ok(value)
    }

    fn small(&mut self, width: u32) -> Result<u16, Refusal> {
        let value = self.take(width)?;
        Ok(u16::try_from(value).expect("a field of at most 16 bits"))
    }

    fn count(&mut self, width: u32) -> Result<usize, Refusal> {
        self.small(width).map(usize::from)
    }

    fn optional(&mut self, width: u32) -> Result<Option<u16>, Refusal> {
        if self.take(1)? == 0 {
            return Ok(None);
        }
        self.small(width).map(Some)
    }

    fn outcome(&mut self) -> Result<Products, Refusal> {
        self.small(16).map(Products)
    }

    fn shape(&mut self) -> Result<DenyShape, Refusal> {
        Ok(match self.take(1)? {
            0 => DenyShape::Forbidden,
            _ => DenyShape::Hidden,
        })
    }

    /// As many items as its count says.
    fn list<T>(
        &mut self,
        count: usize,
        mut take: impl FnMut(&mut Self) -> Result<T, Refusal>,
    ) -> Result<Vec<T>, Refusal> {
        (0..count).map(|_| take(self)).collect()
    }

    fn obligations(&mut self, count: usize) -> Result<Vec<u8>, Refusal> {
        self.list(count, |bits| {
            let number = bits.take(6)?;
            Ok(u8::try_from(number).expect("a field of six bits"))
        })
    }

    fn facts(&mut self, count: usize) -> Result<Vec<u16>, Refusal> {
        self.list(count, |bits| bits.small(10))
    }

    fn entry(&mut self) -> Result<Entry, Refusal> {
        let seen = match self.take(2)? {
            0 => Seen::Absent,
            1 => Seen::Present,
            2 => Seen::Unknown,
            _ => Seen::Silent,
        };
        Ok((self.small(10)?, seen))
    }

    /// A record and the number of its sheet.
    fn record(&mut self) -> Result<(u16, Record), Refusal> {
        let kind = self.take(4)?;
        if !matches!(kind, 14 | 15) {
            return Err(Refusal::Kind);
        }
        let number = self.small(16)?;
        let entries = self.count(12)?;
        let consulted = self.list(entries, Self::entry)?;
        if kind == 15 {
            let residual = self.tree(1)?;
            let record = Record::Pending {
                consulted,
                residual,
            };
            return Ok((number, record));
        }
        let kind = self.take(4)?;
        let decided = Decided::take(self, kind)?;
        Ok((number, Record::Resolved { consulted, decided }))
    }

    fn tree<S: Stored>(&mut self, level: usize) -> Result<Tree<S>, Refusal> {
        let kind = self.take(4)?;
        if !(6..=S::LAST).contains(&kind) {
            return Err(Refusal::Kind);
        }
        if level > LEVELS {
            return Err(Refusal::Level);
        }
        Ok(match kind {
            6 => Tree::Permit(self.outcome()?),
            7 => Tree::Deny,
            8 => Tree::Grant(self.grant(level)?),
            9 => Tree::All(self.arms(level, Self::tree)?),
            10 => Tree::Any(self.arms(level, Self::tree)?),
            11 => {
                let primary = Box::new(self.tree(level + 1)?);
                let fallback = Box::new(self.tree(level + 1)?);
                Tree::OrElse(primary, fallback)
            }
            _ => Tree::Stored(S::take(self, kind)?),
        })
    }

    fn condition(&mut self, level: usize) -> Result<Condition, Refusal> {
        let kind = self.take(4)?;
        if kind > 5 {
            return Err(Refusal::Kind);
        }
        if level > LEVELS {
            return Err(Refusal::Level);
        }
        Ok(match kind {
            0 => Condition::Always,
            1 => Condition::Never,
            2 => Condition::Has(self.small(10)?),
            3 => Condition::Not(Box::new(self.condition(level + 1)?)),
            4 => Condition::All(self.arms(level, Self::condition)?),
            _ => Condition::Any(self.arms(level, Self::condition)?),
        })
    }

    /// The arms of a list, one level below it.
    fn arms<T>(
        &mut self,
        level: usize,
        take: fn(&mut Self, usize) -> Result<T, Refusal>,
    ) -> Result<Vec<T>, Refusal> {
        let count = self.count(12)?;
        self.list(count, |bits| take(bits, level + 1))
    }

    fn grant(&mut self, level: usize) -> Result<Grant, Refusal> {
        let shape = self.shape()?;
        let obligations = self.count(7)?;
        if obligations > GRANT_OBLIGATIONS {
            return Err(Refusal::Field);
        }
        Ok(Grant {
            outcome: self.outcome()?,
            shape,
            label: self.optional(15)?,
            reason: self.optional(15)?,
            obligations: self.obligations(obligations)?,
            condition: self.condition(level + 1)?,
        })
    }

    fn permit(&mut self) -> Result<Permit, Refusal> {
        let obligations = self.count(7)?;
        let outcome = self.outcome()?;
        let label = self.optional(15)?;
        let facts = self.count(12)?;
        Ok(Permit {
            outcome,
            obligations: self.obligations(obligations)?,
            satisfied: self.facts(facts)?,
            label,
        })
    }

    fn deny(&mut self) -> Result<Deny, Refusal> {
        let shape = self.shape()?;
        let denied = self.optional(16)?.map(Products);
        let label = self.optional(15)?;
        let reason = self.optional(15)?;
        let facts = self.count(12)?;
        Ok(Deny {
            denied,
            unsatisfied: self.facts(facts)?,
            label,
            reason,
            shape,
        })
    }
}
