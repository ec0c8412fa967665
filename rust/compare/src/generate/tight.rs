//! Sheets and records to be packed, and tight forms to be unpacked: whole ones and damaged ones.

use super::damage::damage;
use super::grow::{Alphabet, Grower};
use super::rng::Rng;
use crate::products::Products;
use crate::tight::{self, Kind, Packing, TIGHT_BYTES, Unpacking};
use crate::words::tree::{Entry, Record, Residual, Seen};
use crate::words::{RECORD_WORDS, SHEET_WORDS, write};

/// A tree that is to be packed: a sheet's, which may be too long or too deep for one, or a record with the number of its sheet.
pub enum Grown {
    /// A sheet's.
    Sheet(Residual),
    /// A record.
    Record(u16, Record),
}

impl Grown {
    /// What it is.
    pub const fn kind(&self) -> Kind {
        match self {
            Self::Sheet(_) => Kind::Sheet,
            Self::Record(..) => Kind::Record,
        }
    }

    /// Its words.
    pub fn words(&self) -> Vec<u32> {
        match self {
            Self::Sheet(tree) => write::tree(tree),
            Self::Record(number, record) => write::numbered(*number, write::record(record)),
        }
    }

    /// Its tight form.
    pub fn bytes(&self) -> Vec<u8> {
        match self {
            Self::Sheet(tree) => tight::residual(tree),
            Self::Record(number, record) => tight::record((*number).into(), record),
        }
    }
}

/// Words to be packed, one in four damaged.
pub fn packings(seed: u64, count: usize) -> impl Iterator<Item = Packing> {
    let mut rng = Rng::new(seed);
    (0..count).map(move |_| packing(&mut rng))
}

/// Tight forms to be unpacked, about half of them damaged.
pub fn unpackings(seed: u64, count: usize) -> impl Iterator<Item = Unpacking> {
    let mut rng = Rng::new(seed);
    (0..count).map(move |_| unpacking(&mut rng))
}

fn packing(rng: &mut Rng) -> Packing {
    let grown = grown(rng);
    let mut words = grown.words();
    if rng.percent(25) {
        damage(rng, &mut words);
    }
    let room = room(rng, grown.bytes().len());
    Packing {
        kind: kind(rng, grown.kind()),
        words,
        room,
    }
}

fn unpacking(rng: &mut Rng) -> Unpacking {
    if rng.percent(10) {
        return Unpacking {
            kind: rng.pick(&Kind::ALL),
            bytes: scattered(rng),
            room: rng.pick(&[0, 1, 2, 8, 8]),
        };
    }
    let grown = grown(rng);
    let mut bytes = grown.bytes();
    if rng.percent(45) {
        spoil(rng, &mut bytes);
    }
    let room = room(rng, grown.words().len());
    Unpacking {
        kind: kind(rng, grown.kind()),
        bytes,
        room,
    }
}

/// What it is, or seldom the other.
fn kind(rng: &mut Rng, kind: Kind) -> Kind {
    if rng.percent(2) {
        rng.pick(&Kind::ALL)
    } else {
        kind
    }
}

/// A tree: most of them small, some at the limits of words, levels and obligations.
pub fn grown(rng: &mut Rng) -> Grown {
    let alphabet = alphabet(rng);
    let long = rng.below(2_000) == 0;
    if rng.percent(50) {
        let tree = if long {
            let words = rng.between(SHEET_WORDS - 1, SHEET_WORDS + 1);
            Grower::of_sheets(rng, &alphabet).exactly(words)
        } else {
            tree(rng, |rng| Grower::of_sheets(rng, &alphabet))
        };
        return Grown::Sheet(tree);
    }
    let number = number(rng, 16);
    if long {
        let words = rng.between(RECORD_WORDS - 2, RECORD_WORDS);
        let record = Record::Pending {
            consulted: Vec::new(),
            residual: Grower::of_records(rng, &alphabet).exactly(words),
        };
        return Grown::Record(number, record);
    }
    let words = size(rng);
    let mut record = Grower::of_records(rng, &alphabet).record(words);
    if let Record::Pending { residual, .. } = &mut record
        && rng.percent(50)
    {
        *residual = tree(rng, |rng| Grower::of_records(rng, &alphabet));
    }
    let (Record::Resolved { consulted, .. } | Record::Pending { consulted, .. }) = &mut record;
    *consulted = entries(rng, &alphabet);
    Grown::Record(number, record)
}

fn tree<'a>(rng: &'a mut Rng, grower: impl FnOnce(&'a mut Rng) -> Grower<'a>) -> Residual {
    let shape = rng.below(100);
    let words = size(rng);
    let nodes = rng.between(31, 33);
    let obligations = rng.between(62, 66);
    let mut grower = grower(rng);
    match shape {
        0..=4 => grower.tall(nodes),
        5..=9 => grower.bulky(obligations),
        10..=19 => grower.uniting(),
        20..=29 => grower.mixed(),
        30..=34 => grower.wide(),
        _ => grower.tree(words, 1),
    }
}

/// Numbers of this width: the ends of their range, one bit alone, and any.
fn number(rng: &mut Rng, width: u32) -> u16 {
    let most = u16::MAX >> (16 - width);
    let [high, low, ..] = rng.word().to_be_bytes();
    match rng.below(4) {
        0 => rng.pick(&[0, most]),
        1 => 1 << rng.below(16) & most,
        _ => u16::from_be_bytes([high, low]) & most,
    }
}

/// A few of each, so that each bit of a field is met.
fn alphabet(rng: &mut Rng) -> Alphabet {
    let mut numbers = |width| -> Vec<u16> {
        let count = rng.between(2, 6);
        (0..count).map(|_| number(rng, width)).collect()
    };
    let obligations = numbers(6).into_iter().map(|number| number.to_be_bytes()[1]);
    Alphabet {
        obligations: obligations.collect::<Vec<u8>>().repeat(2),
        facts: numbers(10),
        outcomes: numbers(16).into_iter().map(Products).collect(),
        names: numbers(15),
        seen: vec![Seen::Absent, Seen::Present, Seen::Unknown, Seen::Silent],
    }
}

fn entries(rng: &mut Rng, alphabet: &Alphabet) -> Vec<Entry> {
    let most = rng.pick(&[0, 1, 4, 4, 40]);
    let count = rng.between(0, most);
    let entry = |_| (rng.pick(&alphabet.facts), rng.pick(&alphabet.seen));
    (0..count).map(entry).collect()
}

/// How many words a tree may have.
fn size(rng: &mut Rng) -> usize {
    match rng.below(10) {
        0..=3 => rng.between(1, 6),
        4..=8 => rng.between(3, 25),
        _ => rng.between(26, 120),
    }
}

/// Mostly enough, and otherwise any room up to the length.
fn room(rng: &mut Rng, length: usize) -> usize {
    if rng.percent(85) {
        length + rng.below(3)
    } else {
        rng.between(length.saturating_sub(2), length)
    }
}

/// A few bytes, most of which begin as a sheet or a record does.
fn scattered(rng: &mut Rng) -> Vec<u8> {
    let length = rng.between(0, 14);
    let mut bytes: Vec<u8> = (0..length).map(|_| byte(rng)).collect();
    if let Some(first) = bytes.first_mut()
        && rng.percent(80)
    {
        *first = *first & 0x0F | rng.pick(&[0x60, 0x70, 0x80, 0x90, 0xA0, 0xB0, 0xE0, 0xF0]);
    }
    bytes
}

/// Any byte, 0 among them more often.
fn byte(rng: &mut Rng) -> u8 {
    let [any, ..] = rng.word().to_be_bytes();
    if rng.percent(30) { 0 } else { any }
}

/// Damages a tight form in one place. What comes of it may still be one.
fn spoil(rng: &mut Rng, bytes: &mut Vec<u8>) {
    let at = rng.below(bytes.len());
    match rng.below(40) {
        0..=9 => bytes[at] ^= 1 << rng.below(8),
        10..=13 => bytes[at] = byte(rng),
        14..=20 => bytes.truncate(at),
        21..=24 => bytes.push(byte(rng)),
        25..=28 => fill(rng, bytes),
        29..=32 => moved(rng, bytes, at),
        33..=35 => {
            let last = bytes.len() - 1;
            bytes[last] |= 1 << rng.below(8);
        }
        36..=38 => bytes[at..].fill_with(|| byte(rng)),
        _ if rng.percent(10) => bytes.resize(TIGHT_BYTES + rng.below(3), byte(rng)),
        _ => bytes.clear(),
    }
}

/// The last byte's filler set to any bits.
fn fill(rng: &mut Rng, bytes: &mut [u8]) {
    let bits = rng.below(8);
    let mask = (1_u8 << bits) - 1;
    let any = byte(rng);
    if let Some(last) = bytes.last_mut() {
        *last = *last & !mask | any & mask;
    }
}

/// From a byte on, every bit one place further, with a bit more before them, or one place back.
fn moved(rng: &mut Rng, bytes: &mut Vec<u8>, at: usize) {
    if rng.percent(50) {
        let mut carried = u8::from(rng.percent(50));
        for byte in &mut bytes[at..] {
            let next = *byte & 1;
            *byte = carried << 7 | *byte >> 1;
            carried = next;
        }
        if carried > 0 {
            bytes.push(0x80);
        }
    } else {
        let mut carried = 0;
        for byte in bytes[at..].iter_mut().rev() {
            let next = *byte >> 7;
            *byte = *byte << 1 | carried;
            carried = next;
        }
    }
}
