//! What is timed: document 01's case D, sheets at its limits, and sheets that grow.

use compare::generate::grow::{Alphabet, Grower};
use compare::generate::rng::Rng;
use compare::products::Products;
use compare::words::{LEVELS, LIST, SHEET_WORDS, TABLE_BYTES, write};

/// Half of the facts Present.
const HALF: u8 = 0x44;

/// A sheet and a known table.
pub struct Sheet {
    pub name: String,
    pub words: Vec<u32>,
    pub table: Vec<u8>,
}

impl Sheet {
    fn new(name: &dyn ToString, words: Vec<u32>) -> Self {
        Self {
            name: name.to_string(),
            words,
            table: vec![HALF; TABLE_BYTES],
        }
    }

    /// The table with one Absent fact of each byte Unknown; case D's, with its fact Unknown.
    pub fn partial(&self) -> Vec<u8> {
        let unknown = |byte: &u8| match byte {
            0x10 => 0x20,
            _ => byte | 0x20,
        };
        self.table.iter().map(unknown).collect()
    }

    /// The share of one word in a time.
    pub fn a_word(&self, time: f64) -> f64 {
        let words = u32::try_from(self.words.len()).expect("few words");
        time / f64::from(words)
    }
}

/// One of each kind.
pub fn cases() -> Vec<Sheet> {
    let mut cases = vec![
        Sheet {
            table: vec![0x00, 0x10],
            ..Sheet::new(&"D", vec![0x8800_0003, 0, 0x2000_0005])
        },
        hundred_grants(),
        Sheet::new(&"4,096 words", mixed(SHEET_WORDS)),
        Sheet::new(&"32 levels", levels(LEVELS)),
        Sheet::new(&"All of 4,095", permits(LIST)),
        Sheet::new(&"4 obligations", obliging(1_023, 4)),
        Sheet::new(&"64 obligations", obliging(215, 64)),
    ];
    cases.extend(tables());
    cases
}

/// The sheet that the bar for batches is set for.
pub fn hundred_grants() -> Sheet {
    Sheet::new(&"100 grants", grants(100))
}

/// Grants on fact 0, which is Present; the table has a byte, and the most bytes.
fn tables() -> [Sheet; 2] {
    [1, TABLE_BYTES].map(|bytes| Sheet {
        table: vec![HALF; bytes],
        ..Sheet::new(&format!("1,365 by {bytes}"), on_one_fact())
    })
}

/// An Any of as many grants as fit, all on fact 0.
pub fn on_one_fact() -> Vec<u32> {
    let mut words = vec![list(0xA000_0000, 1_365)];
    words.extend([0x8000_0001, 0, 0x2000_0000].repeat(1_365));
    words
}

/// A table with fact 0 Present, and the others as four fields of this byte say.
pub fn with_fact_0(bytes: usize, others: u8) -> Vec<u8> {
    let mut table = vec![others; bytes];
    table[0] = 0x40 | others & 0x3F;
    table
}

/// Sheets of grants, from 16 words to the most.
pub fn lengths() -> Vec<Sheet> {
    let lengths = [16, 64, 256, 1_024, SHEET_WORDS];
    lengths
        .map(|words| Sheet::new(&words, grants((words - 1) / 3)))
        .into()
}

/// Sheets from one level to the most.
pub fn depths() -> Vec<Sheet> {
    [1, 2, 4, 8, 16, LEVELS]
        .map(|nodes| Sheet::new(&nodes, levels(nodes)))
        .into()
}

/// An Any of grants, each on a fact of its own as far as facts go: every arm is read.
fn grants(count: usize) -> Vec<u32> {
    let mut words = vec![list(0xA000_0000, count)];
    for fact in (0..1_024).cycle().take(count) {
        words.extend([0x8000_0000 | 1 << (fact % 16), 0, 0x2000_0000 | fact]);
    }
    words
}

/// An Any of grants of the same products, each with this many obligations: all of them are joined.
fn obliging(count: usize, obligations: usize) -> Vec<u32> {
    let mut words = vec![list(0xA000_0000, count)];
    let lead = list(0x0000_0800, obligations) << 20 | 1;
    for first in (0_u8..64).cycle().step_by(3).take(count) {
        words.extend([lead, 0]);
        let numbers = (0_u8..64).cycle().skip(first.into()).take(obligations);
        let numbers: Vec<u8> = numbers.collect();
        let (fours, _) = numbers.as_chunks();
        words.extend(fours.iter().copied().map(u32::from_be_bytes));
        words.push(0);
    }
    words
}

/// An Any of generated trees, of every kind of node.
fn mixed(words: usize) -> Vec<u32> {
    mixed_of(words, |alphabet| alphabet)
}

/// The same of as many words as there may be, with outcomes below 16.
pub fn of_levels() -> Vec<u32> {
    mixed_of(SHEET_WORDS, |alphabet| Alphabet {
        outcomes: (0..16).map(Products).collect(),
        ..alphabet
    })
}

fn mixed_of(words: usize, with: impl Fn(Alphabet) -> Alphabet) -> Vec<u32> {
    let mut rng = Rng::new(1);
    loop {
        let alphabet = with(Alphabet::wide(&mut rng));
        let sheet = write::tree(&Grower::of_sheets(&mut rng, &alphabet).exactly(words));
        if sheet[0] >> 28 == 0xA {
            return sheet;
        }
    }
}

/// Lists within each other, of a permit and the next one.
fn levels(nodes: usize) -> Vec<u32> {
    let mut words = [0x9000_0002, 0x6000_FFFF].repeat(nodes - 1);
    words.push(0x6000_0003);
    words
}

/// An All of permits.
fn permits(arms: usize) -> Vec<u32> {
    let mut words = vec![0x6000_0003; arms + 1];
    words[0] = list(0x9000_0000, arms);
    words
}

fn list(kind: u32, arms: usize) -> u32 {
    kind | u32::try_from(arms).expect("a list's length")
}
