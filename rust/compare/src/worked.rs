//! Document 01's worked sheets as cases, both sides of each limit that its case I names, and request 6's numbers.

use crate::case::{Call, Case};
use crate::words::{LEVELS, RECORD_WORDS, SHEET_WORDS, TABLE_BYTES, write};

/// D's sheet: a grant of products 3 to whoever has fact 5.
const D: [u32; 3] = [0x8800_0003, 0, 0x2000_0005];
/// F's record: D's sheet reduced while fact 5 is Unknown.
const F: [u32; 4] = [0xF000_0000, 0x8800_0003, 0, 0x2000_0005];
/// H's sheet: all of a grant with obligation 7 and a permit.
const H: [u32; 6] = [
    0x9000_0002,
    0x8010_0001,
    0,
    0x0700_0000,
    0x2000_0005,
    0x6000_0001,
];
/// H's record, reduced likewise.
const H_PENDING: [u32; 8] = [
    0xF000_0000,
    0x9000_0002,
    0xC000_0001,
    0,
    0x8010_0001,
    0,
    0x0700_0000,
    0x2000_0005,
];
/// Fact 5 Present, and Unknown.
const PRESENT: [u8; 2] = [0x00, 0x10];
const UNKNOWN: [u8; 2] = [0x00, 0x20];
/// Room enough for every record.
const ROOMY: usize = RECORD_WORDS;

/// A to I, and D under numbers.
pub fn cases() -> Vec<Case> {
    [sheets(), outputs(), limits(), records(), numbers()].concat()
}

fn case(call: Call, words: &[u32], table: &[u8], room: usize) -> Case {
    Case {
        call,
        table: table.to_vec(),
        words: words.to_vec(),
        number: 0,
        room,
    }
}

/// A to H.
fn sheets() -> Vec<Case> {
    let evaluated: [(&[u32], &[u8]); 9] = [
        (&[0x6000_0001], &[]),
        (&[0x7000_0000], &[]),
        (&[0x9000_0000], &[]),
        (&[0xA000_0000], &[]),
        (&D, &PRESENT),
        (&D, &[]),
        (&[0x9000_0002, 0x6000_0003, 0x6000_0006], &[]),
        (&[0xA000_0002, 0x6000_0003, 0x6000_0006], &[]),
        (&H, &PRESENT),
    ];
    let mut found: Vec<Case> = evaluated
        .iter()
        .map(|(words, table)| case(Call::Evaluate, words, table, ROOMY))
        .collect();
    found.extend([
        case(Call::PartialEvaluate, &D, &UNKNOWN, ROOMY),
        case(Call::PartialEvaluate, &H, &UNKNOWN, ROOMY),
        case(Call::CompleteResidual, &H_PENDING, &PRESENT, ROOMY),
        case(Call::RequiredFacts, &D, &[], 0),
        case(Call::RequiredFacts, &H, &[], 0),
        case(Call::RequiredResidualFacts, &F, &[], 0),
        case(Call::RequiredResidualFacts, &H_PENDING, &[], 0),
    ]);
    found
}

/// I: outputs that a record just fits, and shorter ones.
fn outputs() -> Vec<Case> {
    let mut found = Vec::new();
    for room in 0..=7 {
        found.push(case(Call::Evaluate, &D, &PRESENT, room));
        found.push(case(Call::Evaluate, &D, &[], room));
        found.push(case(Call::PartialEvaluate, &D, &UNKNOWN, room));
        found.push(case(Call::CompleteResidual, &F, &PRESENT, room));
    }
    found
}

/// I: levels, words and tables.
fn limits() -> Vec<Case> {
    let mut found = Vec::new();
    let sheets = [
        nested(LEVELS),
        nested(LEVELS + 1),
        long(SHEET_WORDS),
        long(SHEET_WORDS + 1),
        naming(SHEET_WORDS),
    ];
    for sheet in sheets {
        found.push(case(Call::Evaluate, &sheet, &[0x55; TABLE_BYTES], ROOMY));
        found.push(case(Call::RequiredFacts, &sheet, &[], 0));
    }
    for bytes in [TABLE_BYTES, TABLE_BYTES + 1] {
        for call in [Call::Evaluate, Call::PartialEvaluate] {
            found.push(case(call, &[0x6000_0001], &vec![0; bytes], ROOMY));
        }
    }
    found
}

/// The same limits of a record's tree, and the length of a record.
fn records() -> Vec<Case> {
    let pending = |tree: Vec<u32>| [vec![0xF000_0000], tree].concat();
    let mut many = [long(SHEET_WORDS - 1), long(SHEET_WORDS), long(SHEET_WORDS)].concat();
    many.splice(0..0, [0xA000_0004]);
    many.extend(long(RECORD_WORDS - 1 - many.len()));
    let mut more = many.clone();
    more.push(0x7000_0000);
    [
        nested(LEVELS),
        nested(LEVELS + 1),
        naming(SHEET_WORDS),
        many,
        more,
    ]
    .map(|tree| case(Call::RequiredResidualFacts, &pending(tree), &[], 0))
    .to_vec()
}

/// Request 6: records with the number of their sheet, and refusals by 16 with what comes before and after it.
fn numbers() -> Vec<Case> {
    let f = &write::numbered(7, F.to_vec());
    let resolved = [0xE000_7001, 0x4005_0000, 0xC000_0003, 1, 0x0005_0000];
    let longer = [f.as_slice(), &[0]].concat();
    let under = |number, case: Case| Case { number, ..case };
    let completes =
        |number, words: &[u32], room| under(number, case(Call::CompleteResidual, words, &[], room));
    vec![
        under(7, case(Call::Evaluate, &[0x6000_0001], &[], ROOMY)),
        under(0xFFFF, case(Call::Evaluate, &[0x6000_0001], &[], ROOMY)),
        under(7, case(Call::Evaluate, &D, &PRESENT, ROOMY)),
        under(7, case(Call::PartialEvaluate, &D, &UNKNOWN, ROOMY)),
        completes(7, f, ROOMY),
        completes(8, f, ROOMY),
        completes(0, f, 0),
        completes(0, &longer, 0),
        completes(7, &resolved, 5),
        completes(7, &resolved, 4),
        completes(0, &resolved, 4),
        case(Call::RequiredResidualFacts, f, &[], 0),
        case(Call::IsPermitConstant, &resolved, &[], 0),
    ]
}

/// Lists within each other, with an empty one at the bottom.
fn nested(levels: usize) -> Vec<u32> {
    let mut sheet = vec![0x9000_0001; levels];
    sheet[levels - 1] = 0x9000_0000;
    sheet
}

/// An Any of Denies.
fn long(words: usize) -> Vec<u32> {
    let mut sheet = vec![0x7000_0000; words];
    sheet[0] = list(0xA000_0000, words - 1);
    sheet
}

/// A grant to whoever has all facts, with as many conditions as a sheet of this length holds.
fn naming(words: usize) -> Vec<u32> {
    let mut sheet: Vec<u32> = (0..1_024)
        .cycle()
        .map(|fact| 0x2000_0000 | fact)
        .take(words)
        .collect();
    sheet[..3].copy_from_slice(&[0x8000_0001, 0, list(0x4000_0000, words - 3)]);
    sheet
}

fn list(kind: u32, arms: usize) -> u32 {
    kind | u32::try_from(arms % 4_096).expect("twelve bits")
}
