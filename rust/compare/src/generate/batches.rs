//! Batches of requests: a few sheets, faulty ones among them and numbers twice, allowances and rooms around what the requests take together.

use super::cases::grown;
use super::grow::{Alphabet, Grower};
use super::levels::{alphabet_of, damaged, lattice};
use super::rng::Rng;
use super::{damage, tables};
use crate::batch::{Batch, MOST, REQUEST_WORDS};
use crate::words::{SHEET_WORDS, TABLE_BYTES, write};

/// Few numbers, so that a list has one of them twice and lacks another, and the ends of their range.
const NUMBERS: [u16; 4] = [0, 7, 9, u16::MAX];
/// Few groups; no entry is of the last.
const GROUPS: [u32; 5] = [0, 1, 2, 255, 9];
/// Effective days: most sheets are in force from the first on.
const DAYS: [u32; 5] = [0, 0, 0, 10, 100];
/// The bit that withdraws an entry.
const WITHDRAWN: u32 = 1 << 23;
/// The lengths of tables at which something ends, and the greatest that there is a field for.
const LENGTHS: [usize; 6] = [0, 1, 255, 256, 257, (1 << 24) - 1];

/// Batches from a seed, of which about one in ten is turned back.
pub fn draw(seed: u64, count: usize) -> impl Iterator<Item = Batch> {
    let mut rng = Rng::new(seed);
    (0..count).map(move |_| batch(&mut rng))
}

fn batch(rng: &mut Rng) -> Batch {
    let levels = rng.percent(30).then(|| lattice(rng));
    let beyond = rng.percent(5);
    let alphabet = match &levels {
        Some(levels) => alphabet_of(rng, levels.count, beyond),
        None => Alphabet::draw(rng),
    };
    let count = match rng.below(100) {
        0..3 => 0,
        3 => MOST,
        4 => MOST + 1,
        5..15 => rng.between(8, 20),
        _ => rng.between(1, 7),
    };
    let mut batch = Batch {
        levels,
        register: register(rng),
        sheets: sheets(rng, &alphabet),
        requests: (0..count).flat_map(|_| request(rng, &alphabet)).collect(),
        allowance: 0xFFFF,
        places: count + rng.below(3),
        room: usize::MAX,
    };
    bound(rng, &mut batch);
    if rng.percent(10) {
        spoil(rng, &mut batch);
    }
    if rng.percent(3) {
        batch.levels = batch.levels.map(|levels| damaged(rng, &levels));
    }
    batch
}

fn register(rng: &mut Rng) -> Vec<u32> {
    let mut entries: Vec<[u32; 2]> = Vec::new();
    for _ in 0..rng.between(4, 20) {
        let lead = rng.pick(&GROUPS[..4]) << 24 | u32::from(rng.pick(&NUMBERS));
        let withdrawn = if rng.percent(10) { WITHDRAWN } else { 0 };
        if entries.iter().all(|[other, _]| other & !WITHDRAWN != lead) {
            entries.push([lead | withdrawn, rng.pick(&DAYS)]);
        }
    }
    entries.concat()
}

fn sheets(rng: &mut Rng, alphabet: &Alphabet) -> Vec<u32> {
    let mut list = Vec::new();
    for _ in 0..rng.pick(&[0, 1, 3, 4, 6, 6, 8, 8]) {
        let sheet = sheet(rng, alphabet);
        let count = u32::try_from(sheet.len()).expect("few words");
        list.push(u32::from(rng.pick(&NUMBERS)) << 16 | count);
        list.extend(sheet);
    }
    list
}

fn sheet(rng: &mut Rng, alphabet: &Alphabet) -> Vec<u32> {
    let kind = rng.below(200);
    let arms = rng.between(0, 12);
    let longest = rng.between(SHEET_WORDS - 1, SHEET_WORDS);
    let mut words = match kind {
        0..4 => Vec::new(),
        4 => vec![0x7000_0000; SHEET_WORDS + 1],
        5 => write::tree(&Grower::of_sheets(rng, alphabet).exactly(longest)),
        6..30 => write::tree(&Grower::of_sheets(rng, alphabet).flat(arms)),
        _ => grown(rng, |rng| Grower::of_sheets(rng, alphabet)),
    };
    if rng.percent(15) && !words.is_empty() {
        damage::damage(rng, &mut words);
    }
    words
}

fn request(rng: &mut Rng, alphabet: &Alphabet) -> [u32; REQUEST_WORDS] {
    let mut table = tables::draw(rng, &alphabet.facts, false);
    if rng.percent(8) {
        tables::spoil(rng, &mut table);
    }
    let length = if rng.percent(15) {
        rng.pick(&LENGTHS)
    } else {
        table.len()
    };
    // Up to its length the table is known; what follows may be anything.
    table.resize(length.min(TABLE_BYTES), 0x41);
    let rest = if rng.percent(50) { rng.word() } else { 0 };
    let mut bytes = table
        .iter()
        .copied()
        .chain(rest.to_be_bytes().into_iter().cycle());
    let mut words = [0; REQUEST_WORDS];
    let length = u32::try_from(length).expect("24 bits");
    words[0] = rng.pick(&GROUPS) << 24 | length;
    words[1] = rng.pick(&[0, 9, 10, 11, 100, 101, u32::MAX]);
    for word in &mut words[2..] {
        *word = u32::from_be_bytes([(); 4].map(|()| bytes.next().expect("endless")));
    }
    words
}

/// An allowance and a room around what some of the requests take together.
fn bound(rng: &mut Rng, batch: &mut Batch) {
    let replies = batch.answer().unwrap_or_default();
    let mut nodes = vec![0];
    let mut words = vec![0];
    for reply in &replies {
        let single = rng.percent(30);
        let before = |sums: &[usize]| if single { 0 } else { sums[sums.len() - 1] };
        nodes.push(before(&nodes) + reply.nodes());
        words.push(before(&words) + reply.record().len());
    }
    let most: usize = replies.iter().map(|reply| reply.record().len()).sum();
    batch.room = match rng.below(10) {
        0..6 => most + rng.below(9),
        _ => around(rng, &words),
    };
    batch.allowance = match rng.below(10) {
        0..4 => 0xFFFF,
        _ => u32::try_from(around(rng, &nodes))
            .expect("few nodes")
            .min(0xFFFF),
    };
}

/// One of these numbers, or one beside it.
fn around(rng: &mut Rng, sums: &[usize]) -> usize {
    let sum = rng.pick(sums);
    rng.pick(&[sum, sum, sum + 1, sum.saturating_sub(1)])
}

/// One cause or two for which a batch is turned back.
fn spoil(rng: &mut Rng, batch: &mut Batch) {
    for _ in 0..rng.between(1, 2) {
        match rng.below(7) {
            0 => {
                let words = batch.requests.len();
                let other = rng.pick(&[1, 65, words.saturating_sub(1), words + 1]);
                batch.requests.resize(other, 0);
            }
            1 => batch.allowance = rng.pick(&[0x1_0000, 0x1_0001, u32::MAX]),
            2 => {
                batch.register.pop();
            }
            3 => {
                let again = batch.register.first().copied().unwrap_or(1 << 16);
                batch.register.extend([again ^ WITHDRAWN, 5]);
            }
            4 => batch.sheets.push(u32::from(rng.pick(&NUMBERS)) << 16 | 1),
            5 => {
                let words = batch.sheets.len();
                batch.sheets.truncate(rng.below(words + 1));
            }
            _ => batch.places = (batch.requests.len() / REQUEST_WORDS).saturating_sub(1),
        }
    }
}
