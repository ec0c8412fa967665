//! Small cases for stored answers and rows.

use super::chains::{self, Chain};
use super::grow::{Alphabet, Grower};
use super::rng::Rng;
use super::{damage, numbers, tables};
use crate::case::{Answer, Call, Case};
use crate::narrow::{Order, known_by_part};
use crate::repeats::repeats;
use crate::words::table::Table;
use crate::words::tree::{Record, Residual};
use crate::words::{read, write};

/// The lead of a Pending record without consulted entries.
const PENDING: u32 = 0xF000_0000;

/// The words that a case is about.
type Words = fn(&mut Rng, &Alphabet, Call) -> Vec<u32>;

/// This many cases of these calls; a call that is listed twice comes twice as often.
pub fn draw(seed: u64, count: usize, calls: &[Call]) -> Vec<Case> {
    let cases = draw_of(seed, count, calls, |rng, alphabet, call| {
        if call.reads_sheet() {
            grown(rng, |rng| Grower::of_sheets(rng, alphabet))
        } else {
            record(rng, alphabet, call)
        }
    });
    numbers::give(seed, cases)
}

/// The same with lists of many arms, which the others have too seldom.
pub fn draw_wide(seed: u64, count: usize, calls: &[Call]) -> Vec<Case> {
    let cases = draw_of(seed, count, calls, |rng, alphabet, call| {
        if call.reads_sheet() {
            write::tree(&Grower::of_sheets(rng, alphabet).wide())
        } else {
            let tree = write::tree(&Grower::of_records(rng, alphabet).wide());
            [&[PENDING], tree.as_slice()].concat()
        }
    });
    numbers::give(seed, cases)
}

/// The same with grants on several facts, which the others have too seldom.
pub fn draw_half_known(seed: u64, count: usize, calls: &[Call]) -> Vec<Case> {
    let cases = draw_of(seed, count, calls, |rng, alphabet, call| {
        if call.reads_sheet() {
            write::tree(&Grower::of_sheets(rng, alphabet).half_known())
        } else {
            let tree = write::tree(&Grower::of_records(rng, alphabet).half_known());
            [&[PENDING], tree.as_slice()].concat()
        }
    });
    numbers::give(seed, cases)
}

/// The same with lists in lists, for which the two orders differ most, and with records of chains in either order and in both.
pub fn draw_layered(seed: u64, count: usize, calls: &[Call]) -> Vec<Case> {
    let cases = draw_of(seed, count, calls, |rng, alphabet, call| {
        let tree = Grower::of_sheets(rng, alphabet).layered();
        let sheet = write::tree(&tree);
        if call.reads_sheet() {
            return sheet;
        }
        let in_order = rng.pick(&[0, 50, 100]);
        let chain = Chain::over(rng, sheet);
        let mut records = chain.records_by(|| {
            if rng.percent(in_order) {
                Order::SheetOrder
            } else {
                Order::PermitsFirst
            }
        });
        records.swap_remove(rng.below(records.len()))
    });
    numbers::give(seed, cases)
}

/// The same with obligations that repeat, and with joins of such that come to about as many as a node 12 can hold.
pub fn draw_repeating(seed: u64, count: usize, calls: &[Call]) -> Vec<Case> {
    let mut cases = draw_of(seed, count, calls, |rng, alphabet, call| {
        let alphabet = alphabet.repeating();
        if call.reads_sheet() {
            return write::tree(&repeating(rng, |rng| Grower::of_sheets(rng, &alphabet)));
        }
        if rng.percent(30) {
            return staged(rng, &alphabet, call.order());
        }
        let tree = write::tree(&repeating(rng, |rng| Grower::of_records(rng, &alphabet)));
        [&[PENDING], tree.as_slice()].concat()
    });
    let mut rng = Rng::new(seed);
    for case in &mut cases {
        if let Ok(Answer::Record(record)) = case.answer()
            && rng.percent(20)
        {
            case.room = around(&mut rng, record.len());
        }
    }
    numbers::give(seed, cases)
}

/// The same with entries of which many are silent, and with tables that end before some of the facts.
pub fn draw_silent(seed: u64, count: usize, calls: &[Call]) -> Vec<Case> {
    let mut cases = draw_of(seed, count, calls, |rng, alphabet, call| {
        let alphabet = alphabet.silent();
        if call.reads_sheet() {
            return grown(rng, |rng| Grower::of_sheets(rng, &alphabet));
        }
        if rng.percent(30) {
            return staged(rng, &alphabet, call.order());
        }
        let words = size(rng);
        write::record(&Grower::of_records(rng, &alphabet).record(words))
    });
    let mut rng = Rng::new(seed);
    for case in &mut cases {
        if rng.percent(60) {
            case.table.truncate(rng.below(case.table.len() + 1));
        }
    }
    numbers::give(seed, cases)
}

/// Whether an accepted reduction or narrowing has a grant that is known, though its condition names an Unknown fact.
pub fn is_half_known(case: &Case) -> bool {
    let words = match case.call {
        Call::PartialEvaluate | Call::PartialEvaluateInOrder => {
            [&[PENDING], case.words.as_slice()].concat()
        }
        Call::NarrowResidual | Call::NarrowResidualInOrder => case.words.clone(),
        _ => return false,
    };
    let (Ok(Record::Pending { residual, .. }), Ok(table)) =
        (read::record(&words), Table::partial(&case.table))
    else {
        return false;
    };
    known_by_part(&residual, &table) && case.answer().is_ok()
}

/// Cases under number 0.
fn draw_of(seed: u64, count: usize, calls: &[Call], words: Words) -> Vec<Case> {
    let mut rng = Rng::new(seed);
    (0..count)
        .map(|_| {
            let call = rng.pick(calls);
            case(&mut rng, call, words)
        })
        .collect()
}

fn case(rng: &mut Rng, call: Call, words: Words) -> Case {
    let alphabet = Alphabet::draw(rng);
    let mut words = words(rng, &alphabet, call);
    if rng.percent(20) {
        damage::damage(rng, &mut words);
    }
    let mut case = Case {
        call,
        table: Vec::new(),
        words,
        number: 0,
        room: 0,
    };
    if call.writes() {
        case.table = table(rng, &alphabet, call);
        case.room = chains::room(case.words.len());
        if rng.percent(20) {
            case.room = tight(rng, &case);
        }
    }
    case
}

/// A record that a chain of reductions and narrowings in the call's order wrote, or one written by hand.
pub(super) fn record(rng: &mut Rng, alphabet: &Alphabet, call: Call) -> Vec<u32> {
    let words = size(rng);
    match rng.below(100) {
        0..=29 => staged(rng, alphabet, call.order()),
        30..=69 => {
            let tree = grown(rng, |rng| Grower::of_records(rng, alphabet));
            [&[PENDING], tree.as_slice()].concat()
        }
        _ => write::record(&Grower::of_records(rng, alphabet).record(words)),
    }
}

/// A record of some stage of a chain, seldom a Resolved one if there are others.
fn staged(rng: &mut Rng, alphabet: &Alphabet, order: Order) -> Vec<u32> {
    let tree = if rng.percent(50) {
        Grower::of_sheets(rng, alphabet).mixed()
    } else {
        let words = size(rng);
        Grower::of_sheets(rng, alphabet).tree(words, 1)
    };
    let mut records = Chain::over(rng, write::tree(&tree)).records(order);
    let pending = |record: &Vec<u32>| record[0] >= PENDING;
    if records.iter().any(pending) && rng.percent(80) {
        records.retain(pending);
    }
    records.swap_remove(rng.below(records.len()))
}

/// The words of a tree: most of them small, some at the limits of levels and obligations.
pub(super) fn grown<'a>(
    rng: &'a mut Rng,
    grower: impl FnOnce(&'a mut Rng) -> Grower<'a>,
) -> Vec<u32> {
    let kind = rng.below(100);
    let words = size(rng);
    let nodes = rng.between(31, 33);
    let obligations = rng.between(63, 66);
    let mut grower = grower(rng);
    write::tree(&match kind {
        0..=3 => grower.tall(nodes),
        4 | 5 => grower.bulky(obligations),
        6..=8 => grower.repeating(),
        9..=49 => grower.mixed(),
        _ => grower.tree(words, 1),
    })
}

/// A tree over an alphabet of obligations that repeat.
fn repeating<'a>(rng: &'a mut Rng, grower: impl FnOnce(&'a mut Rng) -> Grower<'a>) -> Residual {
    let kind = rng.below(10);
    let words = size(rng);
    let mut grower = grower(rng);
    match kind {
        0..=3 => grower.uniting(),
        4 => grower.repeating(),
        5 => grower.layered(),
        6 => grower.wide(),
        7 | 8 => grower.mixed(),
        _ => grower.tree(words, 1),
    }
}

/// How many words a tree may have.
fn size(rng: &mut Rng) -> usize {
    match rng.below(20) {
        0..=2 => rng.between(1, 6),
        3..=13 => rng.between(7, 25),
        14..=18 => rng.between(26, 45),
        _ => rng.between(80, 120),
    }
}

pub(super) fn table(rng: &mut Rng, alphabet: &Alphabet, call: Call) -> Vec<u8> {
    let mut table = tables::draw(rng, &alphabet.facts, call.allows_unknown());
    if rng.percent(5) {
        tables::spoil(rng, &mut table);
    }
    table
}

/// An output that the record just fits, just doesn't, or doesn't by far.
pub(super) fn tight(rng: &mut Rng, case: &Case) -> usize {
    match case.answer() {
        Ok(Answer::Record(record)) if !repeats(case) => around(rng, record.len()),
        // Words with an obligation twice were refused when answers were first stored. One draw for them, as for all that is refused, leaves the cases
        // after them as they were.
        _ => rng.below(4),
    }
}

/// Room around so many words, or far less.
fn around(rng: &mut Rng, words: usize) -> usize {
    let less = rng.below(words);
    rng.pick(&[words, words, words - 1, words - 1, less, 0])
}
