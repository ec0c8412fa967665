//! Outcome tables, accepted and damaged, and calls and chains by them.

use std::collections::BTreeSet;

use gatekeep::DenyShape;

use super::cases::{grown, record, table, tight};
use super::chains::{self, Chain};
use super::grow::{Alphabet, Grower};
use super::rng::Rng;
use super::{damage, numbers};
use crate::case::{Call, Case};
use crate::levels::{ByLevels, Given, by_levels, is_outcome};
use crate::products::Products;
use crate::words::tree::{Condition, Grant, Residual, Tree};
use crate::words::write;

/// The most levels.
const MOST: usize = 16;
/// The lead of a Pending record without consulted entries.
const PENDING: u32 = 0xF000_0000;

/// The calls that take a table.
pub const CALLS: [Call; 6] = [
    Call::Evaluate,
    Call::PartialEvaluate,
    Call::NarrowResidual,
    Call::CompleteResidual,
    Call::PartialEvaluateInOrder,
    Call::NarrowResidualInOrder,
];

/// The table of so many levels, a number that 32 bits hold, with these operations.
pub fn table_of(
    count: usize,
    meet: impl Fn(usize, usize) -> usize,
    join: impl Fn(usize, usize) -> usize,
) -> Given {
    let pairs = || (0..count).flat_map(|one| (0..count).map(move |other| (one, other)));
    let meets = pairs().map(|(one, other)| meet(one, other));
    let bytes = meets.chain(pairs().map(|(one, other)| join(one, other)));
    Given {
        count: u32::try_from(count).expect("few levels"),
        bytes: bytes
            .map(|byte| u8::try_from(byte).expect("few levels"))
            .collect(),
    }
}

/// Levels each of which is above those before it.
pub fn chain(count: usize) -> Given {
    table_of(count, usize::min, usize::max)
}

/// The sets of four products, by their bits.
pub fn four_products() -> Given {
    table_of(16, |one, other| one & other, |one, other| one | other)
}

/// The lattice of sets that are closed under intersection, the first of them the greatest: levels are numbered as the sets stand.
pub fn of_sets(sets: &[u32]) -> Given {
    let place = |set: u32| sets.iter().position(|found| *found == set).expect("closed");
    let around = |both: u32| {
        let supersets = sets.iter().filter(|set| *set & both == both);
        supersets.fold(u32::MAX, |all, set| all & set)
    };
    table_of(
        sets.len(),
        |one, other| place(sets[one] & sets[other]),
        |one, other| place(around(sets[one] | sets[other])),
    )
}

/// Three levels between a least and a greatest.
pub fn m3() -> Given {
    of_sets(&[0b111, 0b001, 0b010, 0b100, 0b000])
}

/// Five levels, two of them in a row beside a third one.
pub fn n5() -> Given {
    of_sets(&[0b111, 0b001, 0b011, 0b100, 0b000])
}

/// An accepted table.
pub fn lattice(rng: &mut Rng) -> Given {
    let found = match rng.below(20) {
        0 => m3(),
        1 => n5(),
        2 => chain(rng.between(1, MOST)),
        3 => chain(rng.between(1, 3)),
        4 => four_products(),
        _ => of_sets(&closed(rng)),
    };
    let turned = if rng.percent(50) { dual(&found) } else { found };
    relabelled(rng, &turned)
}

/// Sets closed under intersection, with one that holds all of them.
fn closed(rng: &mut Rng) -> Vec<u32> {
    let all = (1 << rng.between(2, 6)) - 1;
    let mut sets = BTreeSet::from([all]);
    for _ in 0..rng.between(2, 9) {
        let set = rng.word() & all;
        let with = sets.iter().map(|found| found & set);
        let more: BTreeSet<u32> = with.chain(sets.iter().copied()).collect();
        if more.len() <= MOST {
            sets = more;
        }
    }
    sets.into_iter().rev().collect()
}

/// Meets for joins.
fn dual(table: &Given) -> Given {
    let (meets, joins) = table.bytes.split_at(table.bytes.len() / 2);
    Given {
        bytes: [joins, meets].concat(),
        ..table.clone()
    }
}

/// The same levels, numbered otherwise.
fn relabelled(rng: &mut Rng, table: &Given) -> Given {
    let count = table.count as usize;
    let levels: Vec<usize> = (0..count).collect();
    let names = rng.choose(&levels, count);
    let place = |name: usize| names.iter().position(|found| *found == name).expect("all");
    let byte = |at: usize| names[usize::from(table.bytes[at])];
    table_of(
        count,
        |one, other| byte(place(one) * count + place(other)),
        |one, other| byte(count * count + place(one) * count + place(other)),
    )
}

/// A table with a byte, the length or the count damaged; or two bytes, so that a damaged operation still commutes; or a whole one of a level too many.
pub fn damaged(rng: &mut Rng, table: &Given) -> Given {
    let Given { count, mut bytes } = table.clone();
    let levels = count as usize;
    let (one, other) = (rng.below(levels), rng.below(levels));
    let half = rng.pick(&[0, levels * levels]);
    let level = u8::try_from(rng.below(levels)).expect("few levels");
    let mut counts = count;
    match rng.below(13) {
        0..=2 => bytes[half + one * levels + other] = level,
        3..=5 => {
            bytes[half + one * levels + other] = level;
            bytes[half + other * levels + one] = level;
        }
        6 => {
            let beyond = u8::try_from(levels).expect("few levels");
            bytes[half + one * levels + other] = rng.pick(&[beyond, beyond + 1, 0x10, 0xFF]);
        }
        7 => {
            bytes.pop();
        }
        8 => bytes.push(level),
        9 => bytes = [&bytes[half..half + levels * levels]; 2].concat(),
        10 => bytes.truncate(rng.below(bytes.len())),
        11 => return chain(MOST + 1),
        _ => {
            let others = [
                0,
                1,
                16,
                17,
                count + 1,
                count - 1,
                count | 0x1_0000,
                u32::MAX,
            ];
            counts = rng.pick(&others);
        }
    }
    Given {
        count: counts,
        bytes,
    }
}

/// An alphabet of a few levels; with one that is none, if so.
pub(super) fn alphabet_of(rng: &mut Rng, count: u32, beyond: bool) -> Alphabet {
    let drawn = Alphabet::draw(rng);
    let levels = u16::try_from(count).expect("few levels");
    let mut outcomes: Vec<_> = (0..rng.between(2, 5)).map(|_| rng.small(levels)).collect();
    if beyond {
        outcomes.push(rng.pick(&[levels, levels + 1, 0x10, 0xFFFF]));
    }
    Alphabet {
        outcomes: outcomes.into_iter().map(Products).collect(),
        ..drawn
    }
}

/// This many calls by tables, of which some are damaged; of three in a hundred the words may have an outcome that is no level.
pub fn draw(seed: u64, count: usize) -> Vec<ByLevels> {
    let mut rng = Rng::new(seed);
    let drawn = (0..count).map(|_| one(&mut rng));
    let (levels, cases): (Vec<Given>, Vec<Case>) = drawn.unzip();
    let cases = numbers::give(seed, cases);
    let both = levels.into_iter().zip(cases);
    both.map(|(levels, case)| ByLevels { levels, case })
        .collect()
}

fn one(rng: &mut Rng) -> (Given, Case) {
    let levels = lattice(rng);
    let call = rng.pick(&CALLS);
    let beyond = rng.percent(3);
    let alphabet = alphabet_of(rng, levels.count, beyond);
    let case = by_levels(&levels, || case(rng, &alphabet, call)).expect("an accepted table");
    if rng.percent(4) {
        (damaged(rng, &levels), case)
    } else {
        (levels, case)
    }
}

fn case(rng: &mut Rng, alphabet: &Alphabet, call: Call) -> Case {
    let mut words = if call.reads_sheet() {
        sheet(rng, alphabet)
    } else if rng.percent(40) {
        let tree = write::tree(&folds(rng, alphabet, 2));
        [&[PENDING], tree.as_slice()].concat()
    } else if alphabet
        .outcomes
        .iter()
        .all(|outcome| is_outcome(outcome.0))
    {
        record(rng, alphabet, call)
    } else {
        // No chain goes by outcomes that are no levels, but a record may have them.
        let words = rng.between(3, 40);
        write::record(&Grower::of_records(rng, alphabet).record(words))
    };
    if rng.percent(15) {
        damage::damage(rng, &mut words);
    }
    let mut case = Case {
        call,
        table: table(rng, alphabet, call),
        room: chains::room(words.len()),
        words,
        number: 0,
    };
    if rng.percent(15) {
        case.room = tight(rng, &case);
    }
    case
}

fn sheet(rng: &mut Rng, alphabet: &Alphabet) -> Vec<u32> {
    let kind = rng.below(10);
    if kind > 7 {
        return grown(rng, |rng| Grower::of_sheets(rng, alphabet));
    }
    if kind > 3 {
        return write::tree(&folds(rng, alphabet, 2));
    }
    let mut grower = Grower::of_sheets(rng, alphabet);
    write::tree(&match kind {
        0 | 1 => grower.wide(),
        2 => grower.half_known(),
        _ => grower.layered(),
    })
}

/// Lists of permits and of grants that permit most of the time, so that most of what is there is folded.
fn folds(rng: &mut Rng, alphabet: &Alphabet, below: usize) -> Residual {
    let count = rng.between(1, 4);
    let arms = (0..count).map(|_| match rng.below(10) {
        0..=2 if below > 0 => folds(rng, alphabet, below - 1),
        0..=5 => Tree::Permit(rng.pick(&alphabet.outcomes)),
        _ => Tree::Grant(Grant {
            outcome: rng.pick(&alphabet.outcomes),
            shape: DenyShape::Forbidden,
            label: rng.percent(50).then(|| rng.pick(&alphabet.names)),
            reason: None,
            obligations: {
                let count = rng.between(0, 3);
                rng.choose(&alphabet.obligations, count)
            },
            condition: match rng.below(6) {
                0 | 1 => Condition::Always,
                2 => Condition::Has(rng.pick(&alphabet.facts)),
                _ => Condition::Not(Box::new(Condition::Never)),
            },
        }),
    });
    let arms = arms.collect();
    if rng.percent(50) {
        Tree::All(arms)
    } else {
        Tree::Any(arms)
    }
}

/// An accepted table, and a chain by it: its sheet has levels alone.
pub fn chain_by(rng: &mut Rng) -> (Given, Chain) {
    let levels = lattice(rng);
    let alphabet = alphabet_of(rng, levels.count, false);
    let sheet = sheet_of_chain(rng, &alphabet);
    let chain = Chain::over(rng, sheet).under(rng.pick(&numbers::SHEETS));
    (levels, chain)
}

fn sheet_of_chain(rng: &mut Rng, alphabet: &Alphabet) -> Vec<u32> {
    let words = rng.between(1, 60);
    let kind = rng.below(8);
    if kind > 5 {
        return write::tree(&folds(rng, alphabet, 2));
    }
    let mut grower = Grower::of_sheets(rng, alphabet);
    write::tree(&match kind {
        0 => grower.wide(),
        1 => grower.mixed(),
        2 | 3 => grower.layered(),
        _ => grower.tree(words, 1),
    })
}
