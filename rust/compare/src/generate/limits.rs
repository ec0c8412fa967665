//! Cases on both sides of each limit.

use gatekeep::DenyShape;

use super::grow::{Alphabet, Grower};
use super::rng::Rng;
use crate::case::{Answer, Call, Case};
use crate::products::Products;
use crate::words::table::pack;
use crate::words::tree::{
    Condition, Decided, Deny, Entry, Grant, Permit, Record, Residual, Seen, Tree,
};
use crate::words::write;
use crate::words::{
    FACTS, GRANT_OBLIGATIONS, LEVELS, LIST, OBLIGATIONS, RECORD_WORDS, SHEET_WORDS, TABLE_BYTES,
    TRACE_OBLIGATIONS,
};

/// Each call on inputs at the limits, with outputs that fit their record and outputs that don't.
pub fn cases(rng: &mut Rng) -> Vec<Case> {
    let (sheets, records) = (sheets(rng), records(rng));
    let mut found = Vec::new();
    for call in Call::ALL {
        let inputs = if call.reads_sheet() {
            &sheets
        } else {
            &records
        };
        for words in inputs {
            if call.writes() {
                found.extend(written(rng, call, words));
            } else {
                found.push(case(call, &[], words, 0));
            }
        }
    }
    found
}

/// Sheets of many words, arms, facts, levels and obligations.
pub fn sheets(rng: &mut Rng) -> Vec<Vec<u32>> {
    let alphabet = Alphabet::wide(rng);
    let mut trees = Vec::new();
    for words in SHEET_WORDS - 1..=SHEET_WORDS + 1 {
        trees.push(Grower::of_sheets(rng, &alphabet).exactly(words));
        trees.push(Grower::of_sheets(rng, &alphabet).flat(words - 1));
        trees.push(naming(rng, words - 3));
    }
    for nodes in LEVELS - 1..=LEVELS + 2 {
        trees.extend((0..4).map(|_| Grower::of_sheets(rng, &alphabet).tall(nodes)));
    }
    for obligations in GRANT_OBLIGATIONS - 1..=GRANT_OBLIGATIONS + 1 {
        trees.push(Grower::of_sheets(rng, &alphabet).bulky(obligations));
        trees.push(grant(Condition::Always, vec![ONE; obligations]));
    }
    trees.push(most_obliging());
    trees.extend([deep(4_000, &[]), deep(3_900, &[waiting()])]);
    let mut found: Vec<Vec<u32>> = trees.iter().map(write::tree).collect();
    found.extend([denying(SHEET_WORDS), Vec::new()]);
    found
}

/// Records of many words, arms, facts, levels, obligations and consulted entries, and such as a
/// narrowing or a completion takes over a limit.
pub fn records(rng: &mut Rng) -> Vec<Vec<u32>> {
    let alphabet = Alphabet::wide(rng);
    let mut records = Vec::new();
    for words in RECORD_WORDS - 1..=RECORD_WORDS + 1 {
        let tree = Grower::of_records(rng, &alphabet).exactly(words - 1);
        records.push(pending(tree));
        records.push(growing(words));
        records.push(growing_in_order(words));
    }
    for nodes in LEVELS - 1..=LEVELS + 2 {
        records.push(pending(Grower::of_records(rng, &alphabet).tall(nodes)));
    }
    for obligations in GRANT_OBLIGATIONS - 1..=GRANT_OBLIGATIONS + 1 {
        let tree = Grower::of_records(rng, &alphabet).bulky(obligations);
        records.push(pending(tree));
    }
    for obligations in TRACE_OBLIGATIONS - 1..=TRACE_OBLIGATIONS + 1 {
        records.push(Record::Resolved {
            consulted: Vec::new(),
            decided: obliging((0..OBLIGATIONS).cycle().take(obligations).collect()),
        });
    }
    records.extend(unions().into_iter().map(pending));
    for facts in LIST - 1..=LIST + 2 {
        records.push(pending(naming(rng, facts)));
    }
    for length in LIST - 1..=LIST {
        records.push(pending(Grower::of_records(rng, &alphabet).flat(length)));
        records.push(listed(rng, length));
        records.push(Record::Pending {
            consulted: consulted(rng, length),
            residual: naming(rng, length),
        });
    }
    records.extend([
        deep_stored(LEVELS - 1, &[]),
        deep_stored(LEVELS - 2, &[waiting()]),
    ]);
    let mut found: Vec<Vec<u32>> = records.iter().map(write::record).collect();
    found.extend([Vec::new(), vec![0xE000_0000], vec![0xF000_0000]]);
    found
}

/// Tables around the longest, the empty one, one that is all Present, and one that leaves fact 0 open, if a table may.
pub fn tables(rng: &mut Rng, unknown: bool) -> Vec<Vec<u8>> {
    let readings: &[u8] = if unknown { &[0, 1, 2] } else { &[0, 1] };
    let mut found = vec![Vec::new(), vec![0x55; TABLE_BYTES]];
    if unknown {
        found.push(vec![0x80]);
    }
    for bytes in TABLE_BYTES - 1..=TABLE_BYTES + 1 {
        let fields: Vec<u8> = (0..4 * bytes).map(|_| rng.pick(readings)).collect();
        found.push(pack(&fields));
    }
    found
}

/// A record whose narrowing, while fact 0 is Unknown, has this many words: each of its permits
/// takes a word, and two once it is resolved.
pub fn growing(words: usize) -> Record {
    // The lead, the list above and four lists with a grant of three words each; then pairs.
    let odd = (words - 18) % 2;
    let mut permits = (words - 18) / 2;
    let lists = (0..4).map(|index| {
        let share = permits.div_ceil(4 - index);
        permits -= share;
        let mut arms = vec![Tree::Permit(Products(3)); share];
        let obligations = if index == 0 { odd } else { 0 };
        arms.push(grant(Condition::Has(0), vec![7; obligations]));
        Tree::All(arms)
    });
    pending(Tree::Any(lists.collect()))
}

/// A record whose narrowing in sheet order, while fact 0 is Unknown, has this many words: each of
/// its denies takes a word, and three once it is resolved.
pub fn growing_in_order(words: usize) -> Record {
    // The lead, the list above and two lists with a grant of three words each; then denies, and
    // permits of two words for what is left over.
    let left = words - 10;
    let permits = [0, 2, 1][left % 3];
    let denies = (left - 2 * permits) / 3;
    let lists = [denies / 2, denies.div_ceil(2)].map(|share| {
        let mut arms = vec![Tree::Deny; share];
        arms.push(waiting());
        arms
    });
    let [mut first, second] = lists;
    first.extend(vec![Tree::Permit(Products(3)); permits]);
    pending(Tree::Any(vec![Tree::Any(first), Tree::Any(second)]))
}

/// A sheet of this many words: an Any of denies and a grant on fact 0.
fn denying(words: usize) -> Vec<u32> {
    let mut arms = vec![Tree::Deny; words - 4];
    arms.push(waiting());
    write::tree::<Decided>(&Tree::Any(arms))
}

/// Lists within each other, as many as there may be, over a grant that without a Present fact is
/// false and names this many facts. Each list has these arms besides.
pub fn deep(facts: usize, beside: &[Residual]) -> Residual {
    // The grant, its condition and a Has take a level each.
    let facts = (1..FACTS).cycle().take(facts);
    let condition = Condition::Any(facts.map(Condition::Has).collect());
    nested(LEVELS - 3, grant(condition, Vec::new()), beside)
}

/// A record of this many lists within each other, over a node 13 of 4,000 facts.
pub fn deep_stored(lists: usize, beside: &[Residual]) -> Record {
    let deny = Deny {
        unsatisfied: (1..FACTS).cycle().take(4_000).collect(),
        ..Deny::plain()
    };
    pending(nested(lists, Tree::Stored(Decided::Deny(deny)), beside))
}

fn nested(lists: usize, bottom: Residual, beside: &[Residual]) -> Residual {
    (0..lists).fold(bottom, |below, _| Tree::Any([&[below], beside].concat()))
}

/// A grant on fact 0.
fn waiting() -> Residual {
    grant(Condition::Has(0), Vec::new())
}

/// A Resolved record with this many consulted entries and as many facts, repeats among them.
pub fn listed(rng: &mut Rng, length: usize) -> Record {
    Record::Resolved {
        consulted: consulted(rng, length),
        decided: Decided::Permit(Permit {
            satisfied: (0..length).map(|_| rng.small(FACTS)).collect(),
            ..Permit::plain(Products(1))
        }),
    }
}

/// A grant whose condition names this many facts.
pub fn naming(rng: &mut Rng, facts: usize) -> Residual {
    let list = rng.pick::<fn(Vec<Condition>) -> Condition>(&[Condition::All, Condition::Any]);
    let mut has = |count| {
        list(
            (0..count)
                .map(|_| Condition::Has(rng.small(FACTS)))
                .collect(),
        )
    };
    let condition = if facts > LIST {
        list(vec![has(LIST - 1), has(facts + 1 - LIST)])
    } else {
        has(facts)
    };
    grant(condition, Vec::new())
}

/// An obligation that stands many times in a list.
const ONE: u8 = 5;

/// All the others.
fn others() -> impl Iterator<Item = u8> {
    (0..OBLIGATIONS).filter(|obligation| *obligation != ONE)
}

fn obliging(obligations: Vec<u8>) -> Decided {
    Decided::Permit(Permit {
        obligations,
        ..Permit::plain(Products(1))
    })
}

/// The tree of a sheet whose evaluation has the most obligations.
fn most_obliging() -> Residual {
    Tree::Any(vec![
        grant(Condition::Always, vec![ONE; GRANT_OBLIGATIONS]),
        grant(Condition::Always, (0..OBLIGATIONS).collect()),
    ])
}

/// Unions of the most obligations that a node 12 can hold, of one more, and of the most that come of two nodes. Each stands alone, beside a permit that drops
/// it, and beside a grant that keeps it while fact 0 is Unknown.
fn unions() -> Vec<Residual> {
    let most = TRACE_OBLIGATIONS + others().count();
    let mut found = Vec::new();
    for all in [TRACE_OBLIGATIONS, TRACE_OBLIGATIONS + 1, most] {
        let held = TRACE_OBLIGATIONS.min(all - 1);
        let lists = [vec![ONE; held], others().take(all - held).collect()];
        let union = Tree::Any(lists.map(|list| Tree::Stored(obliging(list))).into());
        found.extend([
            union.clone(),
            Tree::Any(vec![union.clone(), Tree::Permit(Products(3))]),
            Tree::Any(vec![union, waiting()]),
        ]);
    }
    found
}

fn consulted(rng: &mut Rng, length: usize) -> Vec<Entry> {
    let seen = [Seen::Absent, Seen::Present, Seen::Unknown, Seen::Silent];
    (0..length)
        .map(|_| (rng.small(FACTS), rng.pick(&seen)))
        .collect()
}

fn grant(condition: Condition, obligations: Vec<u8>) -> Residual {
    Tree::Grant(Grant {
        outcome: Products(1),
        shape: DenyShape::Forbidden,
        label: None,
        reason: None,
        obligations,
        condition,
    })
}

const fn pending(residual: Residual) -> Record {
    Record::Pending {
        consulted: Vec::new(),
        residual,
    }
}

/// The call under each table, and under one of them with an output that the record just fits and
/// one that it doesn't.
fn written(rng: &mut Rng, call: Call, words: &[u32]) -> Vec<Case> {
    let tables = tables(rng, call.allows_unknown());
    let roomy = |table: &Vec<u8>| case(call, table, words, RECORD_WORDS + 1);
    let mut found: Vec<Case> = tables.iter().map(roomy).collect();
    let table = &tables[rng.below(tables.len())];
    if let Ok(Answer::Record(record)) = roomy(table).answer() {
        found.push(case(call, table, words, record.len()));
        found.push(case(call, table, words, record.len() - 1));
    }
    found
}

fn case(call: Call, table: &[u8], words: &[u32], room: usize) -> Case {
    Case {
        call,
        table: table.to_vec(),
        words: words.to_vec(),
        number: 0,
        room,
    }
}
