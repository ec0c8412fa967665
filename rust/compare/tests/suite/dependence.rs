//! What a completion depends on: the facts that the record requires, and nothing else of its table.

use compare::case::{Call, Case};
use compare::generate::cases::{
    draw, draw_half_known, draw_layered, draw_repeating, draw_silent, draw_wide,
};
use compare::generate::rng::Rng;
use compare::generate::{limits, tables};
use compare::words::read;
use compare::words::tree::Record;
use vierskof::{Fact, Refusal};

use super::{bytes, words, writes};

const SEED: u64 = 20_261_118;

/// Records of chains in either order, such as others write, damaged ones and ones at the limits, some with an output that is too short.
fn drawn() -> Vec<Case> {
    let complete = [Call::CompleteResidual];
    let mut cases = draw(SEED, 40_000, &complete);
    let others = [
        draw_wide,
        draw_half_known,
        draw_layered,
        draw_repeating,
        draw_silent,
    ];
    for draw in others {
        cases.extend(draw(SEED, 5_000, &complete));
    }
    let limits = limits::cases(&mut Rng::new(SEED)).into_iter();
    cases.extend(limits.filter(|case| case.call == Call::CompleteResidual));
    // The safe call takes no other number.
    cases.retain(|case| case.number <= u32::from(u16::MAX));
    cases
}

/// The facts that the proved call says the words require: of words that it refuses none.
fn required(words: &[u32]) -> Vec<u16> {
    let set = vierskof::required_residual_facts(words).unwrap_or_default();
    set.iter().map(Fact::number).collect()
}

/// What the proved call leaves of a completion with this table: how many words, or why none, and the whole output.
fn completed(case: &Case, table: &[u8]) -> (Result<usize, Refusal>, Vec<u32>) {
    let number = u16::try_from(case.number).expect("a number that a record can have");
    let mut out: Vec<u32> = (0x0F0F_0F0F..).take(case.room).collect();
    let written = vierskof::complete_residual(&case.words, number, table, &mut out);
    (written.map(<[u32]>::len), out)
}

/// The table with another reading of one of these facts, if it enters one.
fn otherwise(rng: &mut Rng, table: &[u8], facts: &[u16]) -> Option<Vec<u8>> {
    let place = |fact: &u16| (usize::from(fact / 4), 0x40 >> (2 * (fact % 4)));
    let entered = |(at, _): &(usize, u8)| *at < table.len();
    let places: Vec<_> = facts.iter().map(place).filter(entered).collect();
    if places.is_empty() {
        return None;
    }
    let (at, field) = rng.pick(&places);
    let mut table = table.to_vec();
    table[at] ^= field;
    Some(table)
}

/// The table with Absent entered up to the last of these facts, if it ends before.
fn entered(table: &[u8], facts: &[u16]) -> Option<Vec<u8>> {
    let end = usize::from(facts.last()? / 4) + 1;
    let mut entered = table.to_vec();
    entered.resize(end.max(table.len()), 0);
    (entered.len() > table.len()).then_some(entered)
}

/// Two tables that read alike on the required facts, and apart on all others, complete alike, outputs compared as a whole. So that this could fail, there
/// are many records that one required fact alone completes otherwise, and many that tell by their trace whether it was entered.
#[test]
fn completions_depend_on_the_required_facts() {
    let mut rng = Rng::new(SEED);
    let [mut waiting, mut uneven, mut changed, mut told] = [0; 4];
    let [mut refused, mut short, mut of_others] = [0; 3];
    for case in drawn() {
        let facts = required(&case.words);
        let [one, two] = tables::alike(&mut rng, &facts);
        let left = completed(&case, &one);
        assert_eq!(left, completed(&case, &two), "{case:X?} {one:X?} {two:X?}");
        waiting += usize::from(left.0.is_ok() && !facts.is_empty());
        uneven += usize::from(one.len() != two.len());
        let changes = |table: Vec<u8>| completed(&case, &table) != left;
        changed += usize::from(otherwise(&mut rng, &one, &facts).is_some_and(changes));
        told += usize::from(entered(&one, &facts).is_some_and(changes));
        refused += usize::from(left.0.is_err());
        short += usize::from(left.0 == Err(Refusal::Room));
        of_others += usize::from(left.0 == Err(Refusal::SheetNumber));
    }
    assert!(waiting > 20_000 && uneven > 40_000, "{waiting} {uneven}");
    assert!(changed > 10_000 && told > 4_000, "{changed} {told}");
    assert!(refused > 15_000 && short > 5_000, "{refused} {short}");
    assert!(of_others > 5_000, "{of_others}");
}

/// A Resolved record requires nothing, and any two tables complete it alike: it comes back equal.
#[test]
fn resolved_records_depend_on_no_fact() {
    let mut rng = Rng::new(SEED);
    let resolved = |case: &Case| matches!(read::record(&case.words), Ok(Record::Resolved { .. }));
    let mut count = 0;
    for mut case in drawn().into_iter().filter(resolved) {
        assert!(required(&case.words).is_empty(), "{case:X?}");
        let [one, two] = [(); 2].map(|()| tables::draw(&mut rng, &[0, 5, 13, 1_023], false));
        assert_eq!(completed(&case, &one), completed(&case, &two), "{case:X?}");
        case.number = read::sheet_number(&case.words);
        case.room = case.words.len();
        let equal = (Ok(case.room), case.words.clone());
        assert_eq!(completed(&case, &one), equal, "{case:X?}");
        count += 1;
    }
    assert!(count > 8_000, "{count}");
}

/// The request's worked case.
#[test]
fn fact_5_alone_is_required() {
    const PENDING: &str = "F0000000 88000003 00000000 20000005";
    const PERMITTED: &str = "E0000001 40050000 C0000003 00000001 00050000";
    const DENIED: &str = "E0000001 00050000 DC000003 00000000 00000001 00050000";
    const RESOLVED: &str = "E0000000 C0000001 00000000";
    let set = vierskof::required_residual_facts(&words(PENDING)).expect("a record");
    assert_eq!((set.numbers()[0], set.len()), (0x0400_0000_0000_0000, 1));
    assert!(required(&words(RESOLVED)).is_empty());
    for (given, table, record) in [
        (PENDING, "00 10", PERMITTED),
        (PENDING, "40 14 10", PERMITTED),
        (PENDING, "00 00", DENIED),
        (RESOLVED, "", RESOLVED),
        (RESOLVED, "40 14 10", RESOLVED),
    ] {
        writes(Call::CompleteResidual, given, table, record);
        let case = Case {
            call: Call::CompleteResidual,
            table: bytes(table),
            words: words(given),
            number: 0,
            room: words(record).len(),
        };
        let left = completed(&case, &case.table);
        assert_eq!(left, (Ok(case.room), words(record)), "{given} {table}");
    }
}
