//! The proved calls against the original.

use std::thread;

use compare::answers;
use compare::case::{Call, Case};
use compare::generate::cases::{
    draw, draw_half_known, draw_layered, draw_repeating, draw_silent, draw_wide, is_half_known,
};
use compare::generate::chains::{Chain, room};
use compare::generate::grow::{Alphabet, Grower};
use compare::generate::numbers::SHEETS;
use compare::generate::rng::Rng;
use compare::generate::{limits, tables};
use compare::narrow::Order;
use compare::proved::{Writer, agrees, pair};
use compare::words::read::sheet_number;
use compare::words::write;
use compare::{reference, repeats, silence};

use super::in_order::{clause, layered};
use super::silence::{contradicts, entered, without_silence};
use super::stages::{decided, settled, small_chains};

const SEED: u64 = 20_261_115;

#[track_caller]
fn all_agree(cases: impl IntoIterator<Item = Case>) {
    let first = cases
        .into_iter()
        .filter(|case| !agrees(case))
        .min_by_key(|case| case.words.len() + case.table.len());
    if let Some(case) = first {
        panic!(
            "differs (seed {SEED}): {}",
            answers::line(&case, &case.answer())
        );
    }
}

/// A proved call, and the words that it writes.
fn written(
    call: Writer,
    words: &[u32],
    number: u16,
    table: &[u8],
    room: usize,
) -> Result<Vec<u32>, vierskof::Refusal> {
    let mut out = vec![0x5A5A_5A5A; room];
    call(words, number, table, &mut out).map(<[u32]>::to_vec)
}

/// The whole road on the proved calls, each in one of these orders, with refused narrowings of both pairs on the way: settled facts are gone, and the records
/// have the road's number. What the completion writes.
#[track_caller]
fn completed(rng: &mut Rng, chain: &Chain, orders: &[Order]) -> Vec<u32> {
    let (room, number) = (room(chain.sheet.len()), chain.number);
    let (reduce, _) = pair(rng.pick(orders));
    let reduced = written(reduce, &chain.sheet, number, &chain.reduction, room);
    let mut record = reduced.expect("room for the reduction");
    let mut accepted: Vec<&[u8]> = vec![&chain.reduction];
    for table in &chain.narrowings {
        let (_, narrow) = pair(rng.pick(orders));
        let room = if rng.percent(30) { rng.below(9) } else { room };
        match written(narrow, &record, number, table, room) {
            Ok(narrowed) => {
                record = narrowed;
                accepted.push(table);
            }
            Err(refusal) => assert_eq!(refusal, vierskof::Refusal::Room, "{chain:X?}"),
        }
        let faulty = [table.as_slice(), &[0xFF]].concat();
        let (_, refused) = pair(rng.pick(&BOTH));
        assert!(written(refused, &record, number, &faulty, room).is_err());
        let other = written(refused, &record, number ^ 1 << rng.below(16), table, room);
        assert_eq!(other, Err(vierskof::Refusal::SheetNumber));
        assert_eq!(sheet_number(&record), u32::from(number));
        assert!(settled(&record, &accepted), "seed {SEED}: {chain:X?}");
    }
    if orders == [Order::SheetOrder] {
        comes_back(&record, chain);
    }
    let completed = written(
        vierskof::complete_residual,
        &record,
        number,
        &chain.known,
        room,
    );
    completed.expect("room for the completion")
}

const BOTH: [Order; 2] = [Order::PermitsFirst, Order::SheetOrder];

/// A record in sheet order is the same after a narrowing with a table of Unknown, with exact room, and is refused with a word less.
#[track_caller]
fn comes_back(record: &[u32], chain: &Chain) {
    let unknown = tables::unknown(&chain.facts);
    let call = vierskof::narrow_residual_in_order;
    let narrowed = |room| written(call, record, chain.number, &unknown, room);
    let same = narrowed(record.len());
    assert_eq!(same.as_deref(), Ok(record), "seed {SEED}: {chain:X?}");
    let refused = narrowed(record.len() - 1);
    assert_eq!(refused, Err(vierskof::Refusal::Room));
}

/// The road's end has the effect and the products of one sitting.
#[track_caller]
fn ends_as_one_sitting(rng: &mut Rng, chain: &Chain, orders: &[Order]) {
    let room = room(chain.sheet.len());
    let sitting = written(
        vierskof::evaluate,
        &chain.sheet,
        chain.number,
        &chain.known,
        room,
    );
    let (completed, sitting) = (completed(rng, chain, orders), sitting.expect("room for it"));
    assert_eq!(
        decided(&completed),
        decided(&sitting),
        "seed {SEED}: {chain:X?}"
    );
    let numbers = [&completed, &sitting].map(|record| sheet_number(record));
    assert_eq!(numbers, [u32::from(chain.number); 2]);
}

/// In sheet order it has the clause that the original gives in one sitting, facts aside.
#[track_caller]
fn ends_in_the_originals_clause(rng: &mut Rng, chain: &Chain) {
    let room = room(chain.sheet.len());
    let sitting = reference::evaluate(&chain.sheet, 0, &chain.known, room);
    assert_eq!(
        clause(&completed(rng, chain, &[Order::SheetOrder])),
        clause(&sitting.expect("room for one sitting")),
        "seed {SEED}: {chain:X?}"
    );
}

/// Random chains, chains over lists in lists and over lists of many arms, and long ones.
fn each_chain(mut check: impl FnMut(&mut Rng, &Chain)) {
    let mut rng = Rng::new(SEED);
    for _ in 0..20_000 {
        let alphabet = Alphabet::draw(&mut rng);
        let words = rng.between(1, 100);
        let chain = Chain::draw(&mut rng, &alphabet, words).under(rng.pick(&SHEETS));
        check(&mut rng, &chain);
    }
    for _ in 0..10_000 {
        let chain = layered(&mut rng);
        check(&mut rng, &chain);
    }
    for _ in 0..1_000 {
        let alphabet = Alphabet::draw(&mut rng).repeating();
        let tree = Grower::of_sheets(&mut rng, &alphabet).wide();
        let chain = Chain::over(&mut rng, write::tree(&tree)).under(rng.pick(&SHEETS));
        check(&mut rng, &chain);
    }
    for _ in 0..50 {
        let alphabet = Alphabet::wide(&mut rng);
        let words = rng.between(500, 4_096);
        let tree = Grower::of_sheets(&mut rng, &alphabet).exactly(words);
        let chain = Chain::over(&mut rng, write::tree(&tree)).under(rng.pick(&SHEETS));
        check(&mut rng, &chain);
    }
}

#[test]
fn chains_end_as_one_sitting() {
    each_chain(|rng, chain| ends_as_one_sitting(rng, chain, &[Order::PermitsFirst]));
}

#[test]
fn chains_of_both_pairs_end_as_one_sitting() {
    each_chain(|rng, chain| ends_as_one_sitting(rng, chain, &BOTH));
}

#[test]
fn chains_in_order_end_in_the_originals_clause() {
    each_chain(ends_in_the_originals_clause);
}

/// Of five words, the fewest with which the first pair ends in another clause.
#[test]
fn all_small_chains_in_order_end_in_the_originals_clause() {
    let mut rng = Rng::new(SEED);
    small_chains(5, |chain| ends_in_the_originals_clause(&mut rng, chain));
}

#[test]
fn generated_and_damaged_cases_agree() {
    all_agree(draw(SEED, 40_000, &Call::ALL));
}

#[test]
fn lists_of_many_arms_agree() {
    let cases = draw_wide(SEED, 8_000, &Call::ALL);
    let many = |case: &Case| case.answer().is_ok() && case.words.len() > 40;
    assert!(cases.iter().filter(|case| many(case)).count() > 4_000);
    all_agree(cases);
}

#[test]
fn known_grants_that_name_an_unknown_fact_agree() {
    let cases = draw_half_known(SEED, 8_000, &REDUCING);
    assert!(cases.iter().filter(|case| is_half_known(case)).count() > 2_000);
    all_agree(cases);
}

/// Obligations that repeat, long lists of them, and joins around the most that a node 12 can hold, kept and dropped.
#[test]
fn repeated_obligations_agree() {
    let cases = draw_repeating(SEED, 40_000, &Call::ALL);
    let met = repeats::Tally::of(&cases);
    assert!(met.repeated > 16_000, "{met}");
    assert!(met.granted.into_iter().all(|count| count > 300), "{met}");
    assert!(met.stored.into_iter().all(|count| count > 100), "{met}");
    assert!(met.appended_before > 900, "{met}");
    assert!(met.onto_repeats > 2_000, "{met}");
    let unions = [met.kept, met.dropped].concat();
    assert!(unions.into_iter().all(|count| count > 50), "{met}");
    all_agree(cases);
}

/// Entries that are silent and tables that end before facts, and how they meet: which facts are told as silent is marked on the Rust side, and every word is
/// compared.
#[test]
fn silence_agrees() {
    let cases = draw_silent(SEED, 40_000, &Call::ALL);
    let met = silence::Tally::of(&cases);
    assert!(met.given > 4_000 && met.cut > 3_000, "{met}");
    assert!(met.told > 2_000 && met.entered > 1_500, "{met}");
    assert!(met.entered_later.iter().all(|count| *count > 300), "{met}");
    assert!(met.silent_later > 300, "{met}");
    all_agree(cases);
}

/// With silence read as Absent, a record is the one that the proved call gives of a table that enters every fact, and of a record without silence: the one
/// that it gave before there was silence.
#[test]
fn silence_changes_no_decision() {
    let calls: Vec<Call> = Call::ALL.into_iter().filter(|call| call.writes()).collect();
    let mut told = 0;
    for case in draw_silent(SEED, 20_000, &calls) {
        let (reduce, narrow) = pair(case.call.order());
        let call = match case.call {
            Call::Evaluate => vierskof::evaluate,
            Call::CompleteResidual => vierskof::complete_residual,
            call if call.reads_sheet() => reduce,
            _ => narrow,
        };
        let Ok(number) = u16::try_from(case.number) else {
            continue;
        };
        let found = written(call, &case.words, number, &case.table, case.room);
        let before = entered(&case);
        let in_full = written(call, &before.words, number, &before.table, before.room);
        // What is entered may contradict what a silent table or entry does not.
        if in_full == Err(vierskof::Refusal::Contradiction) {
            assert!(contradicts(&before), "{case:X?}");
            continue;
        }
        let before = in_full;
        assert_eq!(found.clone().map(without_silence), before, "{case:X?}");
        told += usize::from(found != before);
    }
    assert!(told > 3_000, "{told}");
}

/// The reductions and narrowings of both pairs.
const REDUCING: [Call; 4] = [
    Call::PartialEvaluate,
    Call::NarrowResidual,
    Call::PartialEvaluateInOrder,
    Call::NarrowResidualInOrder,
];

/// Lists in lists, and records of either pair and of both.
#[test]
fn lists_in_lists_agree() {
    let cases = draw_layered(SEED, 16_000, &REDUCING);
    let other = |case: &&Case| {
        let first = match case.call {
            Call::PartialEvaluateInOrder => Call::PartialEvaluate,
            Call::NarrowResidualInOrder => Call::NarrowResidual,
            _ => return false,
        };
        let first = Case {
            call: first,
            ..(*case).clone()
        };
        case.answer().is_ok() && case.answer() != first.answer()
    };
    // The two orders differ on many of them.
    let differ = cases.iter().filter(other).count();
    assert!(differ > 1_300, "{differ}");
    all_agree(cases);
}

/// 4,095 arms, 32 levels, 4,096 words and their neighbours, a false grant of 4,000 facts under as many lists as there may be, and the like of records, in a
/// thread with 256 KiB of stack.
#[test]
fn the_limits_agree_on_a_small_stack() {
    let cases = limits::cases(&mut Rng::new(SEED));
    assert!(cases.len() > 100);
    // The original needs more stack than that, so its answers are compared outside.
    let (words, tables): (Vec<_>, Vec<_>) = cases
        .iter()
        .map(|case| (case.words.clone(), case.table.clone()))
        .unzip();
    let small = thread::Builder::new().stack_size(256 * 1024);
    let walked = small.spawn(move || {
        let mut out = vec![0; 16_384];
        for (words, table) in words.iter().zip(&tables) {
            let _ = vierskof::evaluate(words, 0, table, &mut out);
            let _ = vierskof::partial_evaluate(words, 0, table, &mut out);
            let _ = vierskof::narrow_residual(words, 0, table, &mut out);
            let _ = vierskof::complete_residual(words, 0, table, &mut out);
            let _ = vierskof::partial_evaluate_in_order(words, 0, table, &mut out);
            let _ = vierskof::narrow_residual_in_order(words, 0, table, &mut out);
            let _ = vierskof::required_facts(words);
            let _ = vierskof::required_residual_facts(words);
            let _ = vierskof::is_permit_constant(words);
            let _ = vierskof::is_deny_constant(words);
            let _ = vierskof::carries_obligation(words);
        }
    });
    walked.expect("a thread").join().expect("no overflow");
    all_agree(cases);
}
