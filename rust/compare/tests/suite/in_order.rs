//! Reduction and narrowing in sheet order: request 8's worked cases, and where its chains lead.

use compare::case::Call::{
    CompleteResidual, Evaluate, NarrowResidual, NarrowResidualInOrder, PartialEvaluate,
    PartialEvaluateInOrder,
};
use compare::generate::cases::draw_layered;
use compare::generate::chains::Chain;
use compare::generate::exhaustive::sheets;
use compare::generate::grow::{Alphabet, Grower};
use compare::generate::numbers::SHEETS;
use compare::generate::rng::Rng;
use compare::generate::tables;
use compare::narrow::{Order, reduce};
use compare::reference::{
    complete_residual, evaluate, narrow_residual, narrow_residual_in_order, partial_evaluate,
    partial_evaluate_in_order,
};
use compare::refusal::Refusal;
use compare::words::table::Table;
use compare::words::tree::{Decided, Entry, Record, Residual, Tree};
use compare::words::{read, write};

use super::stages::{decided, settled, small_chains};
use super::{bytes, refuses, words, writes, written};

/// H's sheet, and its record in sheet order.
const H: &str = "90000002 80100001 00000000 07000000 20000005 60000001";
const H_PENDING: &str = "F0000000 90000002 80100001 00000000 07000000 20000005 C0000001 00000000";
/// The record of a Deny node.
const PLAIN_DENY: &str = "E0000000 D0000000 00000000 00000000";
/// A pending grant and the deny after it, and nothing else.
const UP_TO_THE_DENY: &str =
    "F0000000 90000002 80000001 00000000 20000005 D0000000 00000000 00000000";

#[test]
fn h_keeps_its_obligation() {
    let sitting = "E0000001 40050000 C0100001 00000001 07000000 00050000";
    writes(PartialEvaluateInOrder, H, "00 20", H_PENDING);
    writes(CompleteResidual, H_PENDING, "00 10", sitting);
    writes(NarrowResidualInOrder, H_PENDING, "00 10", sitting);
    writes(Evaluate, H, "00 10", sitting);
    // A narrowing that puts permits first loses it, though nothing is known yet.
    let moved = "F0000000 90000002 C0000001 00000000 80100001 00000000 07000000 20000005";
    writes(NarrowResidual, H_PENDING, "00 20", moved);
    writes(NarrowResidualInOrder, moved, "00 20", moved);
    writes(
        CompleteResidual,
        moved,
        "00 10",
        "E0000001 40050000 C0000001 00000000",
    );
    let reduced = |room| written(PartialEvaluateInOrder, &words(H), &bytes("00 20"), room);
    assert_eq!(reduced(8), (0, words(H_PENDING)));
    assert_eq!(reduced(7), (11, Vec::new()));
}

#[test]
fn w_an_all_ends_at_its_deny() {
    let sheet = "90000003 80000001 00000000 20000005 70000000 60000001";
    writes(PartialEvaluateInOrder, sheet, "00 20", UP_TO_THE_DENY);
    writes(PartialEvaluate, sheet, "00 20", PLAIN_DENY);
    // What comes after it is neither kept nor read.
    let sheet = "90000003 80000001 00000000 20000005 70000000 80000001 00000000 20000006";
    writes(PartialEvaluateInOrder, sheet, "00 24", UP_TO_THE_DENY);
}

#[test]
fn a_deny_before_every_pending_arm_decides() {
    let sheet = "90000002 70000000 80000001 00000000 20000005";
    writes(PartialEvaluateInOrder, sheet, "00 20", PLAIN_DENY);
}

#[test]
fn y_an_any_holds_every_arm() {
    let sheet = "A0000004 70000000 60000001 80000001 00000000 20000005 70000000";
    let record = "F0000000 A0000004 D0000000 00000000 00000000 C0000001 00000000 80000001 00000000 \
                  20000005 D0000000 00000000 00000000";
    writes(PartialEvaluateInOrder, sheet, "00 20", record);
    let first = "F0000000 A0000002 C0000001 00000000 80000001 00000000 20000005";
    writes(PartialEvaluate, sheet, "00 20", first);
}

#[test]
fn s_the_first_denys_shape_stays() {
    let sheet = "A0000002 88000001 00000000 20000000 70000000";
    let record = "F0000000 A0000002 88000001 00000000 20000000 D0000000 00000000 00000000";
    let hidden = "E0000001 C0000000 DC000001 00000000 00000001 00000000";
    writes(PartialEvaluateInOrder, sheet, "80", record);
    writes(CompleteResidual, record, "", hidden);
    writes(Evaluate, sheet, "", hidden);
    // Permits first, the plain deny stands first and decides.
    let first = "F0000000 A0000002 D0000000 00000000 00000000 88000001 00000000 20000000";
    writes(PartialEvaluate, sheet, "80", first);
    writes(
        CompleteResidual,
        first,
        "",
        "E0000001 C0000000 D0000000 00000000 00000000",
    );
}

#[test]
fn r_the_first_denys_reason_stays() {
    let sheet = "90000002 88000002 00008007 20000000 80000001 00008003 20000001";
    let record = "F0000001 00010000 90000002 88000002 00008007 20000000 D4000001 00008003 00000001 \
                  00010000";
    writes(PartialEvaluateInOrder, sheet, "80", record);
    // What was consulted is not one sitting's.
    let completed = "E0000002 0001C000 DC000002 00008007 00000001 00000000";
    writes(CompleteResidual, record, "", completed);
    let sitting = "E0000001 C0000000 DC000002 00008007 00000001 00000000";
    writes(Evaluate, sheet, "", sitting);
}

#[test]
fn n_a_pending_list_does_not_end_the_walk() {
    let sheet = "90000002 90000002 80000001 00000000 20000000 70000000 80000001 00000000 20000001";
    let record = "F0000001 00010000 90000002 90000002 80000001 00000000 20000000 D0000000 00000000 \
                  00000000 D4000001 00000000 00000001 00010000";
    writes(PartialEvaluateInOrder, sheet, "80", record);
    writes(PartialEvaluate, sheet, "80", PLAIN_DENY);
}

#[test]
fn b_a_pending_primary_keeps_both() {
    let sheet = "B0000000 90000002 80000001 00000000 20000000 70000000 60000001";
    let record = "F0000000 B0000000 90000002 80000001 00000000 20000000 D0000000 00000000 00000000 \
                  C0000001 00000000";
    writes(PartialEvaluateInOrder, sheet, "80", record);
    let narrowed = "E0000001 40000000 C0000001 00000000";
    writes(NarrowResidualInOrder, record, "40", narrowed);
    writes(PartialEvaluate, sheet, "80", "E0000000 C0000001 00000000");
}

#[test]
fn f_fact_lists_may_differ() {
    let sheet = "80000001 00000000 40000002 20000000 20000001";
    let record = "F0000001 40000000 80000001 00000000 20000001";
    writes(PartialEvaluateInOrder, sheet, "60", record);
    let completed = "E0000002 40004001 C0000001 00000001 00010000";
    writes(CompleteResidual, record, "50", completed);
    let sitting = "E0000002 40004001 C0000001 00000002 00000001";
    writes(Evaluate, sheet, "50", sitting);
}

#[test]
fn a_record_by_hand_keeps_its_order() {
    let given = "F0000000 A0000003 60000001 80000001 00000000 20000000 70000000";
    let record = "F0000000 A0000003 C0000001 00000000 80000001 00000000 20000000 D0000000 00000000 \
                  00000000";
    writes(NarrowResidualInOrder, given, "80", record);
    writes(NarrowResidualInOrder, record, "80", record);
    let resolved = "E0000002 40050005 C0000001 00000000";
    writes(NarrowResidualInOrder, resolved, "AA", resolved);
    let single = "F0000000 A0000001 80000001 00000000 20000000";
    writes(NarrowResidualInOrder, single, "80", single);
}

/// Refusals and their order are those of the first pair.
#[test]
fn refusals_are_the_first_pairs() {
    let long_table = "00 ".repeat(257);
    let order = [
        (PartialEvaluateInOrder, "", &long_table[..], 1),
        (PartialEvaluateInOrder, "00000000", &long_table, 2),
        (PartialEvaluateInOrder, "00000000", "2C", 3),
        (PartialEvaluateInOrder, "00000000", "20", 5),
        (PartialEvaluateInOrder, "C0000001 00000000", "", 5),
        (PartialEvaluateInOrder, "90000001", "", 6),
        (PartialEvaluateInOrder, "70000001 70000000", "", 8),
        (PartialEvaluateInOrder, "70000000 70000000", "", 10),
        (NarrowResidualInOrder, "", &long_table, 1),
        (NarrowResidualInOrder, H, &long_table, 2),
        (NarrowResidualInOrder, H, "C0", 3),
        (NarrowResidualInOrder, H, "", 5),
        (NarrowResidualInOrder, "F0000000", "", 6),
    ];
    for (call, given, table, number) in order {
        refuses(call, given, table, number);
    }
    let deep = "90000001 ".repeat(32) + "90000000";
    refuses(PartialEvaluateInOrder, &deep, "", 7);
    refuses(NarrowResidualInOrder, &format!("F0000000 {deep}"), "", 7);
}

/// A Resolved record's decision without its facts.
pub fn clause(record: &[u32]) -> Decided {
    match read::record(record).expect("a record") {
        Record::Resolved { decided, .. } => decided.without_facts(),
        Record::Pending { .. } => panic!("{record:X?} is pending"),
    }
}

/// Runs a chain in sheet order with the room that suffices. Each record on the way is completed by the original to the clause that the original gives in one
/// sitting, facts aside; it comes back equal under a table of Unknown; and an output of its own length is room enough, one word less isn't.
fn check(chain: &Chain) {
    let (room, number) = (chain.room(), u32::from(chain.number));
    let sitting = evaluate(&chain.sheet, number, &chain.known, room).expect("room for it");
    let unknown = tables::unknown(&chain.facts);
    let mut accepted: Vec<&[u8]> = vec![&chain.reduction];
    for (stage, record) in chain.records(Order::SheetOrder).iter().enumerate() {
        if stage > 0 {
            accepted.push(&chain.narrowings[stage - 1]);
        }
        assert!(settled(record, &accepted), "{chain:X?}");
        let same = narrow_residual_in_order(record, number, &unknown, record.len());
        assert_eq!(same.as_ref(), Ok(record), "{chain:X?}");
        let short = narrow_residual_in_order(record, number, &unknown, record.len() - 1);
        assert_eq!(short, Err(Refusal::Room), "{chain:X?}");
        let completed = complete_residual(record, number, &chain.known, room).expect("room for it");
        assert_eq!(clause(&completed), clause(&sitting), "{chain:X?}");
        let narrowed = narrow_residual_in_order(record, number, &chain.known, room);
        let narrowed = narrowed.expect("room for it");
        assert_eq!(clause(&narrowed), clause(&sitting), "{chain:X?}");
    }
}

/// A chain over lists in lists.
pub fn layered(rng: &mut Rng) -> Chain {
    let alphabet = Alphabet::draw(rng);
    let tree = Grower::of_sheets(rng, &alphabet).layered();
    Chain::over(rng, write::tree(&tree)).under(rng.pick(&SHEETS))
}

#[test]
fn random_chains() {
    let mut rng = Rng::new(1);
    for _ in 0..5_000 {
        let alphabet = Alphabet::draw(&mut rng);
        let words = rng.between(1, 100);
        check(&Chain::draw(&mut rng, &alphabet, words).under(rng.pick(&SHEETS)));
        check(&layered(&mut rng));
    }
}

#[test]
fn long_chains() {
    let mut rng = Rng::new(2);
    for _ in 0..12 {
        let alphabet = Alphabet::wide(&mut rng);
        let words = rng.between(500, 4_096);
        let tree = Grower::of_sheets(&mut rng, &alphabet).exactly(words);
        check(&Chain::over(&mut rng, write::tree(&tree)));
    }
}

#[test]
fn all_small_chains() {
    small_chains(4, check);
}

/// Calls of both pairs in one chain end in one sitting's effect and products; and so that the promise of the clause isn't made of them, some end in another.
#[test]
fn mixed_chains_keep_effect_and_products() {
    let mut rng = Rng::new(3);
    let mut other_clauses = 0;
    for _ in 0..10_000 {
        let chain = layered(&mut rng);
        let (room, number) = (chain.room(), u32::from(chain.number));
        let sitting = evaluate(&chain.sheet, number, &chain.known, room).expect("room for it");
        let mut accepted: Vec<&[u8]> = vec![&chain.reduction];
        let orders = [Order::PermitsFirst, Order::SheetOrder];
        for (stage, record) in chain.records_by(|| rng.pick(&orders)).iter().enumerate() {
            if stage > 0 {
                accepted.push(&chain.narrowings[stage - 1]);
            }
            assert!(settled(record, &accepted), "{chain:X?}");
            let completed = complete_residual(record, number, &chain.known, room);
            let completed = completed.expect("room for it");
            assert_eq!(decided(&completed), decided(&sitting), "{chain:X?}");
            other_clauses += usize::from(clause(&completed) != clause(&sitting));
        }
    }
    assert!(other_clauses > 500, "{other_clauses}");
}

/// Whether a policy list anywhere in the tree has an arm that the table leaves pending.
fn waits(tree: &Residual, table: &Table) -> bool {
    let pending = |arm: &Residual| {
        let reduced = reduce(&[], arm, table, Order::SheetOrder);
        matches!(reduced, Record::Pending { .. })
    };
    match tree {
        Tree::All(arms) | Tree::Any(arms) => {
            arms.iter().any(|arm| pending(arm) || waits(arm, table))
        }
        Tree::OrElse(primary, fallback) => waits(primary, table) || waits(fallback, table),
        _ => false,
    }
}

fn consulted(record: &[u32]) -> Vec<Entry> {
    match read::record(record).expect("a record") {
        Record::Resolved { consulted, .. } | Record::Pending { consulted, .. } => consulted,
    }
}

/// Both orders of a reduction: the same record if no list has a pending arm. What the first pair consults the second does too.
fn both_orders(sheet: &[u32], table: &[u8]) -> [bool; 2] {
    const ROOM: usize = 16_384;
    let first = partial_evaluate(sheet, 0, table, ROOM).expect("room for it");
    let second = partial_evaluate_in_order(sheet, 0, table, ROOM).expect("room for it");
    let tree: Residual = read::sheet(sheet).expect("a sheet").into();
    let waits = waits(&tree, &Table::partial(table).expect("a table"));
    assert!(waits || first == second, "{sheet:X?} {table:X?}");
    let found = consulted(&second);
    let read = |entry: &Entry| found.contains(entry);
    assert!(consulted(&first).iter().all(read), "{sheet:X?} {table:X?}");
    let record = [&[0xF000_0000], sheet].concat();
    let narrowed = narrow_residual_in_order(&record, 0, table, ROOM);
    assert_eq!(narrowed.as_ref(), Ok(&second), "{sheet:X?} {table:X?}");
    let narrowed = narrow_residual(&record, 0, table, ROOM);
    assert_eq!(narrowed.as_ref(), Ok(&first), "{sheet:X?} {table:X?}");
    [waits, first != second]
}

#[test]
fn lists_without_pending_arms_resolve_as_before() {
    let [mut waiting, mut different] = [0; 2];
    let mut tally = |[waits, differs]: [bool; 2]| {
        waiting += usize::from(waits);
        different += usize::from(differs);
    };
    let mut count = 0;
    for sheet in sheets(4) {
        for both in 0..9 {
            let table = compare::words::table::pack(&[both / 3, both % 3]);
            tally(both_orders(&sheet, &table));
            count += 1;
        }
    }
    for case in draw_layered(4, 10_000, &[PartialEvaluateInOrder]) {
        if case.answer().is_ok() {
            tally(both_orders(&case.words, &case.table));
            count += 1;
        }
    }
    // Of both kinds there are many, and of those that wait not all differ.
    assert!(count - waiting > 5_000, "{waiting} of {count}");
    assert!(different > 2_000 && different < waiting, "{different}");
}

/// A refused narrowing of either pair hands on what it was given.
#[test]
fn chains_with_refused_narrowings() {
    let mut rng = Rng::new(5);
    let mut refusals = 0;
    for _ in 0..5_000 {
        let chain = layered(&mut rng);
        let (roomy, number) = (chain.room(), u32::from(chain.number));
        let sitting = evaluate(&chain.sheet, number, &chain.known, roomy).expect("room for it");
        let reduced = partial_evaluate_in_order(&chain.sheet, number, &chain.reduction, roomy);
        let mut record = reduced.expect("room for the reduction");
        let mut accepted: Vec<&[u8]> = vec![&chain.reduction];
        for table in &chain.narrowings {
            let faulty = [table.as_slice(), &[0xFF]].concat();
            let refused = [
                narrow_residual(&record, number, &faulty, roomy),
                narrow_residual(&record, number + 1, table, roomy),
            ];
            assert_eq!(
                refused,
                [Err(Refusal::TableField), Err(Refusal::SheetNumber)]
            );
            refusals += refused.len();
            let room = rng.below(roomy / 20);
            match narrow_residual_in_order(&record, number, table, room) {
                Ok(narrowed) => {
                    record = narrowed;
                    accepted.push(table);
                }
                Err(_) => refusals += 1,
            }
        }
        assert!(settled(&record, &accepted), "{chain:X?}");
        let completed = complete_residual(&record, number, &chain.known, roomy);
        let completed = completed.expect("room for the completion");
        assert_eq!(clause(&completed), clause(&sitting), "{chain:X?}");
    }
    assert!(refusals > 10_000, "{refusals}");
}
