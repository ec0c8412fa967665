//! Obligations that repeat: request 3's worked cases, and the original beside the plain implementation on lists that it refused before.

use compare::case::Call::{
    CarriesObligation, CompleteResidual, Evaluate, NarrowResidual, NarrowResidualInOrder,
    PartialEvaluate, PartialEvaluateInOrder,
};
use compare::case::{Answer, Case};
use compare::generate::cases::draw_repeating;
use compare::generate::chains::Chain;
use compare::generate::grow::{Alphabet, Grower};
use compare::generate::numbers::SHEETS;
use compare::generate::rng::Rng;
use compare::narrow::{Order, Union};
use compare::reference;
use compare::refusal::Refusal;
use compare::repeats::{Tally, repeats};
use compare::words::write;

use super::silence::contradicts;
use super::stages::decided;
use super::{refuses, words, writes, written_under};

/// A node 12 with 127 times obligation 5.
fn full() -> String {
    format!("C7F00001 00000000 {}05050500", "05050505 ".repeat(31))
}

/// An Any of that node and of one obligation more: 128.
fn over() -> String {
    format!("A0000002 {} C0100001 00000000 06000000", full())
}

/// Obligations 0 to 63, but for those that are left out, four a word.
fn each_but(left_out: &[u8]) -> String {
    let mut each: Vec<u8> = (0..64)
        .filter(|obligation| !left_out.contains(obligation))
        .collect();
    each.resize(64, 0);
    let (fours, _) = each.as_chunks();
    let word = |four: &[u8; 4]| format!("{:08X}", u32::from_be_bytes(*four));
    let each: Vec<String> = fours.iter().map(word).collect();
    each.join(" ")
}

/// An Any of that node and of every obligation: 190.
fn far_over() -> String {
    let each = each_but(&[]);
    format!("A0000002 {} C4000001 00000000 {each}", full())
}

/// A grant that stays pending while fact 0 is Unknown.
const WAITING: &str = "80000001 00000000 20000000";

/// What completing and narrowing, in either order, write of this tree.
#[track_caller]
fn decides(tree: &str, record: &str) {
    let given = format!("F0000000 {tree}");
    for call in [CompleteResidual, NarrowResidual, NarrowResidualInOrder] {
        writes(call, &given, "", record);
    }
}

#[track_caller]
fn has_no_words(tree: &str) {
    let given = format!("F0000000 {tree}");
    for call in [CompleteResidual, NarrowResidual, NarrowResidualInOrder] {
        refuses(call, &given, "", 11);
    }
}

#[test]
fn a_list_is_kept_as_it_stands() {
    let sheet = "80200001 00000000 07070000 00000000";
    let record = "E0000000 C0200001 00000000 07070000";
    for call in [Evaluate, PartialEvaluate, PartialEvaluateInOrder] {
        writes(call, sheet, "", record);
    }
    decides(sheet, record);
    let met = format!("90000002 {sheet} 60000003");
    writes(Evaluate, &met, "", record);
}

#[test]
fn a_join_appends_one_by_one() {
    let joined = "A0000002 80100001 00000000 05000000 00000000 80300001 00000000 06060500 00000000";
    let record = "E0000000 C0200001 00000000 05060000";
    writes(Evaluate, joined, "", record);
    decides(joined, record);
    let neither =
        "A0000002 80300001 00000000 05050500 00000000 80400002 00000000 05060607 00000000";
    let record = "E0000000 C0500003 00000000 05050506 07000000";
    writes(Evaluate, neither, "", record);
    decides(neither, record);
    // Into an empty list only one goes, and the other way round both stay.
    let grant = "80200001 00000000 06060000 00000000";
    let first = format!("A0000002 60000001 {grant}");
    writes(Evaluate, &first, "", "E0000000 C0100001 00000000 06000000");
    let last = format!("A0000002 {grant} 60000001");
    writes(Evaluate, &last, "", "E0000000 C0200001 00000000 06060000");
}

#[test]
fn a_residual_keeps_lists_apart() {
    let arms = "80200001 00000000 05050000 00000000 80300001 00000000 06060500 00000000";
    let kept = "C0200001 00000000 05050000 C0300001 00000000 06060500";
    let sheet = format!("A0000003 {arms} {WAITING}");
    let record = format!("F0000000 A0000003 {kept} {WAITING}");
    writes(PartialEvaluate, &sheet, "80", &record);
    writes(PartialEvaluateInOrder, &sheet, "80", &record);
    let sheet = format!("A0000003 {WAITING} {arms}");
    writes(PartialEvaluate, &sheet, "80", &record);
    let record = format!("F0000000 A0000003 {WAITING} {kept}");
    writes(PartialEvaluateInOrder, &sheet, "80", &record);
}

#[test]
fn a_node_12_holds_127() {
    let record = format!("E0000000 {}", full());
    assert_eq!(words(&record).len(), 35);
    decides(&full(), &record);
    for call in [CompleteResidual, NarrowResidual, NarrowResidualInOrder] {
        writes(call, &record, "", &record);
    }
    refuses(NarrowResidual, "F0000000 C4100001", "", 6);
    refuses(NarrowResidual, "F0000000 84100001", "", 8);
}

#[test]
fn the_most_of_a_sheet_is_127() {
    let fives = "05050505 ".repeat(16);
    let grants = format!(
        "84000001 00000000 {fives} 00000000 84000001 00000000 {} 00000000",
        each_but(&[])
    );
    let record = format!("E0000000 C7F00001 00000000 {fives} {}", each_but(&[5]));
    writes(Evaluate, &format!("A0000002 {grants}"), "", &record);
    let third = format!("A0000003 {grants} 80400001 00000000 3F3F0001 00000000");
    writes(Evaluate, &third, "", &record);
}

#[test]
fn over_127_in_the_resulting_record_is_11() {
    has_no_words(&over());
    has_no_words(&far_over());
    // Kept in a residual.
    for tree in [over(), far_over()] {
        let record = format!("F0000000 A0000002 {tree} {WAITING}");
        refuses(NarrowResidual, &record, "80", 11);
        refuses(NarrowResidualInOrder, &record, "80", 11);
    }
    // Both permits stay, and nothing is joined.
    let arms = format!("{} C0100001 00000000 06000000 {WAITING}", full());
    let record = format!("F0000000 A0000003 {arms}");
    writes(NarrowResidual, &record, "80", &record);
    writes(NarrowResidualInOrder, &record, "80", &record);
    refuses(CompleteResidual, &record, "", 11);
}

#[test]
fn over_127_on_the_way_does_no_harm() {
    for tree in [over(), far_over()] {
        let any = format!("A0000002 {tree} 60000003");
        decides(&any, "E0000000 C0000003 00000000");
        let all = format!("90000002 {tree} 60000000");
        decides(&all, "E0000000 C0000000 00000000");
        // A join to it passes over what it holds.
        let more = format!("A0000003 {tree} C0200001 00000000 05060000 60000003");
        decides(&more, "E0000000 C0000003 00000000");
    }
}

#[test]
fn a_union_grows_at_its_end() {
    let list = |held: &[u8], incoming: &[u8]| {
        let (held, incoming) = (held.to_vec(), incoming.to_vec());
        Union { held, incoming }.list()
    };
    assert_eq!(list(&[5], &[6, 6, 5]), [5, 6]);
    assert_eq!(list(&[5, 5], &[5, 6, 6]), [5, 5, 6]);
    assert_eq!(list(&[], &[3, 3, 2, 3]), [3, 2]);
    assert_eq!(list(&[3, 3, 2, 3], &[]), [3, 3, 2, 3]);
}

/// Sheets for which the original's answer was no use before: it evaluates and reduces them, and what it gives is what the plain walk gives.
#[test]
fn the_original_agrees_on_repeats() {
    let cases = draw_repeating(1, 20_000, &[Evaluate, PartialEvaluate]);
    let mut accepted = 0;
    for case in &cases {
        let record = [&[0xF000_0000], case.words.as_slice()].concat();
        let narrowed = reference::narrow_residual(&record, 0, &case.table, case.room);
        let Ok(Answer::Record(found)) = case.unnumbered().answer() else {
            continue;
        };
        assert_eq!(narrowed.as_ref(), Ok(&found), "{case:X?}");
        let completed = reference::complete_residual(&record, 0, &case.table, case.room);
        if case.call == Evaluate {
            assert_eq!(completed, Ok(found), "{case:X?}");
        }
        accepted += usize::from(repeats(case));
    }
    assert!(accepted > 5_000, "{accepted}");
    let met = Tally::of(&cases);
    assert!(met.repeated > 5_000, "{met:?}");
    assert!(met.granted.into_iter().all(|count| count > 300), "{met:?}");
    assert!(met.appended_before > 1_000, "{met:?}");
    assert!(met.onto_repeats > 1_000, "{met:?}");
    assert!(met.kept[0] > 100, "{met:?}");
    // No sheet comes to more.
    let none = [met.kept[1], met.kept[2], met.dropped[1], met.dropped[2]];
    assert_eq!(none, [0; 4]);
    assert_eq!(met.stored, [0; 3]);
}

/// Records are completed by the original; and with a known table that contradicts no entry narrowing, in either order, is completing.
#[test]
fn the_original_agrees_on_long_lists() {
    let cases = draw_repeating(2, 20_000, &[CompleteResidual]);
    for case in &cases {
        let Case { words, table, .. } = case;
        let (number, _) = written_under(case.number, CompleteResidual, words, table, case.room);
        for call in [NarrowResidual, NarrowResidualInOrder] {
            let narrowed = Case {
                call,
                ..case.clone()
            };
            let answer = narrowed.answer();
            if answer == Err(Refusal::Contradiction) {
                assert!(contradicts(&narrowed), "{case:X?}");
            } else if number != 4 {
                assert_eq!(answer, case.answer(), "{case:X?}");
            }
        }
    }
    let met = Tally::of(&cases);
    assert!(met.repeated > 8_000, "{met:?}");
    assert!(met.stored.into_iter().all(|count| count > 100), "{met:?}");
    assert!(met.appended_before > 500, "{met:?}");
    assert!(met.onto_repeats > 2_000, "{met:?}");
    let unions = [met.kept, met.dropped].concat();
    assert!(unions.into_iter().all(|count| count > 100), "{met:?}");
}

/// What the pair in sheet order and the narrowing meet: unions kept in residuals, and dropped.
#[test]
fn both_pairs_meet_unions_at_the_limits() {
    for calls in [
        [PartialEvaluate, NarrowResidual],
        [PartialEvaluateInOrder, NarrowResidualInOrder],
    ] {
        let met = Tally::of(&draw_repeating(3, 20_000, &calls));
        let unions = [met.kept, met.dropped].concat();
        assert!(unions.into_iter().all(|count| count > 50), "{met:?}");
        assert!(met.repeated > 8_000, "{met:?}");
    }
}

/// Chains over sheets with repeats: three times the words plus 513 is room enough for each call, and the end is one sitting's.
#[test]
fn chains_over_repeats() {
    let mut rng = Rng::new(5);
    let mut repeated = 0;
    for _ in 0..5_000 {
        let alphabet = Alphabet::draw(&mut rng).repeating();
        let mut grower = Grower::of_sheets(&mut rng, &alphabet);
        let sheet = write::tree(&grower.layered());
        let chain = Chain::over(&mut rng, sheet).under(rng.pick(&SHEETS));
        let (room, number) = (chain.room(), u32::from(chain.number));
        let sitting = reference::evaluate(&chain.sheet, number, &chain.known, room);
        let sitting = sitting.expect("room for it");
        for order in [Order::PermitsFirst, Order::SheetOrder] {
            for record in chain.records(order) {
                let completed = reference::complete_residual(&record, number, &chain.known, room);
                let completed = completed.expect("room for the completion");
                assert_eq!(decided(&completed), decided(&sitting), "{chain:X?}");
                if order == Order::SheetOrder {
                    let clause = super::in_order::clause;
                    assert_eq!(clause(&completed), clause(&sitting), "{chain:X?}");
                }
            }
        }
        repeated += usize::from(repeats(&Case {
            call: Evaluate,
            table: Vec::new(),
            words: chain.sheet,
            number: 0,
            room: 0,
        }));
    }
    assert!(repeated > 1_500, "{repeated}");
}

#[test]
fn a_repeat_is_an_obligation() {
    let record = format!("F0000000 {}", full());
    let case = Case {
        call: CarriesObligation,
        table: Vec::new(),
        words: words(&record),
        number: 0,
        room: 0,
    };
    assert_eq!(case.answer(), Ok(Answer::Says(true)));
}
