//! Points of document 01 that are easy to misread: one test for each, in its order.

use compare::case::Call::{
    self, CarriesObligation, CompleteResidual, Evaluate, IsDenyConstant, IsPermitConstant,
    NarrowResidual, PartialEvaluate, RequiredFacts, RequiredResidualFacts,
};
use compare::case::{Answer, Case};
use compare::generate::rng::Rng;
use compare::products::Products;
use compare::refusal::Refusal;
use gatekeep::{Condition, DenyShape, KnownFacts, ObligationId, Policy};

use super::{refuses, words, writes, written};

/// A refusal of a sheet, by all calls that read one.
#[track_caller]
fn sheet(given: &str, number: u8) {
    refuses(Evaluate, given, "", number);
    refuses(PartialEvaluate, given, "", number);
    asks(RequiredFacts, given, number);
}

/// A refusal of a record, or with 0 its acceptance, by all calls that read one.
#[track_caller]
fn record(given: &str, number: u8) {
    refuses(NarrowResidual, given, "", number);
    refuses(CompleteResidual, given, "", number);
    for call in [
        RequiredResidualFacts,
        IsPermitConstant,
        IsDenyConstant,
        CarriesObligation,
    ] {
        asks(call, given, number);
    }
}

#[track_caller]
fn asks(call: Call, given: &str, number: u8) {
    let found = answer(call, given).map_or_else(|refused| refused, |_| 0);
    assert_eq!(found, number, "{call:?} {given}");
}

/// The answer of a call without table and output, or its refusal's number.
fn answer(call: Call, given: &str) -> Result<Answer, u8> {
    let case = Case {
        call,
        table: Vec::new(),
        words: words(given),
        number: 0,
        room: 0,
    };
    case.answer().map_err(Refusal::number)
}

#[test]
fn r1_the_leftmost_faulty_field_decides() {
    sheet("80300001 00000000 07074000 00000000", 8);
    sheet("80300001 00000000 07400700 00000000", 8);
}

#[test]
fn r2_unused_tails_are_fields() {
    sheet("80200001 00000000 07070001 00000000", 8);
    sheet("80200001 00000000 07080001 00000000", 8);
    record("F0000001 40050001 60000001", 8);
    record("E0000000 C0000001 00000001 00050001", 8);
    record("E0000000 D0000000 00000000 00000001 00050001", 8);
}

#[test]
fn r3_a_count_says_nothing_about_presence() {
    record("F0000FFF 04000000", 8);
    record("F0000FFF C0000000", 6);
    record("F0000FFF 00000000", 6);
    sheet("80500001 00000000 07074000", 8);
    sheet("80500001 00000000 07080900", 6);
    sheet("90000FFF 50000000", 5);
    sheet("90000FFF 70000000", 6);
}

#[test]
fn r4_a_grants_obligation_count_over_64_is_a_field() {
    sheet("84100001", 8);
    sheet("84000001", 6);
    record("F0000000 84100001", 8);
    // Every count of a node 12's seven bits is allowed.
    record("E0000000 C4100001", 6);
    record("E0000000 C7F00001", 6);
}

#[test]
fn r5_the_33rd_level() {
    let below = |lists: usize, rest: &str| "90000001 ".repeat(lists) + rest;
    sheet(&below(31, "80000001 00000001 00000000"), 8);
    sheet(&below(31, "80000001 00000000 00000000"), 7);
    sheet(&below(31, "80000001 00000000 60000000"), 5);
    sheet(&below(31, "80000001 00000000"), 6);
    sheet(&below(32, ""), 6);
    sheet(&below(32, "00000000"), 5);
    sheet(&below(32, "6FFF0000"), 7);
    sheet(&below(32, "80000001"), 7);
}

#[test]
fn r6_the_tables_faults_come_first() {
    refuses(CompleteResidual, "E0000000 C0000001 00000000", "80", 4);
    refuses(NarrowResidual, "E0000000 C0000001 00000000", "C0", 3);
    refuses(Evaluate, "60000001", "03", 3);
    refuses(Evaluate, "10000000", "03", 3);
}

#[test]
fn r7_questions_have_no_table_and_no_output() {
    let mut rng = Rng::new(7);
    for call in Call::ALL.into_iter().filter(|call| !call.writes()) {
        for _ in 0..10_000 {
            let length = rng.below(6);
            let case = Case {
                call,
                table: Vec::new(),
                words: (0..length).map(|_| rng.word() & 0xF303_0303).collect(),
                number: 0,
                room: 0,
            };
            if let Err(refusal) = case.answer() {
                assert!(matches!(refusal.number(), 1 | 5..=8 | 10), "{case:?}");
            }
        }
    }
}

#[test]
fn r8_kinds() {
    for kind in "CDEF".chars() {
        sheet(&format!("{kind}0000000 00000000 00000000"), 5);
    }
    for kind in "012345".chars() {
        sheet(&format!("{kind}0000000"), 5);
        record(&format!("F0000000 {kind}0000000"), 5);
    }
    for kind in "6789ABCDEF".chars() {
        sheet(&format!("80000001 00000000 {kind}0000000"), 5);
    }
    for kind in "EF".chars() {
        record(&format!("F0000000 {kind}0000000"), 5);
    }
    for kind in "6789AB".chars() {
        record(&format!("E0000000 {kind}0000000"), 5);
    }
    for kind in "0123456789ABCD".chars() {
        record(&format!("{kind}0000000"), 5);
    }
}

#[test]
fn r9_a_records_lead_is_no_level() {
    let below = |lists: usize, rest: &str| "90000001 ".repeat(lists) + rest;
    record(&("F0000000 ".to_owned() + &below(31, "90000000")), 0);
    record(&("F0000000 ".to_owned() + &below(32, "90000000")), 7);
    writes(
        Evaluate,
        &below(31, "A0000000"),
        "",
        "E0000000 D0000000 00000000 00000000",
    );
}

#[test]
fn r10_fields_that_must_be_0() {
    record("E0000000 C8000001 00000000", 8);
    record("E0000000 C0000001 00010000", 8);
    record("E0000000 D0000001 00000000 00000000", 8);
    record("E0000000 D0000000 00010000 00000000", 8);
    record("E0000000 D0000000 00000001 00000000", 8);
    record("E0000000 C0200001 00000000 07070001", 8);
    sheet("80000001 00010000 00000000", 8);
    sheet("80000001 00000001 00000000", 8);
}

#[test]
fn r11_presence_2_is_kept() {
    let given = "F0000001 80050000 60000001";
    writes(
        CompleteResidual,
        given,
        "",
        "E0000001 80050000 C0000001 00000000",
    );
    writes(
        NarrowResidual,
        given,
        "",
        "E0000001 80050000 C0000001 00000000",
    );
}

#[test]
fn r12_the_first_prior_entry_stays() {
    let given = "F0000001 40050000 88000003 00000000 20000005";
    let record = "E0000001 40050000 DC000003 00000000 00000001 00050000";
    writes(NarrowResidual, given, "", record);
    writes(CompleteResidual, given, "", record);
}

#[test]
fn r13_a_constant_on_top_resolves() {
    let record = "E0000000 C0000001 00000000";
    writes(NarrowResidual, "F0000000 60000001", "", record);
    writes(CompleteResidual, "F0000000 60000001", "", record);
}

#[test]
fn r14_duplicates() {
    let resolved = "E0000003 40050005 40050000 C0000001 00000000";
    writes(NarrowResidual, resolved, "", resolved);
    writes(CompleteResidual, resolved, "", resolved);
    let pending = "F0000003 40050005 40060000 60000001";
    let record = "E0000002 40054006 C0000001 00000000";
    writes(NarrowResidual, pending, "", record);
    writes(CompleteResidual, pending, "", record);
}

#[test]
fn r15_a_record_by_hand_may_change() {
    let given = "F0000000 A0000003 88000003 00000000 20000005 70000000 60000001";
    let record = "F0000000 A0000002 C0000001 00000000 88000003 00000000 20000005";
    writes(NarrowResidual, given, "AA AA", record);
    writes(NarrowResidual, record, "AA AA", record);
}

#[test]
fn r16_fields_of_a_13_are_free() {
    let resolved = "E0000000 D8000000 80018002 00000001 00050000";
    writes(NarrowResidual, resolved, "", resolved);
    writes(CompleteResidual, resolved, "", resolved);
    let pending = "F0000000 D8000000 80018002 00000001 00050000";
    writes(NarrowResidual, pending, "", resolved);
    writes(CompleteResidual, pending, "", resolved);
}

#[test]
fn r17_a_record_of_one_word() {
    record("", 1);
    record("E0000000", 6);
    record("F0000000", 6);
}

#[test]
fn r18_a_long_list_that_a_fold_drops() {
    // Any of a permit of 3 and a grant of 1 on 4,096 facts: the join keeps the permit alone.
    let facts = |count: u32| {
        let mut list = vec![0x2000_0000; count as usize + 1];
        list[0] = 0x4000_0000 | count;
        list
    };
    let grant = [words("80000001 00000000 40000002"), facts(4_000), facts(96)].concat();
    let table = [0x40];
    let dropped = [words("F0000000 A0000002 60000003"), grant.clone()].concat();
    let expected = words("E0000001 40000000 C0000003 00000000");
    for call in [NarrowResidual, CompleteResidual] {
        let found = written(call, &dropped, &table, 16_384);
        assert_eq!(found, (0, expected.clone()));
        let kept = [words("F0000000"), grant.clone()].concat();
        assert_eq!(written(call, &kept, &table, 16_384).0, 11);
    }
}

#[test]
fn r19_a_resolved_record_needs_room_too() {
    let given = words("E0000000 C0000001 00000000");
    for call in [NarrowResidual, CompleteResidual] {
        assert_eq!(written(call, &given, &[], 3).0, 0);
        assert_eq!(written(call, &given, &[], 2).0, 11);
    }
}

#[test]
fn r24_a_known_grant_can_name_an_unknown_fact() {
    let sheet = "80000001 00000000 40000002 20000000 20000001";
    let record = "E0000001 00010000 D4000001 00000000 00000001 00000000";
    writes(PartialEvaluate, sheet, "80", record);
    writes(NarrowResidual, &format!("F0000000 {sheet}"), "80", record);
    let sheet = "80000001 00000000 50000003 20000000 30000000 20000001 20000002";
    let record = "E0000001 00010000 C0000001 00000001 00010000";
    writes(PartialEvaluate, sheet, "80", record);
    let sheet = "80000001 00000000 50000002 30000000 20000000 20000001";
    let record = "E0000001 40010000 C0000001 00000001 00000000";
    writes(PartialEvaluate, sheet, "90", record);
}

#[test]
fn r25_a_single_pending_arm_stays_in_its_list() {
    let sheet = "90000001 88000003 00000000 40000001 20000005";
    let record = "F0000000 90000001 88000003 00000000 20000005";
    writes(PartialEvaluate, sheet, "00 20", record);
}

#[test]
fn r26_questions_to_a_resolved_record() {
    let permit = "E0000000 C0100001 00000001 07000000 00050000";
    let deny = "E0000000 DC000003 00000000 00000001 00050000";
    for (given, permits) in [(permit, true), (deny, false)] {
        let says = |call| answer(call, given);
        assert_eq!(says(IsPermitConstant), Ok(Answer::Says(permits)));
        assert_eq!(says(IsDenyConstant), Ok(Answer::Says(!permits)));
        assert_eq!(says(CarriesObligation), Ok(Answer::Says(permits)));
        let Ok(Answer::Facts(set)) = says(RequiredResidualFacts) else {
            panic!("{given} is accepted");
        };
        assert_eq!(set.count(), 0);
    }
}

#[test]
fn r27_the_original_keeps_repeated_obligations() {
    let obligation = ObligationId::new("cite").expect("a name");
    let policy = Policy::Grant {
        outcome: Products(1),
        condition: Condition::Always,
        label: None,
        deny_shape: DenyShape::Forbidden,
        obligations: vec![obligation.clone(), obligation],
        reason: None,
    };
    let decision = gatekeep::evaluate(&policy, &KnownFacts::new());
    assert_eq!(decision.obligations.len(), 2);
    writes(
        Evaluate,
        "80200001 00000000 07070000 00000000",
        "",
        "E0000000 C0200001 00000000 07070000",
    );
}
