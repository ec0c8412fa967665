//! Document 01's worked sheets and the wrong turns that it excludes.

use compare::case::Call::{CompleteResidual, Evaluate, PartialEvaluate};
use compare::reference;

use super::{refuses, words, writes, written};

/// The record of a Deny node and of an empty list.
const PLAIN_DENY: &str = "E0000000 D0000000 00000000 00000000";
/// D's sheet.
const D: &str = "88000003 00000000 20000005";
/// F's record.
const F: &str = "F0000000 88000003 00000000 20000005";

#[test]
fn sheet_a() {
    writes(Evaluate, "60000001", "", "E0000000 C0000001 00000000");
}

#[test]
fn sheets_b_and_c() {
    for sheet in ["70000000", "90000000", "A0000000"] {
        writes(Evaluate, sheet, "", PLAIN_DENY);
    }
}

#[test]
fn sheets_d_and_e() {
    let d = "E0000001 40050000 C0000003 00000001 00050000";
    let e = "E0000001 C0050000 DC000003 00000000 00000001 00050000";
    writes(Evaluate, D, "00 10", d);
    writes(Evaluate, D, "", e);
}

#[test]
fn sheet_f() {
    writes(PartialEvaluate, D, "00 20", F);
}

#[test]
fn sheet_g() {
    let all = "90000002 60000003 60000006";
    let any = "A0000002 60000003 60000006";
    writes(Evaluate, all, "", "E0000000 C0000002 00000000");
    writes(Evaluate, any, "", "E0000000 C0000007 00000000");
}

#[test]
fn sheet_h() {
    let sheet = "90000002 80100001 00000000 07000000 20000005 60000001";
    let pending = "F0000000 90000002 C0000001 00000000 80100001 00000000 07000000 20000005";
    let sitting = "E0000001 40050000 C0100001 00000001 07000000 00050000";
    let staged = "E0000001 40050000 C0000001 00000000";
    writes(Evaluate, sheet, "00 10", sitting);
    writes(PartialEvaluate, sheet, "00 20", pending);
    writes(CompleteResidual, pending, "00 10", staged);
}

/// Lists within each other, with an empty one at the bottom.
fn nested(levels: usize) -> Vec<u32> {
    let mut sheet = vec![0x9000_0001; levels - 1];
    sheet.push(0x9000_0000);
    sheet
}

/// An Any of Denies.
fn long(length: u32) -> Vec<u32> {
    let mut sheet = vec![0x7000_0000; length as usize];
    sheet[0] = 0xA000_0000 | (length - 1);
    sheet
}

#[test]
fn sheet_i() {
    let number = |sheet: &[u32], table: &[u8]| written(Evaluate, sheet, table, 100).0;
    assert_eq!(number(&nested(32), &[]), 0);
    assert_eq!(number(&nested(33), &[]), 7);
    assert_eq!(number(&long(4_096), &[]), 0);
    assert_eq!(number(&long(4_097), &[]), 1);
    assert_eq!(number(&words("60000001"), &[0; 256]), 0);
    assert_eq!(number(&words("60000001"), &[0; 257]), 2);
}

#[test]
fn sheet_i_outputs() {
    let reduced = |room| written(PartialEvaluate, &words(D), &[0x00, 0x20], room);
    assert_eq!(reduced(4), (0, words(F)));
    assert_eq!(reduced(3), (11, Vec::new()));
}

#[test]
fn a_refused_call_leaves_the_output() {
    let mut output = [1, 2, 3, 4, 5, 6];
    let reduce = |room| reference::partial_evaluate(&words(D), 0, &[0x00, 0x20], room);
    let refused = reduce(3);
    let given = refused.as_deref().map_err(|refusal| *refusal);
    assert!(reference::put(given, &mut output).is_err());
    assert_eq!(output, [1, 2, 3, 4, 5, 6]);
    let accepted = reduce(6).expect("room for it");
    assert_eq!(reference::put(Ok(&accepted), &mut output), Ok(4));
    assert_eq!(output[..4], words(F));
    assert_eq!(output[4..], [5, 6]);
}

#[test]
fn an_empty_condition_all_is_false() {
    let denied = "E0000000 D4000001 00000000 00000000";
    writes(Evaluate, "80000001 00000000 40000000", "", denied);
    writes(PartialEvaluate, "80000001 00000000 40000000", "", denied);
}

#[test]
fn a_missing_fact_is_absent() {
    let denied = "E0000001 C0050000 DC000003 00000000 00000001 00050000";
    writes(PartialEvaluate, D, "", denied);
    writes(PartialEvaluate, D, "AA", denied);
}

#[test]
fn all_does_not_unite_obligations() {
    let sheet = "90000002 80100001 00000000 07000000 00000000 80100001 00000000 08000000 00000000";
    writes(Evaluate, sheet, "", "E0000000 C0100001 00000000 07000000");
}

#[test]
fn any_goes_on_after_a_permit() {
    let sheet = "A0000003 60000001 70000000 60000002";
    writes(Evaluate, sheet, "", "E0000000 C0000003 00000000");
}

#[test]
fn a_residual_holds_permits_first() {
    let sheet = "A0000003 88000003 00000000 20000005 70000000 60000001";
    let record = "F0000000 A0000002 C0000001 00000000 88000003 00000000 20000005";
    writes(PartialEvaluate, sheet, "00 20", record);
}

#[test]
fn an_any_without_permits_holds_its_first_deny_first() {
    let sheet = "A0000003 88000003 00000000 20000005 80000001 00000000 10000000 70000000";
    let record = "F0000000 A0000002 D4000001 00000000 00000000 88000003 00000000 20000005";
    writes(PartialEvaluate, sheet, "00 20", record);
}

#[test]
fn a_repeated_fact_stays_in_its_clause() {
    let sheet = "80000001 00000000 40000002 20000000 20000000";
    let record = "E0000001 40000000 C0000001 00000002 00000000";
    writes(Evaluate, sheet, "40", record);
}

#[test]
fn the_first_cause_in_order_decides() {
    let long_table = "00 ".repeat(257);
    refuses(Evaluate, "", &long_table, 1);
    refuses(Evaluate, "00000000", &long_table, 2);
    refuses(Evaluate, "00000000", "2C", 4);
    refuses(Evaluate, "00000000", "0E", 3);
    refuses(PartialEvaluate, "00000000", "2C", 3);
    refuses(PartialEvaluate, "00000000", "20", 5);
    refuses(PartialEvaluate, "70000001 70000000", "", 8);
    refuses(PartialEvaluate, "70000000 70000000", "", 10);
    let (number, _) = written(Evaluate, &words("70000000 70000000"), &[], 0);
    assert_eq!(number, 10);
}
