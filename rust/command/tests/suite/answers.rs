//! Tables as they are said at the command line, and the facts that are required.

use std::fs;

use super::{accepted, answer, failure, folder};

const SHEET: &str = "any\n  grant 0001 obligations 7\n    has 5\n  grant 0002\n    has 6\n";

#[test]
fn facts_that_are_not_named() {
    let same = |call: &str, facts: &str, table: &str, input: &str| {
        let named = answer(&format!("{call} --to hex{facts}"), input);
        assert_eq!(
            named,
            answer(&format!("{call} --to hex --table-hex {table}"), input)
        );
    };
    let pending = answer("reduce", SHEET);
    // Fact 4 stands in the upper two bits of the second byte.
    for (call, input) in [("evaluate", SHEET), ("complete", &pending)] {
        same(call, "", "00", input);
        same(call, " --facts 5=present", "0010", input);
        same(
            call,
            " --facts 5=present --facts 6=present,5=present",
            "0014",
            input,
        );
    }
    for (call, input) in [("reduce", SHEET), ("narrow", &pending)] {
        same(call, "", "aaaa", input);
        same(call, " --facts 5=present", "aa9a", input);
        same(call, " --facts 6=absent,5=unknown", "aaa2", input);
    }
    assert_ne!(
        answer("reduce", SHEET),
        answer("reduce --table-hex=", SHEET)
    );
    assert_eq!(answer("required", &pending), "5\n6\n");
}

/// A record tells whether a fact was entered as absent or the table ended before it.
#[test]
fn silence_is_told() {
    let grant = "grant 0003 hidden\n  has 5\n";
    let told = |arguments: &str, said: &str| {
        let shown = answer(&format!("evaluate{arguments}"), grant);
        let comment = format!("\n# Facts consulted: 5 {said}.\n");
        assert!(shown.contains(&comment), "{arguments}: {shown}");
        let line = format!("\nconsulted 5={said}\n");
        assert!(shown.contains(&line), "{arguments}: {shown}");
        assert_eq!(
            answer("assemble", &shown),
            answer(&format!("evaluate --to hex{arguments}"), grant)
        );
    };
    for silent in ["", " --table-hex 00", " --facts 3=present"] {
        told(silent, "silent");
    }
    // Whatever fact of its byte is named.
    for entered in [
        " --facts 5=absent",
        " --table-hex 0000",
        " --facts 7=present",
        " --facts 8=absent",
    ] {
        told(entered, "absent");
    }
    // What was told stays, and the table decides.
    let record = "pending\nconsulted 5=silent\ngrant 0003\n  has 5\n";
    for call in ["narrow", "complete"] {
        let shown = answer(&format!("{call} --facts 5=present --to hex"), record);
        let permitted = "E0000001 C0050000 C0000003 00000001 00050000\n";
        assert_eq!(shown, permitted, "{call}");
    }
}

#[test]
fn obligations_may_repeat() {
    let grant = "grant 0001 obligations 7,9,7\n  always\n";
    let held = "E0000000 C0300001 00000000 07090700\n";
    assert_eq!(answer("evaluate --to hex", grant), held);
    let shown = answer("show", held);
    assert!(shown.contains("\n# Obligations: 7, 9, 7.\n"), "{shown}");
    assert!(shown.ends_with("\npermit-with-trace 0001 obligations 7,9,7\n"));
    assert_eq!(answer("assemble", &shown), held);
    // A join appends what isn't held by then.
    let any =
        "any\n  grant 0001 obligations 5\n    always\n  grant 0001 obligations 6,6,5\n    always\n";
    let joined = "E0000000 C0200001 00000000 05060000\n";
    assert_eq!(answer("evaluate --to hex", any), joined);
    // A stored permit may have more than a grant.
    let full = format!(
        "pending\npermit-with-trace 0001 obligations {}\n",
        ["5"; 127].join(",")
    );
    assert!(answer("complete", &full).ends_with(full.trim_start_matches("pending")));
}

#[test]
fn policies_may_stay_in_sheet_order() {
    let sheet = "all\n  grant 0001 obligations 7\n    has 5\n  permit 0001\n";
    let record = answer("reduce --in-order --to hex", sheet);
    let held = "F0000000 90000002 80100001 00000000 07000000 20000005 C0000001 00000000\n";
    assert_eq!(record, held);
    assert_ne!(record, answer("reduce --to hex", sheet));
    // The narrowing keeps the order that it finds, and the other one doesn't.
    assert_eq!(answer("narrow --in-order --to hex", &record), record);
    assert_ne!(answer("narrow --to hex", &record), record);
    let sitting = answer("evaluate --facts 5=present --to hex", sheet);
    for last in ["complete", "narrow --in-order"] {
        let staged = answer(&format!("{last} --facts 5=present --to hex"), &record);
        assert_eq!(staged, sitting, "{last}");
    }
    for other in ["evaluate", "complete", "required", "show"] {
        let message = failure(2, &format!("{other} --in-order"), sheet);
        assert!(message.contains("--in-order"), "{message}");
    }
}

#[test]
fn records_carry_their_sheets_number() {
    let sheet = "grant 0003 hidden\n  has 5\n";
    let hex = |arguments: &str, input: &str| answer(&format!("{arguments} --to hex"), input);
    for order in ["", " --in-order"] {
        let pending = answer(&format!("reduce --sheet 7{order}"), sheet);
        assert!(pending.contains("\npending sheet 7\n"), "{pending}");
        let words = "F0007000 88000003 00000000 20000005\n";
        assert_eq!(answer("assemble", &pending), words);
        assert_eq!(answer("show", words), pending);
        assert_eq!(answer("required", &pending), "5\n");
        let narrow = format!("narrow --sheet 7{order}");
        assert_eq!(hex(&narrow, &pending), words);
        assert_eq!(
            hex(&format!("{narrow} --facts 5=present"), &pending),
            "E0007001 40050000 C0000003 00000001 00050000\n"
        );
        assert_eq!(
            hex("complete --sheet 7", &pending),
            "E0007001 C0050000 DC000003 00000000 00000001 00050000\n"
        );
    }
    assert_eq!(
        hex("evaluate --sheet 65535", "permit 0001"),
        "EFFFF000 C0000001 00000000\n"
    );
    // 0 is the number of a sheet without one, and is left out.
    let unnumbered = answer("evaluate", sheet);
    assert_eq!(answer("evaluate --sheet 0", sheet), unnumbered);
    assert!(unnumbered.contains("\nresolved\n"), "{unnumbered}");
    for number in ["65536", "-1", "+7", "seven", ""] {
        let message = failure(2, &format!("evaluate --sheet={number}"), sheet);
        assert!(message.contains("--sheet"), "{message}");
    }
    for other in ["required", "show", "assemble"] {
        let message = failure(2, &format!("{other} --sheet 7"), sheet);
        assert!(message.contains("--sheet"), "{message}");
    }
}

#[test]
fn all_facts_can_be_named() {
    let sheet = "grant 0001\n  all\n    has 0\n    has 1023\n";
    let record = answer("reduce --facts 0=present,1023=present --to hex", sheet);
    assert_eq!(record, "E0000002 400043FF C0000001 00000002 000003FF\n");
    let record = answer("evaluate --facts 1023=present,0=present --to hex", sheet);
    assert_eq!(record, "E0000002 400043FF C0000001 00000002 000003FF\n");
    let far = "grant 0001\n  has 1022\n";
    assert_eq!(
        answer("required", answer("reduce --facts 1023=present", far)),
        "1022\n"
    );
}

#[test]
fn tables_are_taken_as_they_are() {
    let table = folder("tables").join("table");
    fs::write(&table, [0x00, 0x10]).expect("a file");
    let named = accepted(&format!("reduce --table {}", table.display()), SHEET);
    assert_eq!(named, accepted("reduce --table-hex 0010", SHEET));
    fs::write(&table, vec![0; 257]).expect("a file");
    let message = failure(1, &format!("reduce --table {}", table.display()), SHEET);
    assert!(message.starts_with("refused 2: "), "{message}");
}

#[test]
fn required_facts_are_those_of_the_kind_of_words() {
    assert_eq!(answer("required", SHEET), "5\n6\n");
    assert_eq!(answer("required", format!("pending\n{SHEET}")), "5\n6\n");
    assert_eq!(answer("required", "resolved\ndeny-with-trace facts 5"), "");
    assert_eq!(answer("required", "deny"), "");
}
