//! Faults of a text: the line, what was found and what is due.

use command::text::assemble;

use super::{assembled, failure, hex, words};

#[track_caller]
fn fault(text: &str, due: &str) {
    let fault = assemble(text).expect_err("a fault");
    assert_eq!(fault.to_string(), due);
}

#[test]
fn places() {
    fault(
        "has 5",
        "line 1: found `has`, but a policy (permit, deny, grant, all, any, or-else) is due",
    );
    fault(
        "any\n  permit-with-trace 0001",
        "line 2: found `permit-with-trace`, but a policy (permit, deny, grant, all, any, or-else) is due",
    );
    fault(
        "grant 0001\n  # the condition\n\n  permit 0001",
        "line 4: found `permit`, but a condition (always, never, has, not, all, any) is due",
    );
    fault(
        "resolved\npermit 0001",
        "line 2: found `permit`, but a decision (permit-with-trace, deny-with-trace) is due",
    );
    fault(
        "any\n  any\n    pending",
        "line 3: found `pending`, but a policy (permit, deny, grant, all, any, or-else) is due",
    );
    fault(
        "pending\ndeny\nconsulted 5=present",
        "line 3: found a second tree, but the end of the text is due",
    );
    fault(
        "deny\ndeny",
        "line 2: found a second tree, but the end of the text is due",
    );
}

#[test]
fn nodes_under_a_node() {
    fault(
        "any\n  deny\n    deny",
        "line 3: found a further node under `deny`, but none is due",
    );
    fault(
        "grant 0001\n  has 5\n  has 6",
        "line 3: found a further node under `grant`, but at most 1 is due",
    );
    fault(
        "all\n  or-else\n    deny\n    deny\n    deny",
        "line 5: found a further node under `or-else`, but at most 2 is due",
    );
    fault(
        "all\n  grant 0001\n    not\n  deny",
        "line 3: found 0 of 1 nodes under `not`, but a condition (always, never, has, not, all, any) is due",
    );
    fault(
        "or-else\n  deny",
        "line 1: found 1 of 2 nodes under `or-else`, but a policy (permit, deny, grant, all, any, or-else) is due",
    );
    fault(
        "# nothing left\nresolved\nconsulted 5=present",
        "line 2: found a record without a tree, but a decision (permit-with-trace, deny-with-trace) is due",
    );
}

#[test]
fn indentations() {
    fault(
        "any\n   deny",
        "line 2: found an indentation of 3, but one of two spaces for each level is due",
    );
    fault(
        "any\n    deny",
        "line 2: found an indentation of 4, but one of at most 2 is due",
    );
    fault(
        "  any",
        "line 1: found an indentation of 2, but one of at most 0 is due",
    );
    fault(
        "  pending\n  deny",
        "line 1: found an indentation of 2, but one of at most 0 is due",
    );
    fault(
        "pending\n  consulted 5=present\ndeny",
        "line 2: found an indentation of 2, but one of at most 0 is due",
    );
    fault(
        "any\n\tdeny",
        "line 2: found an indentation by a tab or the like, but one by spaces is due",
    );
}

#[test]
fn numbers() {
    for (text, found, due) in [
        ("grant 0001\n  has 1024", "`1024`", "a fact from 0 to 1023"),
        (
            "grant 0001\n  has",
            "the end of the line",
            "a fact from 0 to 1023",
        ),
        ("grant 0001\n  has +5", "`+5`", "a fact from 0 to 1023"),
        ("grant 0001\n  has five", "`five`", "a fact from 0 to 1023"),
        (
            "any\n  grant 0001 obligations 64",
            "`64`",
            "an obligation from 0 to 63",
        ),
        (
            "any\n  grant 0001 obligations 256",
            "`256`",
            "an obligation from 0 to 63",
        ),
        (
            "any\n  grant 0001 obligations 7, 8",
            "an empty place in `7,`",
            "an obligation from 0 to 63",
        ),
        (
            "any\n  grant 0001 obligations",
            "the end of the line",
            "an obligation from 0 to 63",
        ),
        (
            "any\n  grant 0001 label 32768",
            "`32768`",
            "a label from 0 to 32767",
        ),
        (
            "any\n  grant 0001 reason 65536",
            "`65536`",
            "a reason from 0 to 32767",
        ),
        (
            "any\n  permit 003",
            "`003`",
            "a set of products in four hexadecimal digits",
        ),
        (
            "any\n  permit +003",
            "`+003`",
            "a set of products in four hexadecimal digits",
        ),
        (
            "any\n  permit",
            "the end of the line",
            "a set of products in four hexadecimal digits",
        ),
        (
            "any\n  permit 0003 label 1",
            "`label`",
            "the end of the line",
        ),
        ("any\n  deny 0003", "`0003`", "the end of the line"),
        (
            "pending\ndeny-with-trace denied 10000",
            "`10000`",
            "a set of products in four hexadecimal digits",
        ),
        (
            "pending\npermit-with-trace 0001 facts 5,1024",
            "`1024`",
            "a fact from 0 to 1023",
        ),
    ] {
        fault(text, &format!("line 2: found {found}, but {due} is due"));
    }
    let due = "a fact from 0 to 1023 with =present, =absent, =unknown or =silent";
    for entry in ["5", "5=there", "1024=silent", "5=Silent"] {
        let text = format!("pending\nconsulted 4=absent,{entry}\ndeny");
        fault(&text, &format!("line 2: found `{entry}`, but {due} is due"));
    }
}

#[test]
fn sheet_numbers() {
    for number in ["65536", "-1", "+7", "0x7"] {
        fault(
            &format!("pending sheet {number}\ndeny"),
            &format!("line 1: found `{number}`, but a sheet's number from 0 to 65535 is due"),
        );
    }
    fault(
        "resolved sheet\ndeny-with-trace",
        "line 1: found the end of the line, but a sheet's number from 0 to 65535 is due",
    );
    fault(
        "resolved 7\ndeny-with-trace",
        "line 1: found `7`, but the end of the line or sheet is due",
    );
    fault(
        "pending sheet 7 sheet 7\ndeny",
        "line 1: found `sheet`, but the end of the line is due",
    );
    assert_eq!(
        assembled("pending sheet 0\ndeny"),
        assembled("pending\ndeny")
    );
    assert_eq!(assembled("pending sheet 007\ndeny")[0], 0xF000_7000);
}

#[test]
fn parts_of_a_clause() {
    fault(
        "grant 0001 label 1 label 1\n  always",
        "line 1: found `label`, but the end of the line or hidden or reason or obligations is due",
    );
    fault(
        "grant 0001 facts 5\n  always",
        "line 1: found `facts`, but the end of the line or hidden or label or reason or obligations is due",
    );
    fault(
        "resolved\npermit-with-trace 0001 hidden",
        "line 2: found `hidden`, but the end of the line or label or obligations or facts is due",
    );
    fault(
        "resolved\ndeny-with-trace 0001",
        "line 2: found `0001`, but the end of the line or hidden or denied or label or reason or facts is due",
    );
    let ordered = "grant 0001 hidden label 4 reason 9 obligations 7,12\n  always";
    let otherwise = "grant 0001 obligations 7,12 reason 9 label 4 hidden\n  always";
    assert_eq!(assembled(ordered), assembled(otherwise));
}

/// A list of this many items, all the same.
fn list(item: &str, length: usize) -> String {
    vec![item; length].join(",")
}

#[test]
fn lengths_of_lists() {
    let long =
        |most: usize| format!("line 2: found a longer list, but a list of at most {most} is due");
    let granted = |length| {
        format!(
            "any\n  grant 0001 obligations {}\n    always",
            list("7", length)
        )
    };
    assert_eq!(assembled(&granted(64)).len(), 20);
    fault(&granted(65), &long(64));

    let stored = |length| {
        format!(
            "resolved\npermit-with-trace 0001 obligations {}",
            list("7", length)
        )
    };
    assert_eq!(assembled(&stored(127)).len(), 3 + 32);
    fault(&stored(128), &long(127));

    let facts = |length| {
        format!(
            "resolved\npermit-with-trace 0001 facts {}",
            list("5", length)
        )
    };
    assert_eq!(assembled(&facts(4_095)).len(), 3 + 2_048);
    fault(&facts(4_096), &long(4_095));

    let consulted = |length| format!("pending\nconsulted {}\ndeny", list("5=present", length));
    assert_eq!(assembled(&consulted(4_095)).len(), 2 + 2_048);
    fault(&consulted(4_096), &long(4_095));

    let arms = |count: usize| format!("any\n{}", "  deny\n".repeat(count));
    assert_eq!(assembled(&arms(4_095)).len(), 4_096);
    fault(
        &arms(4_096),
        "line 4097: found a further node under `any`, but at most 4095 is due",
    );
}

#[test]
fn what_was_found_stays_on_one_line() {
    let message = failure(
        2,
        "assemble --from text",
        format!("\u{1b}[2J{}", "x".repeat(5_000)),
    );
    assert_eq!(message.lines().count(), 1);
    assert!(
        message.len() < 200 && !message.contains('\u{1b}'),
        "{message}"
    );
}

#[test]
fn comments_and_blank_lines_say_nothing() {
    let bare = "any\n  grant 0003\n    has 5\n  deny\n";
    let full = "# A sheet – für alle.\r\n\r\nany # one of\r\n\t# odd\r\n  grant  0003 #label 4\r\n    has 5\r\n\r\n  deny#\r\n";
    assert_eq!(assembled(full), assembled(bare));
    assert_eq!(
        hex(&assembled(bare)),
        "A0000002 80000003 00000000 20000005 70000000"
    );
    assert_eq!(assembled(""), words(""));
    assert_eq!(assembled("# nothing\n"), words(""));
}

/// Lists of one node within each other, with a deny at the bottom.
fn nested(levels: usize) -> String {
    let lines = (0..levels).map(|depth| {
        let name = if depth + 1 == levels { "deny" } else { "all" };
        format!("{:1$}{name}\n", "", 2 * depth)
    });
    lines.collect()
}

#[test]
fn depth_is_the_proved_readers_to_judge() {
    super::accepted("assemble", nested(32));
    for levels in [33, 34, 2_500] {
        let message = failure(1, "assemble", nested(levels));
        assert_eq!(
            message,
            "refused 7: the tree has more than 32 levels (line 33)\n"
        );
    }
}
