//! What a curator sees.

use super::{answer, assembled, hex};

/// The text form of document 01's nodes, and its words.
const SHEET: &str = "\
any
  grant 0003 hidden label 4 reason 9 obligations 7,12
    all
      has 5
      not
        has 6
      any
      always
      never
  or-else
    permit 00FF
    deny
  all
";
const SHEET_WORDS: &str = "A0000003 88200003 80048009 070C0000 40000005 20000005 30000000 20000006 \
     50000000 00000000 10000000 B0000000 600000FF 70000000 90000000";

const PENDING: &str = "\
pending
consulted 5=present,6=absent,1023=unknown,9=silent
any
  permit-with-trace 0003 label 4 obligations 7 facts 5,6
  deny-with-trace hidden denied 0003 label 1 reason 2 facts 5
  deny-with-trace
  grant 8000
    has 9
";
const PENDING_WORDS: &str = "F0000004 40050006 83FFC009 A0000004 C0100003 80040002 07000000 00050006 \
     DC000003 80018002 00000001 00050000 D0000000 00000000 00000000 80008000 00000000 20000009";

#[test]
fn each_node_has_its_words() {
    assert_eq!(hex(&assembled(SHEET)), SHEET_WORDS);
    assert_eq!(hex(&assembled(PENDING)), PENDING_WORDS);
}

#[test]
fn sheets() {
    let shown = answer("show", SHEET_WORDS);
    assert_eq!(shown, format!("# A sheet. It names facts 5, 6.\n{SHEET}"));
    assert_eq!(
        answer("show", "60008001"),
        "# A sheet. It names no fact.\npermit 8001\n"
    );
}

#[test]
fn pending_records() {
    let comments = "# Pending. Still needed: fact 9.\n\
                    # Facts consulted: 5 present, 6 absent, 1023 unknown, 9 silent.\n";
    assert_eq!(
        answer("show", PENDING_WORDS),
        format!("{comments}{PENDING}")
    );
}

#[test]
fn numbered_records() {
    let numbered = |words: &str| words.replacen("F0000004", "FFFFF004", 1);
    let shown = answer("show", numbered(PENDING_WORDS));
    assert!(
        shown.starts_with("# Pending. Still needed: fact 9.\n# Sheet: 65535.\n# Facts consulted: "),
        "{shown}"
    );
    let text = PENDING.replacen("pending", "pending sheet 65535", 1);
    assert!(shown.ends_with(&text), "{shown}");
    assert_eq!(hex(&assembled(&text)), numbered(PENDING_WORDS));
    let resolved = answer("show", "E0001000 C0000001 00000000");
    assert!(
        resolved.ends_with("\nresolved sheet 1\npermit-with-trace 0001\n"),
        "{resolved}"
    );
}

#[test]
fn permits() {
    assert_eq!(
        answer(
            "show",
            "E0000001 40050000 C0200003 80040003 070C0000 00050006 00050000"
        ),
        "# Permit: products 0, 1.\n\
         # Obligations: 7, 12.\n\
         # Decisive facts: 5, 6, 5; label 4.\n\
         # Facts consulted: 5 present.\n\
         resolved\n\
         consulted 5=present\n\
         permit-with-trace 0003 label 4 obligations 7,12 facts 5,6,5\n"
    );
    assert_eq!(
        answer("show", "E0000000 C0000000 00000000"),
        "# Permit: no product.\n\
         # Obligations: none.\n\
         # Decisive facts: none, since several clauses were joined or the one that decided asks for no fact.\n\
         # Facts consulted: none.\n\
         resolved\n\
         permit-with-trace 0000\n"
    );
    let labelled = answer("show", "E0000000 C0000001 80040000");
    assert!(
        labelled.contains("\n# Decisive facts: none; label 4.\n"),
        "{labelled}"
    );
    let first = |words: &str| answer("show", words).lines().next().map(str::to_owned);
    let all = first("E0000000 C000FFFF 00000000");
    assert_eq!(all.as_deref(), Some("# Permit: all sixteen products."));
    let one = first("E0000000 C0008000 00000000");
    assert_eq!(one.as_deref(), Some("# Permit: product 15."));
}

#[test]
fn denies() {
    assert_eq!(
        answer(
            "show",
            "E0000001 00050000 DC000003 80018002 00000001 00050000"
        ),
        "# Deny, hidden. Not granted: products 0, 1.\n\
         # Decisive facts: 5; label 1; reason 2.\n\
         # Facts consulted: 5 absent.\n\
         resolved\n\
         consulted 5=absent\n\
         deny-with-trace hidden denied 0003 label 1 reason 2 facts 5\n"
    );
    assert_eq!(
        answer("show", "E0000000 D0000000 00000000 00000000"),
        "# Deny, forbidden.\n\
         # Decisive facts: none.\n\
         # Facts consulted: none.\n\
         resolved\n\
         deny-with-trace\n"
    );
}

#[test]
fn joined_clauses_are_told() {
    let sheet = "any\n  grant 0001 label 1\n    has 5\n  grant 0002 label 2\n    has 6\n";
    let shown = answer("evaluate --facts 5=present,6=present", sheet);
    assert!(shown.starts_with("# Permit: products 0, 1.\n"), "{shown}");
    assert!(
        shown.contains("none, since several clauses were joined"),
        "{shown}"
    );
    let one = answer("evaluate --facts 5=present", sheet);
    assert!(one.contains("\n# Decisive facts: 5; label 1.\n"), "{one}");
}
