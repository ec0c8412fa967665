//! Retention windows in the text form, and the subcommand `window`.

use std::fs;

use super::{accepted, answer, failure, folder};

const STAGES: &str = "# raw stage, hourly means\nopen 6 0..90 days\n\n  open 7 0..9 years # ten\n";
const DATES: &str = "window --reading 2026-08-17 --today 2026-11-15";

#[test]
fn facts_are_said() {
    for (reading, expected) in [
        ("2026-08-17", "5=unknown,6=present,7=present\n"),
        ("2026-08-16", "5=unknown,6=absent,7=present\n"),
        ("2026-11-16", "5=unknown,6=absent,7=absent\n"),
        ("unknown", "5=unknown,6=unknown,7=unknown\n"),
    ] {
        let dates = format!("window --reading {reading} --today 2026-11-15");
        let found = answer(&format!("{dates} --facts 5=unknown,6=present"), STAGES);
        assert_eq!(found, expected, "{reading}");
    }
    assert_eq!(answer(DATES, ""), "");
    let absent = answer(&format!("{DATES} --facts 5=absent"), STAGES);
    assert_eq!(absent, "5=absent,6=present,7=present\n");
    assert_eq!(answer(DATES, "closed 1023 0..65535 days"), "1023=absent\n");
}

#[test]
fn closed_goes_before_open_in_any_order() {
    let lines = [
        "open 6 0..90 days",
        "closed 6 10..20 days",
        "open 6 0..9 years",
    ];
    for (reading, expected) in [
        ("2026-11-06", "6=present\n"),
        ("2026-11-05", "6=absent\n"),
        ("2026-10-26", "6=absent\n"),
        ("2026-10-25", "6=present\n"),
        ("unknown", "6=unknown\n"),
    ] {
        let dates = format!("window --reading {reading} --today 2026-11-15");
        for order in [
            [0, 1, 2],
            [0, 2, 1],
            [1, 0, 2],
            [1, 2, 0],
            [2, 0, 1],
            [2, 1, 0],
        ] {
            let text = order.map(|at| lines[at]).join("\n");
            assert_eq!(answer(&dates, &text), expected, "{reading}: {text}");
        }
    }
}

#[test]
fn each_form_is_taken_again() {
    let folder = folder("windowed");
    let table = folder.join("table");
    let bytes = accepted(&format!("{DATES} --facts 5=unknown --to binary"), STAGES);
    assert_eq!((bytes.len(), bytes[1]), (256, 0x25));
    fs::write(&table, &bytes).expect("a file");
    let again = format!("{DATES} --table {} --to binary", table.display());
    assert_eq!(accepted(&again, STAGES), bytes);
    let hex = answer(&format!("{DATES} --facts 5=unknown --to hex"), STAGES);
    assert!(hex.starts_with("0025"));
    let joined: String = hex.split_whitespace().collect();
    let again = format!("{DATES} --table-hex {joined} --to binary");
    assert_eq!(accepted(&again, STAGES), bytes);
}

#[test]
fn refusals_say_where() {
    assert_eq!(
        failure(1, "window --reading 2026-02-29 --today unknown", ""),
        "refused 12: a date doesn't exist or lies outside the years 1900 to 2199 (--reading 2026-02-29)\n"
    );
    let today = failure(1, "window --reading unknown --today 2200-01-01", "");
    assert!(
        today.contains("refused 12") && today.contains("(--today 2200-01-01)"),
        "{today}"
    );
    let above = failure(1, DATES, "open 6 0..90 days\nclosed 6 5..3 days");
    assert!(
        above.contains("refused 13") && above.contains("(line 2: "),
        "{above}"
    );
    let many = failure(1, DATES, "open 6 0..90 days\n".repeat(33));
    assert!(
        many.contains("refused 13") && many.contains("from line 33 on"),
        "{many}"
    );
    let short = failure(1, &format!("{DATES} --table-hex 00"), STAGES);
    assert!(
        short.contains("refused 13") && short.contains("of 1 bytes"),
        "{short}"
    );
    let three = format!("{DATES} --table-hex 0C{}", "00".repeat(255));
    assert!(failure(1, &three, STAGES).contains("(fact 2)"));
}

#[test]
fn faults_of_the_text_have_their_line() {
    for (text, said) in [
        (
            "shut 6 0..90 days",
            "line 1: found `shut`, but open or closed is due",
        ),
        (
            "\nopen 1024 0..90 days",
            "line 2: found `1024`, but a fact from 0 to 1023 is due",
        ),
        ("open 6 0..65536 days", "ages from 0 to 65535"),
        ("open 6 90 days", "ages from 0 to 65535"),
        ("open 6 0..90", "days or years"),
        ("open 6 0..90 days or so", "the end of the line"),
    ] {
        let found = failure(2, DATES, text);
        assert!(found.contains(said), "{found}");
    }
    for date in ["2026-8-17", "17.08.2026", "2026-08-17-01", "today"] {
        let found = failure(2, &format!("window --reading {date} --today unknown"), "");
        assert!(found.contains("a date such as 2026-08-17"), "{found}");
    }
}
