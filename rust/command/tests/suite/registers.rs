//! The register of sheets at the command line.

use std::fs;

use super::{answer, failure, folder, words};

const REGISTER: &str = "\
# of group 1: sheet 7 from day 100, 9 and 3 from day 200, 12 withdrawn
01000007 00000064, 01000009 000000C8
0180_000C 0x000000FA 01000003 000000C8
# of group 2: sheet 0 from the first day on
02000000 00000000
";

#[track_caller]
fn in_force(group: &str, day: &str) -> String {
    answer(&format!("in-force --group {group} --day {day}"), REGISTER)
}

#[test]
fn numbers_and_none() {
    for (group, day, number) in [
        ("1", "99", "none\n"),
        ("1", "100", "7\n"),
        ("1", "199", "7\n"),
        ("1", "200", "9\n"),
        ("1", "4294967295", "9\n"),
        ("2", "0", "0\n"),
        ("3", "300", "none\n"),
        ("255", "300", "none\n"),
    ] {
        assert_eq!(in_force(group, day), number, "group {group}, day {day}");
    }
    assert_eq!(answer("in-force --group 1 --day 5", ""), "none\n");
}

/// Day 0 is 1900-01-01, and 1900 had no 29 February.
#[test]
fn dates() {
    for (date, day) in [
        ("1900-01-01", 0),
        ("1900-02-28", 58),
        ("1900-03-01", 59),
        ("1904-02-29", 1_519),
        ("2000-02-29", 36_583),
        ("2026-11-17", 46_341),
        ("9999-12-31", 2_958_463),
    ] {
        let entry = |day: i64| format!("01000007 {day:08X}");
        let asked = format!("in-force --group 1 --day {date}");
        assert_eq!(answer(&asked, entry(day)), "7\n", "{date}");
        assert_eq!(answer(&asked, entry(day + 1)), "none\n", "{date}");
    }
    for wrong in [
        "1899-12-31",
        "1900-02-29",
        "2001-02-29",
        "2026-13-01",
        "2026-11-31",
        "2026-1-1",
        "+1950-01-01",
        "1950/01/01",
        "4294967296",
        "-5",
        "+5",
        "",
    ] {
        let message = failure(2, &format!("in-force --group 1 --day={wrong}"), REGISTER);
        assert!(message.contains("or a date from 1900-01-01"), "{message}");
    }
}

#[test]
fn forms_and_files() {
    let folder = folder("registers");
    let binary: Vec<u8> = words("01000007 00000064 01000009 000000C8")
        .into_iter()
        .flat_map(u32::to_be_bytes)
        .collect();
    let file = folder.join("register");
    fs::write(&file, &binary).expect("a file");
    for from in ["", " --from binary"] {
        let asked = format!("in-force {} --group 1 --day 150{from}", file.display());
        assert_eq!(answer(&asked, ""), "7\n");
    }
    // All of it withdrawn, this one has no zero byte and reads as text.
    let withdrawn = [0xC4, 0x80, b'A', b'A', b'A', b'A', b'A', b'A'];
    let asked = "in-force --group 196 --day 4294967295";
    assert_eq!(
        answer(&format!("{asked} --from binary"), withdrawn),
        "none\n"
    );
    let message = failure(2, asked, withdrawn);
    assert!(
        message.contains("a word of eight hexadecimal digits is due"),
        "{message}"
    );
    let message = failure(2, "in-force --group 1 --day 5", "any\n  deny\n");
    assert!(
        message.starts_with("error: standard input: line 1: "),
        "{message}"
    );
    let utf16: Vec<u8> = REGISTER.encode_utf16().flat_map(u16::to_le_bytes).collect();
    let message = failure(2, "in-force --group 1 --day 5", utf16);
    assert!(message.contains("UTF-16"), "{message}");
}

#[test]
fn refusals_tell_the_entry() {
    let many = "01000007 00000000 ".repeat(257);
    for (register, place) in [
        ("01000007", "an odd number of words, 1"),
        (many.as_str(), "514 words, where at most 512 are due"),
        (
            "01000007 00000000 02400008 00000000 03010000 00000000",
            "entry 2, 02400008 00000000: its zero field isn't 0, or an entry before it has its group and number",
        ),
        (
            "02000007 00000000 01000007 00000000 01800007 00000009 00000000 00000000",
            "entry 3, 01800007 00000009: its zero field isn't 0, or an entry before it has its group and number",
        ),
    ] {
        for group in ["1", "9"] {
            let message = failure(1, &format!("in-force --group {group} --day 5"), register);
            let expected = format!("refused 15: the words are no register of sheets ({place})\n");
            assert_eq!(message, expected);
        }
    }
    failure(2, "in-force --group 256 --day 5", REGISTER);
    failure(2, "in-force --day 5", REGISTER);
    failure(2, "in-force --group 1", REGISTER);
}
