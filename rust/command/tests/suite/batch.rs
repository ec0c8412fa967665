//! Batches at the command line.

use std::fs;
use std::path::Path;

use super::{answer, failure, folder};

const REGISTER: &str = "\
01000007 00000000 02000009 00000000 03000003 00000000 # in force from the first day on
04000004 00000000 05000005 00000000 06000006 00000000
08000007 000001F4
";

/// Request 10's sheets, and faulty ones; in each form.
const SHEETS: [(&str, &[u8]); 6] = [
    ("7=grant.txt", b"grant 0003 hidden\n  has 5\n"),
    (
        "9=any.hex",
        b"A0000002 80000001 00000000 50000002 20000000 20000001 80000002 00000000 20000002",
    ),
    ("7=again.txt", b"permit 0001\n"),
    (
        "3=all.bin",
        &[0x90, 0, 0, 3, 0x60, 0, 0, 1, 0x70, 0, 0, 0, 0x60, 0, 0, 2],
    ),
    ("4=nothing.hex", b"# no word\n"),
    ("5=two.hex", b"60000001 60000001"),
];

const A: &str = "group 1 day 10 facts 5=present\n";
const B: &str = "group 2 day 1900-01-11 table 10 # fact 1\n";
const C: &str = "\n  # a comment\ngroup 3 day 10\n";

/// Writes the register and the sheets, and gives the options that name them.
fn options(folder: &Path) -> String {
    let write = |name: &str, content: &[u8]| {
        let file = folder.join(name);
        fs::write(&file, content).expect("a file");
        file.display().to_string()
    };
    let register = write("register", REGISTER.as_bytes());
    let sheets = SHEETS.map(|(named, content)| {
        let (number, name) = named.split_once('=').expect("a name");
        format!(" --sheet {number}={}", write(name, content))
    });
    format!(" --register {register}{}", sheets.concat())
}

#[test]
fn the_worked_batches() {
    let options = options(&folder("batch"));
    let told = |requests: &str, allowance: u16| {
        let asked = format!("batch --to hex --allowance {allowance}{options}");
        answer(&asked, requests)
    };
    let over = |sheet: u16, left: u16| {
        format!(
            "sheet {sheet}, refused 18: the evaluation visits more nodes than the allowance has left ({left} are left)\n"
        )
    };
    let a = "sheet 7, 2 nodes\nE0007001 40050000 C0000003 00000001 00050000\n";
    let b = "sheet 9, 7 nodes\nE0009003 00004001 00020000 C0000001 00000001 00010000\n";
    let c = "sheet 3, 3 nodes\nE0003000 D0000000 00000000 00000000\n";
    assert_eq!(told("", 9), "");
    assert_eq!(told(A, 2), format!("request 1: {a}"));
    assert_eq!(told(A, 1), format!("request 1: {}", over(7, 1)));
    let three = [A, B, C].concat();
    let due = |one: &str, two: &str, three: &str| {
        format!("request 1: {one}request 2: {two}request 3: {three}")
    };
    assert_eq!(told(&three, 5), due(a, &over(9, 3), c));
    assert_eq!(told(&three, 10), due(a, b, &over(3, 1)));
    assert_eq!(told(&three, 65_535), due(a, b, c));
    // The inner Any ends at its first arm.
    let first = told("group 2 day 10 facts 0=present", 6);
    assert!(
        first.starts_with("request 1: sheet 9, 6 nodes\n"),
        "{first}"
    );
}

#[test]
fn records_are_those_of_evaluate() {
    let folder = folder("batch-records");
    let options = options(&folder);
    let told = answer(&format!("batch{options}"), [A, C].concat());
    let record = |name: &str, number: u16, facts: &str| {
        let file = folder.join(name);
        let asked = format!("evaluate {} --sheet {number}{facts}", file.display());
        answer(&asked, "")
    };
    let due = format!(
        "request 1: sheet 7, 2 nodes\n{}request 2: sheet 3, 3 nodes\n{}",
        record("grant.txt", 7, " --facts 5=present"),
        record("all.bin", 3, "")
    );
    assert_eq!(told, due);
    let single = answer(&format!("batch --to hex{options}"), "group 4 day 0");
    assert!(
        single.starts_with("request 1: sheet 4, refused 1: "),
        "{single}"
    );
    let permit = folder.join("again.txt");
    let asked = format!(
        "batch --to hex --register {} --sheet 7={}",
        folder.join("register").display(),
        permit.display()
    );
    let single = answer(&asked, A);
    assert_eq!(
        single,
        "request 1: sheet 7, 1 node\nE0007000 C0000001 00000000\n"
    );
}

#[test]
fn a_request_is_told_why() {
    let options = options(&folder("batch-causes"));
    let long = format!("group 1 day 0 table {}", "00 ".repeat(257));
    for (request, due) in [
        ("group 9 day 0", "none, no sheet is in force"),
        ("group 8 day 499", "none, no sheet is in force"),
        ("group 6 day 0 table FF", "none, sheet 6 was not given"),
        (
            "group 4 day 0",
            "sheet 4, refused 1: the length of the sheet, record, tight form or batch is not accepted (there is no word)",
        ),
        (
            &long,
            "sheet 7, refused 2: the fact table is longer than 256 bytes",
        ),
        (
            "group 1 day 0 table 000C",
            "sheet 7, refused 3: a field of the fact table is 3, which is no presence (fact 6)",
        ),
        (
            "group 1 day 0 facts 4=absent,5=unknown",
            "sheet 7, refused 4: a fact is Unknown in a table that has to be known (fact 5)",
        ),
        (
            "group 5 day 0",
            "sheet 5, refused 10: there are words after the tree (word 2, 60000001)",
        ),
    ] {
        let told = answer(&format!("batch --allowance 0{options}"), request);
        assert_eq!(told, format!("request 1: {due}\n"));
    }
}

#[test]
fn a_batch_is_told_why() {
    let folder = folder("batch-refused");
    let options = options(&folder);
    let most = A.repeat(64);
    let told = answer(&format!("batch --to hex{options}"), &most);
    assert_eq!(told.matches(", 2 nodes\n").count(), 64);
    let message = failure(1, &format!("batch{options}"), A.repeat(65));
    assert_eq!(
        message,
        "refused 1: the length of the sheet, record, tight form or batch is not accepted (65 requests, where at most 64 are due)\n"
    );
    let odd = folder.join("odd");
    fs::write(&odd, "01000007").expect("a file");
    let message = failure(1, &format!("batch --register {}", odd.display()), A);
    assert_eq!(
        message,
        "refused 15: the words are no register of sheets (an odd number of words, 1)\n"
    );
    let levels = folder.join("levels");
    fs::write(&levels, "0").expect("a file");
    let asked = format!("batch --levels {}{options}", levels.display());
    let message = failure(1, &asked, A.repeat(65));
    assert!(message.starts_with("refused 21: "), "{message}");
}

#[test]
fn by_levels() {
    let folder = folder("batch-levels");
    let options = options(&folder);
    let levels = folder.join("levels");
    fs::write(
        &levels,
        "4 0 0 0 0 0 1 1 1 0 1 2 2 0 1 2 3 0 1 2 3 1 1 2 3 2 2 2 3 3 3 3 3",
    )
    .expect("a file");
    let by = format!("batch --levels {}{options}", levels.display());
    let told = answer(&by, A);
    assert!(told.contains("\n# Permit: level 3.\n"), "{told}");
    fs::write(&levels, "2 0 0 0 1 0 1 1 1").expect("a file");
    let told = answer(&by, A);
    let due = "request 1: sheet 7, refused 8: a field holds a number that it may not hold (line 1: its outcome is none of 2 levels)\n";
    assert_eq!(told, due);
}

#[test]
fn faults_of_requests_and_files() {
    let folder = folder("batch-faults");
    let options = options(&folder);
    for (request, found, due) in [
        ("grop 1 day 0", "`grop`", "group"),
        ("group 256 day 0", "`256`", "a group from 0 to 255"),
        ("group 1", "``", "day"),
        (
            "group 1 day soon",
            "`soon`",
            "a number of days from 0 to 4294967295, or a date from 1900-01-01 to 9999-12-31",
        ),
        (
            "group 1 day 0 fact 5=present",
            "`fact`",
            "facts, table or the end of the line",
        ),
        (
            "group 1 day 0 facts 5",
            "`5`",
            "a fact from 0 to 1023 with =present, =absent or =unknown",
        ),
        (
            "group 1 day 0 facts 5=present,5=absent",
            "`5=present and 5=absent`",
            "one reading of a fact",
        ),
        (
            "group 1 day 0 table 1",
            "`1`",
            "two hexadecimal digits for each byte",
        ),
    ] {
        let message = failure(2, &format!("batch{options}"), format!("{A}\n{request}\n"));
        let start = format!("error: standard input: line 3: found {found}, but {due}");
        assert!(message.starts_with(&start), "{message}");
    }
    let message = failure(2, "batch", A);
    assert!(message.contains("--register"), "{message}");
    let message = failure(2, "batch --register no-such-file", A);
    assert!(message.starts_with("error: no-such-file: "), "{message}");
    let missing = format!("batch{options} --sheet 8=no-such-file");
    let message = failure(2, &missing, A);
    assert!(message.starts_with("error: no-such-file: "), "{message}");
    for sheet in ["7", "seven=file", "65536=file"] {
        let message = failure(2, &format!("batch{options} --sheet {sheet}"), A);
        assert!(
            message.contains("a sheet's number from 0 to 65535"),
            "{message}"
        );
    }
    failure(2, &format!("batch{options} --allowance 65536"), A);
    failure(2, &format!("batch{options} --to binary"), A);
}

/// A sheet that can't be read stops no request but those that it decides, and these before their tables are read.
#[test]
fn sheets_that_are_no_words() {
    let folder = folder("batch-unread");
    let options = options(&folder);
    let utf16 = |text: &str| -> Vec<u8> {
        let units = text.encode_utf16();
        units.flat_map(u16::to_le_bytes).collect()
    };
    let cases: [(&str, &[u8], &str); 7] = [
        (
            "broken",
            b"grantt 0003\n",
            "line 1: found `grantt`, but a policy (permit, deny, grant, all, any, or-else) is due",
        ),
        (
            "digits",
            b"88000003 0 20000005\n",
            "line 1: found `0`, but a word of eight hexadecimal digits is due",
        ),
        // Of whole words, and not of whole ones.
        (
            "utf16",
            &utf16("deny\n "),
            "a text in UTF-16, where UTF-8 is due",
        ),
        (
            "odd",
            &utf16("deny\n"),
            "a text in UTF-16, where UTF-8 is due",
        ),
        ("nul", b"deny #\0\n", "a NUL in line 1 of a text"),
        (
            "latin",
            b"deny # caf\xE9\r\n",
            "13 bytes are no whole binary words of four bytes",
        ),
        ("long", &vec![b' '; (16 << 20) + 1], "longer than 16 MiB"),
    ];
    let register = folder.join("register");
    for (name, content, fault) in cases {
        let file = folder.join(name);
        fs::write(&file, content).expect("a file");
        let file = file.display();
        // It decides nothing: its number is in no entry, or it is not the first of its number.
        let decided = answer(&format!("batch{options}"), [A, C].concat());
        for number in [8, 7] {
            let asked = format!("batch{options} --sheet {number}={file}");
            assert_eq!(answer(&asked, [A, C].concat()), decided);
        }
        // It decides the second of three.
        let grant = folder.join("grant.txt");
        let asked = format!(
            "batch --to hex --allowance 4 --register {} --sheet 9={file} --sheet 7={}",
            register.display(),
            grant.display()
        );
        let a = "sheet 7, 2 nodes\nE0007001 40050000 C0000003 00000001 00050000\n";
        let told = answer(&asked, [A, "group 2 day 10 table FF\n", A].concat());
        let due = format!(
            "request 1: {a}request 2: sheet 9, refused without a number: {file}: {fault}\nrequest 3: {a}"
        );
        assert_eq!(told, due);
    }
}

/// More words than a list of sheets counts: refused by 1, as fewer that are too many are.
#[test]
fn sheets_of_too_many_words() {
    let folder = folder("batch-words");
    let options = options(&folder);
    let file = folder.join("long.hex");
    let name = file.display();
    for words in [65_535, 65_536, 70_000] {
        fs::write(&file, "60000001\n".repeat(words)).expect("a file");
        let told = answer(&format!("batch{options} --sheet 8={name}"), A);
        assert_eq!(told, answer(&format!("batch{options}"), A));
        let asked = format!("batch --sheet 2={name}{options} --sheet 6={name}");
        let requests = format!("group 6 day 0 table FF\n{C}");
        let told = answer(&asked, &requests);
        let due = format!(
            "request 1: sheet 6, refused 1: the length of the sheet, record, tight form or batch is not accepted ({words} words, where at most 4096 are due)\nrequest 2: sheet 3, 3 nodes\n"
        );
        assert!(told.starts_with(&due), "{told}");
    }
}
