//! Outcome tables at the command line.

use std::fs;
use std::path::Path;

use super::{answer, failure, folder};

/// Three levels between a least and a greatest.
const M3: &str = "\
5 # levels: 0 below 1, 2 and 3, these below 4
# meets
0 0 0 0 0
0 1 0 0 1
0 0 2 0 2
0 0 0 3 3
0 1 2 3 4
# joins
0 1 2 3 4,
1,1,4,4,4,
2 4 2 4 4
3 4 4 3 4 4 4 4 4 4
";

const SHEET: &str = "any\n  grant 0001\n    has 5\n  grant 0002\n    has 6\n  permit 0003\n";

/// An option with a file of this content.
fn levels(folder: &Path, name: &str, content: impl AsRef<[u8]>) -> String {
    let file = folder.join(name);
    fs::write(&file, content).expect("a file");
    format!(" --levels {}", file.display())
}

#[test]
fn stages_by_levels() {
    let folder = folder("levels");
    let text = levels(&folder, "text", M3);
    let numbers = M3
        .lines()
        .map(|line| line.split('#').next().unwrap_or_default());
    let numbers: String = numbers.map(|line| line.replace(',', " ") + " ").collect();
    let bytes: Vec<u8> = numbers
        .split_whitespace()
        .map(|number| number.parse().expect("a number"))
        .collect();
    let binary = levels(&folder, "binary", bytes);
    let known = "--facts 5=present,6=present";
    for by in [text, binary] {
        let sitting = answer(&format!("evaluate {known}{by}"), SHEET);
        assert!(sitting.starts_with("# Permit: level 4.\n"), "{sitting}");
        assert!(sitting.ends_with("\npermit-with-trace 0004\n"), "{sitting}");
        for order in ["", " --in-order"] {
            let pending = answer(&format!("reduce --facts 6=present{order}{by}"), SHEET);
            let words = answer("assemble", &pending);
            let expected = if order.is_empty() {
                "F0000001 40060000 A0000003 C0000002 00000001 00060000 C0000003 00000000\n80000001 00000000 20000005\n"
            } else {
                "F0000001 40060000 A0000003 80000001 00000000 20000005 C0000002 00000001\n00060000 C0000003 00000000\n"
            };
            assert_eq!(words, expected);
            for last in ["complete".to_owned(), format!("narrow{order}")] {
                let ended = answer(&format!("{last} {known}{by}"), &pending);
                assert!(ended.starts_with("# Permit: level 4.\n"), "{ended}");
            }
        }
        let denied = answer(&format!("evaluate{by}"), "grant 0002\n  has 5\n");
        let comment = "# Deny, forbidden. Not granted: level 2.\n";
        assert!(denied.starts_with(comment), "{denied}");
    }
    // Without the table outcomes are sets of products.
    let sets = answer(&format!("evaluate {known}"), SHEET);
    assert!(sets.starts_with("# Permit: products 0, 1.\n"), "{sets}");
}

#[test]
fn tables_that_are_refused() {
    let folder = folder("no-levels");
    let message = |name: &str, content: &[u8]| {
        let by = levels(&folder, name, content);
        // Before every other cause.
        let found = failure(1, &format!("evaluate --table-hex 03{by}"), "deny");
        let start = format!(
            "refused 21: the outcome table is not accepted ({}: ",
            folder.join(name).display()
        );
        let why = found.strip_prefix(&start).expect(&found);
        why.trim_end().trim_end_matches(')').to_owned()
    };
    for (content, why) in [
        ("0", "0 levels, where 1 to 16 are due"),
        ("17 0", "17 levels, where 1 to 16 are due"),
        ("2\n0 0 0 1\n0 1 1", "7 meets and joins, where 8 are due"),
        ("1 0 1", "levels 0 and 0 join in 1, which is no level"),
        (
            "2 0 0 1 1 0 1 1 1",
            "levels 0 and 1 meet in 0, but 1 and 0 in 1",
        ),
        (
            "2 0 0 0 1 0 0 0 1",
            "level 1 and what 1 and 0 join in, 0, meet in 0 and not in 1",
        ),
        (
            "3 0 0 2 0 1 1 2 1 2 0 1 0 1 1 2 0 2 2",
            "levels 0, 1 and 2 meet in 2 if the first two do so first, and in 0 if the last two do",
        ),
    ] {
        assert_eq!(message("text", content.as_bytes()), why);
    }
    assert_eq!(
        message("binary", &[2, 0, 0, 0, 1, 0, 1, 1]),
        "7 meets and joins, where 8 are due"
    );
    assert_eq!(message("none", &[0]), "0 levels, where 1 to 16 are due");
}

#[test]
fn what_is_no_level_is_told() {
    let folder = folder("level");
    let by = levels(&folder, "two", "2  0 0 0 1  0 1 1 1");
    let told = |call: &str, input: &str| failure(1, &format!("{call}{by}"), input);
    let message = told("evaluate", SHEET);
    let due = "refused 8: a field holds a number that it may not hold (line 4: its outcome is none of 2 levels)\n";
    assert_eq!(message, due);
    let message = told("complete", "F0000000 A0000002 60000001 C0000002");
    assert!(
        message.contains("(word 4, C0000002: its outcome is none of 2 levels)"),
        "{message}"
    );
    let message = told("narrow --sheet 7", "F0007000 A0000002 60000001 60010000");
    assert!(message.ends_with("(word 4, 60010000)\n"), "{message}");
    let message = told("reduce", "A0000002 60000001");
    assert!(message.contains("refused 6: "), "{message}");
}

#[test]
fn faults_of_the_file() {
    let folder = folder("level-faults");
    let told = |content: &str| {
        let by = levels(&folder, "file", content);
        let message = failure(2, &format!("evaluate{by}"), "deny");
        let start = format!("error: {}: ", folder.join("file").display());
        message.strip_prefix(&start).expect(&message).to_owned()
    };
    assert_eq!(told(""), "there is no count of levels\n");
    assert_eq!(told("# nothing\n"), "there is no count of levels\n");
    let fault = told("two\n0 0");
    assert_eq!(
        fault,
        "line 1: found `two`, but a number of levels is due\n"
    );
    let fault = told("2\n0 0 0 1 # meets\n0 1 1 256\n");
    assert_eq!(
        fault,
        "line 3: found `256`, but a level from 0 to 15 is due\n"
    );
    let message = failure(2, "evaluate --levels no-such-file", "deny");
    assert!(message.starts_with("error: no-such-file: "), "{message}");
    for other in ["required", "show", "assemble", "window"] {
        let message = failure(2, &format!("{other} --levels file"), "deny");
        assert!(message.contains("--levels"), "{message}");
    }
}
