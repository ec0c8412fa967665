//! Two tables joined, as files and as typed bytes.

use std::fs;

use super::{accepted, answer, failure, folder};

#[test]
fn tables_are_joined_in_each_form() {
    assert_eq!(answer("join --hex 1080 9040", ""), "1040\n");
    assert_eq!(
        answer("join --hex 1080 9040 --to facts", ""),
        "1=present\n4=present\n"
    );
    assert_eq!(
        answer("join --hex AA80 64 --to facts", ""),
        "0=present\n1=unknown\n2=present\n"
    );
    assert_eq!(accepted("join --hex 99 66 --to binary", ""), [0x55]);
    assert_eq!(answer("join --hex AA AA --to facts", "").lines().count(), 4);
}

#[test]
fn tables_come_from_files() {
    let folder = folder("tables");
    let [one, two] = ["one", "two"].map(|name| folder.join(name).display().to_string());
    fs::write(&one, [0xAA, 0x80]).expect("a file");
    fs::write(&two, [0x64]).expect("a file");
    assert_eq!(answer(&format!("join {one} {two}"), ""), "6400\n");
    assert_eq!(answer(&format!("join {two} {one}"), ""), "6400\n");
    fs::write(&two, []).expect("a file");
    assert_eq!(answer(&format!("join {two} {two}"), ""), "\n");
    assert_eq!(accepted(&format!("join {two} {two} --to binary"), ""), []);
    assert!(failure(2, &format!("join {one} {one}.not"), "").contains("one.not: "));
}

#[test]
fn a_refusal_names_its_fact() {
    let clash = "refused 14: a fact is Present in one table and Absent in the other";
    assert_eq!(
        failure(1, "join --hex 40 00", ""),
        format!("{clash} (fact 0)\n")
    );
    assert_eq!(
        failure(1, "join --hex 00 A10010", ""),
        format!("{clash} (fact 3)\n")
    );
    let field = "refused 3: a field of the fact table is 3, which is no presence";
    assert_eq!(
        failure(1, "join --hex 40 03", ""),
        format!("{field} (fact 3)\n")
    );
    assert_eq!(
        failure(1, "join --hex C0 03", ""),
        format!("{field} (fact 0)\n")
    );
    let long = "00".repeat(257);
    let refused = failure(1, &format!("join --hex {long} FF"), "");
    assert_eq!(
        refused,
        "refused 2: the fact table is longer than 256 bytes\n"
    );
    assert!(failure(2, "join --hex 4 00", "").contains("two hexadecimal digits"));
}
