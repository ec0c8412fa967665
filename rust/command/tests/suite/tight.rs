//! Sheets and records packed and unpacked, in each form.

use std::fs;

use super::{accepted, answer, failure, folder};

const SHEET: &str = "grant 0003 hidden\n  has 5\n";
const TIGHT: [u8; 6] = [0x88, 0x00, 0x00, 0x30, 0x80, 0x50];
const RECORD: &str = "E0007001 40050000 C0000003 00000001 00050000\n";
const TIGHT_RECORD: &str = "E0007001405C000006001014\n";

#[test]
fn any_form_is_packed() {
    let binary = accepted("assemble --to binary", SHEET);
    for input in [SHEET.as_bytes(), b"88000003 00000000 20000005", &binary] {
        assert_eq!(accepted("pack", input), TIGHT);
        assert_eq!(answer("pack --hex", input), "880000308050\n");
    }
    assert_eq!(answer("pack --hex", RECORD), TIGHT_RECORD);
    assert_eq!(answer("pack --hex", "pending\ndeny"), "F000000070\n");
}

#[test]
fn what_is_packed_is_unpacked() {
    assert_eq!(answer("unpack", TIGHT), answer("show", SHEET));
    assert_eq!(
        answer("unpack --to hex", TIGHT),
        "88000003 00000000 20000005\n"
    );
    assert_eq!(
        accepted("unpack --to binary", TIGHT),
        accepted("assemble --to binary", SHEET)
    );
    assert_eq!(answer("unpack --hex --to hex", TIGHT_RECORD), RECORD);
    assert_eq!(
        answer("unpack --hex", "88 00\n00 30\t8050"),
        answer("show", SHEET)
    );
    let file = folder("tight").join("sheet").display().to_string();
    fs::write(&file, TIGHT).expect("a file");
    assert_eq!(answer(&format!("unpack {file}"), ""), answer("show", SHEET));
    assert!(failure(2, &format!("unpack {file}.not"), "").contains("sheet.not: "));
}

/// What a run is taken for: told, or by its first four bits.
#[test]
fn sheets_and_records_are_told_apart() {
    for kind in ["", " --record"] {
        let words = answer(&format!("unpack --hex --to hex{kind}"), TIGHT_RECORD);
        assert_eq!(words, RECORD);
    }
    for kind in ["", " --sheet"] {
        let shown = answer(&format!("unpack{kind}"), TIGHT);
        assert_eq!(shown, answer("show", SHEET));
    }
    let kind = "refused 5: a node's kind may not stand where it stands";
    assert_eq!(
        failure(1, "unpack --record", TIGHT),
        format!("{kind} (byte 1, 88)\n")
    );
    assert_eq!(
        failure(1, "unpack --sheet --hex", TIGHT_RECORD),
        format!("{kind} (byte 1, E0)\n")
    );
    assert!(failure(2, "unpack --sheet --record", TIGHT).contains("--record"));
}

#[test]
fn a_refusal_names_its_place() {
    let refused = |digits: &str| failure(1, "unpack --hex", digits);
    let ends = "refused 19: the bits end before a field is complete";
    assert_eq!(refused(""), format!("{ends} (there is no byte)\n"));
    assert_eq!(
        refused("6000"),
        format!("{ends} (after byte 2, the last)\n")
    );
    let filler = "refused 20: the last byte is not filled with 0 bits, or a byte follows";
    assert_eq!(refused("60 00 11"), format!("{filler} (byte 3, 11)\n"));
    assert_eq!(refused("70 00 00"), format!("{filler} (byte 2, 00)\n"));
    assert!(refused("9004 7775 00").ends_with("(byte 4, 75)\n"));
    let field = "refused 8: a field holds a number that it may not hold";
    assert_eq!(refused("9001 8410"), format!("{field} (byte 4, 10)\n"));
    let levels = "9001".repeat(33);
    assert_eq!(
        refused(&levels),
        "refused 7: the tree has more than 32 levels (byte 65, 90)\n"
    );
    let room = "refused 11: the result has no room in the output or exceeds its limits";
    let long = format!("B79FFF{}70", "77".repeat(2_047));
    assert_eq!(refused(&long), format!("{room} (over 4096 words)\n"));
    assert_eq!(
        refused(&"00".repeat(65_537)),
        "refused 1: the length of the sheet, record, tight form or batch is not accepted (65537 bytes, where at most 65536 are due)\n"
    );
    assert_eq!(
        failure(1, "pack", "70000000 70000000"),
        "refused 10: there are words after the tree (word 2, 70000000)\n"
    );
    assert_eq!(
        failure(1, "pack", ""),
        "refused 1: the length of the sheet, record, tight form or batch is not accepted (there is no word)\n"
    );
}

#[test]
fn digits_are_told_from_bytes() {
    assert_eq!(
        failure(2, "unpack", "880000308050\n"),
        "error: standard input: hexadecimal digits, which --hex takes\n"
    );
    assert_eq!(
        failure(2, "unpack --hex", TIGHT),
        "error: standard input: two hexadecimal digits for each byte are due\n"
    );
    assert!(failure(2, "unpack --hex", "880").contains("two hexadecimal digits"));
}
