//! The listing's bytes.

use compare::listing::listing;

use super::{bytes, words};

/// The input of the program: a sheet and a table with their lengths, if these have 16 bits.
pub fn request(sheet: &[u32], table: &[u8]) -> Option<Vec<u8>> {
    let length = |length: usize| u16::try_from(length).ok().map(u16::to_be_bytes);
    let mut input = length(sheet.len())?.to_vec();
    input.extend(sheet.iter().flat_map(|word| word.to_be_bytes()));
    input.extend(length(table.len())?);
    input.extend(table);
    Some(input)
}

fn input(sheet: &str, table: &str) -> Vec<u8> {
    request(&words(sheet), &bytes(table)).expect("short lists")
}

#[track_caller]
fn prints(input: &[u8], text: &str) {
    let printed = String::from_utf8(listing(input)).expect("plain text");
    assert_eq!(printed, text);
}

#[test]
fn case_d() {
    prints(
        &input("88000003 00000000 20000005", "00 10"),
        "effect permit\nproducts 0003\nshape -\nobligations -\nfacts 5\nconsulted 5=present\n",
    );
}

#[test]
fn case_e() {
    prints(
        &input("88000003 00000000 20000005", ""),
        "effect deny\nproducts ----\nshape hidden\nobligations -\nfacts 5\nconsulted 5=silent\n",
    );
    prints(
        &input("88000003 00000000 20000005", "00 00"),
        "effect deny\nproducts ----\nshape hidden\nobligations -\nfacts 5\nconsulted 5=absent\n",
    );
}

#[test]
fn entered_and_silent_facts() {
    prints(
        &input(
            "80000001 00000000 50000003 20000003 20000004 20000000",
            "40",
        ),
        "effect permit\nproducts 0001\nshape -\nobligations -\nfacts 0\n\
         consulted 3=absent,4=silent,0=present\n",
    );
}

#[test]
fn r21_lists_and_capital_digits() {
    prints(
        &input(
            "8020ABCD 80018001 3F000000 40000003 20000000 200003FF 20000000",
            &format!("40 {}01", "00 ".repeat(254)),
        ),
        "effect permit\nproducts ABCD\nshape -\nobligations 63,0\nfacts 0,1023,0\n\
         consulted 0=present,1023=present\n",
    );
}

#[test]
fn an_empty_list() {
    prints(
        &input("90000000", ""),
        "effect deny\nproducts ----\nshape forbidden\nobligations -\nfacts -\nconsulted -\n",
    );
}

#[test]
fn later_bytes_are_ignored() {
    let mut given = input("60000001", "");
    let printed = listing(&given);
    given.extend([1, 2, 3]);
    assert_eq!(listing(&given), printed);
}

#[test]
fn r22_refusals_end_in_a_newline() {
    prints(&input("60000001 60000001", ""), "refused 10\n");
    prints(&input("60000001", "80"), "refused 4\n");
    prints(&input("60000001", "C0"), "refused 3\n");
}

#[test]
fn r23_input_that_ends_early() {
    prints(&[], "refused 6\n");
    prints(&[0], "refused 6\n");
    prints(&[0, 0], "refused 1\n");
    prints(&[0x10, 0x01], "refused 1\n");
    prints(&[0x10, 0x00], "refused 6\n");
    prints(&[0, 1, 0x60, 0, 0], "refused 6\n");
    prints(&[0, 1, 0x60, 0, 0, 1], "refused 6\n");
    prints(&[0, 1, 0x60, 0, 0, 1, 0], "refused 6\n");
    prints(&[0, 1, 0x60, 0, 0, 1, 1, 1], "refused 2\n");
    prints(&[0, 1, 0x60, 0, 0, 1, 0, 2, 0xFF], "refused 6\n");
    prints(&[0, 1, 0x60, 0, 0, 1, 0, 1, 0xFF], "refused 3\n");
}
