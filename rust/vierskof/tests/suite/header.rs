//! The C header says what the crate says.

use vierskof::{
    BATCH_REQUESTS, Levels, RECORD_WORDS, REGISTER_WORDS, REQUEST_WORDS, Refusal, SHEET_WORDS,
    TABLE_BYTES, TIGHT_BYTES, WINDOWS, room, tight_room,
};

const HEADER: &str = include_str!("../../../../include/vierskof.h");

/// The number that a name has in the header, by a macro or an enum.
#[track_caller]
fn number(name: &str) -> usize {
    let line = HEADER
        .lines()
        .find(|line| line.split_whitespace().any(|word| word == name));
    let (_, rest) = line.expect(name).split_once(name).expect(name);
    let digits = rest.trim_start_matches([' ', '=']);
    let end = digits.find(|found: char| !found.is_ascii_digit());
    digits[..end.unwrap_or(digits.len())].parse().expect(name)
}

#[test]
fn each_refusal_has_its_number() {
    for refusal in Refusal::ALL {
        let spelled = format!("{refusal:?}")
            .chars()
            .fold(String::new(), |name, letter| {
                let apart = if letter.is_uppercase() { "_" } else { "" };
                name + apart + &letter.to_uppercase().to_string()
            });
        let name = format!("VIERSKOF_REFUSED{spelled}");
        assert_eq!(number(&name), refusal.number() as usize);
    }
    let named = HEADER.matches("VIERSKOF_REFUSED_").count();
    assert_eq!(named, Refusal::ALL.len());
}

#[test]
fn limits_and_version_are_the_same() {
    assert_eq!(number("VIERSKOF_SHEET_WORDS"), SHEET_WORDS);
    assert_eq!(number("VIERSKOF_RECORD_WORDS"), RECORD_WORDS);
    assert_eq!(number("VIERSKOF_TABLE_BYTES"), TABLE_BYTES);
    assert_eq!(number("VIERSKOF_SET_NUMBERS"), 16);
    assert_eq!(number("VIERSKOF_REGISTER_WORDS"), REGISTER_WORDS);
    assert_eq!(number("VIERSKOF_NO_SHEET"), usize::from(u16::MAX) + 1);
    assert_eq!(number("VIERSKOF_REQUEST_WORDS"), REQUEST_WORDS);
    assert_eq!(number("VIERSKOF_BATCH_REQUESTS"), BATCH_REQUESTS);
    assert_eq!(number("VIERSKOF_ALLOWANCE"), usize::from(u16::MAX));
    assert_eq!(number("VIERSKOF_OUTCOME_LEVELS"), Levels::MOST);
    assert_eq!(number("VIERSKOF_WINDOWS"), WINDOWS);
    assert_eq!(number("VIERSKOF_TIGHT_BYTES"), TIGHT_BYTES);
    let parts = ["MAJOR", "MINOR", "PATCH"];
    let parts = parts.map(|part| number(&format!("VIERSKOF_VERSION_{part}")).to_string());
    assert_eq!(parts.join("."), env!("CARGO_PKG_VERSION"));
    let version = format!("VIERSKOF_VERSION \"{}\"", env!("CARGO_PKG_VERSION"));
    assert!(HEADER.contains(&version));
}

/// The macros for outputs that are room enough, with a sheet's and a record's words in the place of their argument.
#[test]
fn rooms_are_the_same() {
    for words in [0, 1, SHEET_WORDS, RECORD_WORDS] {
        for (name, factor, more, found) in [
            ("VIERSKOF_ROOM", 3, 513, room(words)),
            ("VIERSKOF_TIGHT_ROOM", 4, 0, tight_room(words)),
        ] {
            let plus = if more > 0 {
                format!(" + {more}")
            } else {
                String::new()
            };
            let line = format!("#define {name}(words) ({factor} * (size_t)(words){plus})\n");
            assert!(HEADER.contains(&line), "{line}");
            assert_eq!(found, factor * words + more);
        }
    }
}

/// An output is `restrict`, so that a compiler may tell of one that overlaps.
#[test]
fn each_output_is_restricted() {
    let calls: Vec<&str> = HEADER.split("\nuint64_t ").skip(1).collect();
    assert_eq!(calls.len(), 26);
    for call in calls {
        let (call, _) = call.split_once(");").expect("a prototype");
        let outputs = [" out,", " set,", " replies,"].map(|output| call.matches(output).count());
        let restricted = call.matches("*VIERSKOF_RESTRICT ").count();
        assert_eq!(outputs.iter().sum::<usize>(), restricted, "{call}");
    }
}
