//! The files that the command writes.

use std::process::Command;

use compare::case::{Answer, Call, Case};
use compare::refusal::Refusal;
use compare::{answers, rows, worked};

use super::{bytes, words};

fn run(arguments: &str) -> Vec<u8> {
    let output = Command::new(env!("CARGO_BIN_EXE_compare"))
        .args(arguments.split(' '))
        .output()
        .expect("the command runs");
    assert!(output.status.success(), "{arguments}");
    output.stdout
}

/// The first line, and what stands after it.
fn divided(file: &[u8]) -> (String, &[u8]) {
    let end = file.iter().position(|byte| *byte == b'\n');
    let (line, rest) = file.split_at(end.expect("a first line"));
    let line = String::from_utf8(line.to_vec()).expect("plain text");
    (line, &rest[1..])
}

#[test]
fn the_same_seed_gives_the_same_bytes() {
    for arguments in [
        "answers --seed 5 --count 300",
        "rows --seed 5 --count 300 --part original",
        "rows --seed 5 --count 300 --part narrow_residual",
        "rows --seed 5 --count 300 --part in_order",
    ] {
        let file = run(arguments);
        assert_eq!(run(arguments), file);
        assert_ne!(run(&arguments.replace("--seed 5", "--seed 6")), file);
        let made_by = format!("cargo run --release --offline -p compare -- {arguments}");
        let (first, _) = divided(&file);
        assert!(first.contains(&made_by), "{first}");
    }
}

/// A stored answer, read back: its case, its number, and all its bytes.
struct Stored<'a> {
    case: Case,
    number: u16,
    bytes: &'a [u8],
}

/// Takes the stored answer at the front.
fn taken<'a>(rest: &mut &'a [u8]) -> Stored<'a> {
    let numbers: Vec<u16> = rest[..16]
        .chunks(2)
        .map(|pair| u16::from_be_bytes([pair[0], pair[1]]))
        .collect();
    let [call, room, table, given, number, _, answer, sheet] = numbers[..] else {
        unreachable!("eight numbers");
    };
    let call = Call::ALL[usize::from(call)];
    let words_at = 16 + usize::from(table);
    let answer_at = words_at + 4 * usize::from(given);
    let (bytes, after) = rest.split_at(answer_at + 4 * usize::from(answer));
    *rest = after;
    let words = bytes[words_at..answer_at]
        .chunks(4)
        .map(|word| u32::from_be_bytes(word.try_into().expect("four bytes")))
        .collect();
    let case = Case {
        call,
        table: bytes[16..words_at].to_vec(),
        words,
        number: u32::from(sheet),
        // A set of facts is stored with the room of its 32 words.
        room: if call.writes() { usize::from(room) } else { 0 },
    };
    Stored {
        case,
        number,
        bytes,
    }
}

fn all_of(mut rest: &[u8]) -> Vec<Stored<'_>> {
    let mut found = Vec::new();
    while !rest.is_empty() {
        found.push(taken(&mut rest));
    }
    found
}

#[test]
fn stored_answers_replay() {
    let file = run("answers --seed 9 --count 2000");
    let (comment, rest) = divided(&file);
    assert!(comment.starts_with("# ") && comment.contains("4acf26c4c1"));
    let found = all_of(rest);
    assert_eq!(found.len(), worked::cases().len() + 2_000);
    for Stored { case, bytes, .. } in found {
        assert_ne!(case.call, Call::NarrowResidual);
        assert_eq!(answers::stored(&case, &case.answer()), bytes);
    }
}

#[test]
fn stored_answers_begin_with_the_worked_sheets() {
    let file = run("answers --seed 9 --count 1");
    let (_, rest) = divided(&file);
    let found = all_of(rest).into_iter().map(|stored| stored.case);
    assert!(found.take(worked::cases().len()).eq(worked::cases()));
}

#[test]
fn stored_answers_cover_the_table_of_refusals() {
    let file = run("answers --seed 9 --count 2000");
    let found = all_of(divided(&file).1);
    for number in 0..=11 {
        let mut evaluated = found
            .iter()
            .filter(|stored| stored.case.call == Call::Evaluate);
        // Obligations may repeat, so 9 is free.
        let met = evaluated.any(|stored| stored.number == number);
        assert_eq!(met, number != 9, "{number}");
    }
}

#[test]
fn case_i_is_among_the_worked_sheets() {
    let number = |case: &Case| case.answer().map_or_else(Refusal::number, |_| 0);
    let has = |call, words: usize, table: usize, room: usize, expected: u8| {
        worked::cases().iter().any(|case| {
            (case.call, case.words.len(), case.table.len()) == (call, words, table)
                && (!call.writes() || case.room == room)
                && number(case) == expected
        })
    };
    for (words, expected) in [(32, 0), (33, 7), (4_096, 0), (4_097, 1)] {
        assert!(has(Call::Evaluate, words, 256, 16_384, expected), "{words}");
        assert!(has(Call::RequiredFacts, words, 0, 0, expected), "{words}");
    }
    for (words, expected) in [(33, 0), (34, 7), (16_384, 0), (16_385, 1)] {
        assert!(
            has(Call::RequiredResidualFacts, words, 0, 0, expected),
            "{words}"
        );
    }
    assert!(has(Call::Evaluate, 1, 256, 16_384, 0) && has(Call::Evaluate, 1, 257, 16_384, 2));
    assert!(has(Call::Evaluate, 3, 2, 5, 0) && has(Call::Evaluate, 3, 2, 4, 11));
    assert!(has(Call::PartialEvaluate, 3, 2, 4, 0) && has(Call::PartialEvaluate, 3, 2, 3, 11));
}

fn case(call: Call, table: &str, given: &str, room: usize) -> Case {
    Case {
        call,
        table: bytes(table),
        words: words(given),
        number: 0,
        room,
    }
}

#[test]
fn bytes_of_stored_answers() {
    let stored = |case: Case| answers::stored(&case, &case.answer());
    assert_eq!(
        stored(case(
            Call::Evaluate,
            "00 10",
            "88000003 00000000 20000005",
            6
        )),
        bytes(
            "00 00 00 06 00 02 00 03 00 00 00 05 00 05 00 00 00 10 \
             88 00 00 03 00 00 00 00 20 00 00 05 \
             E0 00 00 01 40 05 00 00 C0 00 00 03 00 00 00 01 00 05 00 00"
        )
    );
    assert_eq!(
        stored(case(Call::PartialEvaluate, "", "70000001", 100)),
        bytes("00 01 00 64 00 00 00 01 00 08 00 00 00 00 00 00 70 00 00 01")
    );
    let numbered = case(Call::CompleteResidual, "", "FFFFF000 60000001", 3);
    let numbered = Case {
        number: 0xFFFF,
        ..numbered
    };
    assert_eq!(
        stored(numbered),
        bytes(
            "00 03 00 03 00 00 00 02 00 00 00 03 00 03 FF FF \
             FF FF F0 00 60 00 00 01 EF FF F0 00 C0 00 00 01 00 00 00 00"
        )
    );
    assert_eq!(
        stored(case(Call::IsPermitConstant, "", "F0000000 60000001", 0)),
        bytes("00 06 00 00 00 00 00 02 00 00 00 01 00 00 00 00 F0 00 00 00 60 00 00 01")
    );
    let refused = "00 05 00 20 00 00 00 00 00 01 00 00 00 20 00 00";
    assert_eq!(
        stored(case(Call::RequiredResidualFacts, "", "", 0)),
        [bytes(refused), vec![0; 128]].concat()
    );
    let set = [vec![0x80], vec![0; 126], vec![1]].concat();
    let sheet = "80000001 00000000 40000002 20000000 200003FF";
    let found = stored(case(Call::RequiredFacts, "", sheet, 0));
    assert_eq!(
        found[..16],
        bytes("00 04 00 20 00 00 00 05 00 00 00 02 00 20 00 00")
    );
    assert_eq!(found[36..], set);
}

#[test]
fn cases_in_one_line() {
    let line = |case: Case| answers::line(&case, &case.answer());
    assert_eq!(
        line(case(
            Call::Evaluate,
            "00 10",
            "88000003 00000000 20000005",
            100
        )),
        "evaluate 0 0010 880000030000000020000005 100 0 \
         E000000140050000C00000030000000100050000"
    );
    assert_eq!(
        line(case(Call::PartialEvaluate, "", "70000001", 100)),
        "partial_evaluate 0 - 70000001 100 8 -"
    );
    assert_eq!(
        line(case(Call::CarriesObligation, "", "", 0)),
        "carries_obligation 0 - - 0 1 -"
    );
    assert_eq!(
        line(case(Call::IsPermitConstant, "", "F0000000 60000001", 0)),
        "is_permit_constant 0 - F000000060000001 0 0 1"
    );
    let set = format!("8{}1", "0".repeat(254));
    let sheet = "80000001 00000000 40000002 20000000 200003FF";
    let found = line(case(Call::RequiredFacts, "", sheet, 0));
    assert!(found.ends_with(&format!(" 0 0 {set}")), "{found}");
}

#[test]
fn rows_of_the_checker() {
    let cases = [
        case(Call::Evaluate, "00 10", "88000003 00000000 20000005", 100),
        Case {
            number: 65_536,
            ..case(Call::PartialEvaluate, "", "70000001", 100)
        },
    ];
    let expected = "\
-- Made by: hand
use Rattle.std.specs.Prelude.{List, [], ◌∷◌}
use Rattle.model.specs.Worked.{Row, evaluates, reduces, row_under, refuses, writes}

abbrev pub rows : List Row
rows =
    row_under 0 evaluates 100 (0x00 ∷ 0x10 ∷ []) (0x88000003 ∷ 0x0 ∷ 0x20000005 ∷ []) \
     (writes (0xE0000001 ∷ 0x40050000 ∷ 0xC0000003 ∷ 0x1 ∷ 0x50000 ∷ []))
    ∷ row_under 65536 reduces 100 [] (0x70000001 ∷ []) (refuses 8)
    ∷ []
";
    assert_eq!(rows::file("hand", &cases), expected);
    assert!(rows::file("hand", &[]).ends_with("rows =\n    []\n"));
}

#[test]
fn questions_have_no_table_and_no_room() {
    let answered = case(Call::CarriesObligation, "", "F0000000 60000001", 0).answer();
    assert_eq!(answered, Ok(Answer::Says(false)));
}
