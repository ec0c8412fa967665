//! Records with the number of their sheet: request 6's worked cases, and that nothing but the number's sixteen bits depends on it.

use compare::case::Call::{
    self, CarriesObligation, CompleteResidual, Evaluate, IsDenyConstant, IsPermitConstant,
    NarrowResidual, NarrowResidualInOrder, PartialEvaluate, PartialEvaluateInOrder,
    RequiredResidualFacts,
};
use compare::case::{Answer, Case};
use compare::generate::cases::draw;
use compare::generate::numbers::SHEETS;
use compare::refusal::Refusal;
use compare::words::read::sheet_number;
use compare::words::write::numbered;

use super::{bytes, words, written_under};

/// D's sheet, and the record of its reduction under number 7.
const D: &str = "88000003 00000000 20000005";
const PENDING: &str = "F0007000 88000003 00000000 20000005";
/// The records of a permit and of a deny that come of it.
const PERMIT: &str = "E0007001 40050000 C0000003 00000001 00050000";
const DENY: &str = "E0007001 C0050000 DC000003 00000000 00000001 00050000";

/// Checks a call's record under a number, everything in document 01's hexadecimal.
#[track_caller]
fn writes(number: u32, call: Call, given: &str, table: &str, record: &str) {
    let (refusal, found) = written_under(number, call, &words(given), &bytes(table), 16_384);
    assert_eq!((refusal, found), (0, words(record)), "{call:?} {given}");
}

/// Checks a call's refusal.
#[track_caller]
fn refuses(number: u32, call: Call, given: &str, room: usize, refusal: u8) {
    let (found, _) = written_under(number, call, &words(given), &[], room);
    assert_eq!(found, refusal, "{number} {call:?} {given}");
}

#[test]
fn the_number_stands_in_the_lead() {
    let permit = "60000001";
    writes(7, Evaluate, permit, "", "E0007000 C0000001 00000000");
    writes(65_535, Evaluate, permit, "", "EFFFF000 C0000001 00000000");
    writes(7, Evaluate, D, "00 10", PERMIT);
    for reduce in [PartialEvaluate, PartialEvaluateInOrder] {
        writes(7, reduce, D, "00 20", PENDING);
    }
    for narrow in [NarrowResidual, NarrowResidualInOrder] {
        writes(7, narrow, PENDING, "00 10", PERMIT);
        writes(7, narrow, PENDING, "00 20", PENDING);
        let (given, record) = ("FFFFF000 60000001", "EFFFF000 C0000001 00000000");
        writes(65_535, narrow, given, "", record);
    }
    writes(7, CompleteResidual, PENDING, "", DENY);
    // A Resolved record comes back word for word.
    for call in [NarrowResidual, NarrowResidualInOrder, CompleteResidual] {
        writes(7, call, PERMIT, "00 10", PERMIT);
    }
}

/// After 10 and before 11, for Resolved records too; 0 is no wildcard.
#[test]
fn another_sheets_record_is_16() {
    for call in [NarrowResidual, NarrowResidualInOrder, CompleteResidual] {
        for number in [0, 6, 8, 7 << 12, 65_535, 65_536, 65_543, u32::MAX] {
            for room in [0, 16_384] {
                refuses(number, call, PENDING, room, 16);
                refuses(number, call, PERMIT, room, 16);
                refuses(number, call, &format!("{PENDING} 00000000"), room, 10);
                refuses(number, call, "F0007000 80000001 00010000", room, 8);
                refuses(number, call, "F0007000", room, 6);
            }
        }
        refuses(7, call, PERMIT, 4, 11);
        refuses(7, call, "F0000000 60000001", 0, 16);
        refuses(0, call, "F0000000 60000001", 0, 11);
    }
}

#[test]
fn numbers_that_no_record_carries_are_16() {
    for call in [Evaluate, PartialEvaluate, PartialEvaluateInOrder] {
        for number in [65_536, 65_543, u32::MAX] {
            refuses(number, call, "60000001", 0, 16);
            refuses(number, call, "60000001", 16, 16);
            refuses(number, call, "60000001 00000000", 0, 10);
        }
        refuses(65_535, call, "60000001", 0, 11);
    }
}

/// Calls that take no number accept a record of any.
#[test]
fn questions_take_any_number() {
    for number in SHEETS {
        let record = numbered(number, words(PENDING));
        for call in [
            RequiredResidualFacts,
            IsPermitConstant,
            IsDenyConstant,
            CarriesObligation,
        ] {
            let case = |words: &[u32]| Case {
                call,
                table: Vec::new(),
                words: words.to_vec(),
                number: 0,
                room: 0,
            };
            assert_eq!(case(&record).answer(), case(&words(PENDING)).answer());
        }
    }
}

/// Each drawn case under its number and under 0: the answers differ in the number alone.
#[test]
fn nothing_else_depends_on_the_number() {
    let cases = draw(1, 40_000, &Call::ALL);
    let [mut numbered_records, mut others] = [0; 2];
    for case in &cases {
        let plain = case.unnumbered().answer();
        match case.answer() {
            Ok(Answer::Record(record)) => {
                assert_eq!(sheet_number(&record), case.number, "{case:X?}");
                numbered_records += usize::from(case.number > 0);
                let masked = numbered(0, record);
                assert_eq!(plain, Ok(Answer::Record(masked)), "{case:X?}");
            }
            Err(Refusal::SheetNumber) => {
                let later = [Refusal::Contradiction, Refusal::Room];
                let taken = plain.map_or_else(|refusal| later.contains(&refusal), |_| true);
                assert!(taken, "{case:X?}");
                others += 1;
            }
            answer => assert_eq!(answer, plain, "{case:X?}"),
        }
    }
    assert!(numbered_records > 8_000, "{numbered_records}");
    assert!(others > 1_500, "{others}");
}

/// The right number four times in five, each of the six, and numbers that no record carries.
#[test]
fn drawn_numbers() {
    let calls = [NarrowResidual, NarrowResidualInOrder, CompleteResidual];
    let cases = draw(2, 10_000, &calls);
    let right = |case: &&Case| sheet_number(&case.words) == case.number;
    let right = cases.iter().filter(right).count();
    assert!((7_900..8_100).contains(&right), "{right}");
    for number in SHEETS {
        let same = |case: &&Case| case.number == u32::from(number);
        assert!(cases.iter().filter(same).count() > 1_000, "{number}");
    }
    let beyond = cases.iter().filter(|case| case.number > 65_535).count();
    assert!(beyond > 300, "{beyond}");
    let sheets = draw(3, 10_000, &[Evaluate, PartialEvaluate]);
    let beyond = sheets.iter().filter(|case| case.number > 65_535).count();
    assert!((400..600).contains(&beyond), "{beyond}");
}
