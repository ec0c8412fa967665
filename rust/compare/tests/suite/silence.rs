//! Silence in the trace: request 9's worked cases, what is marked in the original's records, and how much of it is drawn.

use compare::case::Call::{
    self, CarriesObligation, CompleteResidual, Evaluate, IsDenyConstant, IsPermitConstant,
    NarrowResidual, NarrowResidualInOrder, PartialEvaluate, PartialEvaluateInOrder,
    RequiredResidualFacts,
};
use compare::case::{Answer, Case};
use compare::generate::cases::draw_silent;
use compare::generate::chains::Chain;
use compare::generate::grow::{Alphabet, Grower};
use compare::generate::rng::Rng;
use compare::narrow::Order;
use compare::reference;
use compare::refusal::Refusal;
use compare::silence::{Tally, heard, marked, standing};
use compare::words::table::Table;
use compare::words::tree::Seen::{self, Absent, Present, Silent, Unknown};
use compare::words::tree::{Record, Tree};
use compare::words::{TABLE_BYTES, read, write};

use super::stages::decided;
use super::{refuses, words, writes};

/// D's sheet.
const D: &str = "88000003 00000000 20000005";

/// The calls that take a sheet and a table.
const SHEETS: [Call; 3] = [Evaluate, PartialEvaluate, PartialEvaluateInOrder];
/// Those that take a record and a table.
const RECORDS: [Call; 3] = [NarrowResidual, NarrowResidualInOrder, CompleteResidual];

/// A record's words with silence read as Absent; others as they are.
pub fn without_silence(words: Vec<u32>) -> Vec<u32> {
    let number = u16::try_from(read::sheet_number(&words)).expect("16 bits");
    match read::record(&words) {
        Ok(record) => write::numbered(number, write::record(&heard(record))),
        Err(_) => words,
    }
}

/// Whether the case is a narrowing with a table that contradicts an entry.
pub fn contradicts(case: &Case) -> bool {
    let narrows = [NarrowResidual, NarrowResidualInOrder].contains(&case.call);
    let record = read::record(&case.words).expect("a record");
    let table = Table::partial(&case.table).expect("an accepted table");
    narrows && reference::contradicted(&record, &table)
}

/// The same call without silence: with a table that enters every fact, and no silent entry.
pub fn entered(case: &Case) -> Case {
    let mut table = case.table.clone();
    table.resize(table.len().max(TABLE_BYTES), 0);
    let words = if case.call.reads_sheet() {
        case.words.clone()
    } else {
        without_silence(case.words.clone())
    };
    Case {
        table,
        words,
        ..case.clone()
    }
}

#[test]
fn a_fact_is_entered_where_the_table_has_its_byte() {
    let denied = |entry| format!("E0000001 {entry} DC000003 00000000 00000001 00050000");
    for call in SHEETS {
        writes(call, D, "", &denied("C0050000"));
        writes(call, D, "00", &denied("C0050000"));
        writes(call, D, "00 00", &denied("00050000"));
        // The unused fields of the last byte are entered.
        let seven = "80000001 00000000 20000007";
        let record = "E0000001 00070000 D4000001 00000000 00000001 00070000";
        writes(call, seven, "00 10", record);
        let three = "80000001 00000000 50000003 20000003 20000004 20000000";
        let record = "E0000003 0003C004 40000000 C0000001 00000001 00000000";
        writes(call, three, "40", record);
    }
}

#[test]
fn silence_is_known() {
    let sheet = "80000001 00000000 40000002 20000000 20000009";
    let record = "E0000001 C0090000 D4000001 00000000 00000001 00000000";
    writes(PartialEvaluate, sheet, "80", record);
    writes(PartialEvaluateInOrder, sheet, "80", record);
}

#[test]
fn an_entry_that_stands_stays() {
    let given = format!("F0000001 C0050000 {D}");
    let record = "E0000001 C0050000 C0000003 00000001 00050000";
    for call in RECORDS {
        writes(call, &given, "00 10", record);
        let twice = "F0000003 C0050005 40050000 60000001";
        writes(call, twice, "", "E0000001 C0050000 C0000001 00000000");
    }
    // The table is silent on what was entered.
    let given = format!("F0000001 00050000 {D}");
    let record = "E0000001 00050000 DC000003 00000000 00000001 00050000";
    for call in RECORDS {
        writes(call, &given, "", record);
    }
}

#[test]
fn a_resolved_record_comes_back_equal() {
    let silent = "E0000001 C0050000 C0000001 00000000";
    let all = "E0000004 C0050005 4005C005 C0000001 00000000";
    for call in RECORDS {
        for table in ["", "00 10", "00 00"] {
            writes(call, silent, table, silent);
        }
        writes(call, all, "", all);
    }
}

#[test]
fn presence_3_is_no_fault_of_an_entry() {
    for call in RECORDS {
        refuses(call, "F0000001 C4050000 60000001", "", 8);
        refuses(call, "F0000001 C005C000 60000001", "", 8);
        refuses(call, "F0000FFF C0000000", "", 6);
        refuses(call, "F0000FFF 04000000", "", 8);
        refuses(call, "F0000001 C0050000 60000001", "00 30", 3);
    }
    for call in SHEETS {
        refuses(call, "60000001", "00 30", 3);
    }
    let asked = |call, given: &str| {
        let case = Case {
            call,
            table: Vec::new(),
            words: words(given),
            number: 0,
            room: 0,
        };
        case.answer()
    };
    let given = "F0000001 C0050000 60000001";
    assert_eq!(asked(IsPermitConstant, given), Ok(Answer::Says(true)));
    assert_eq!(asked(IsDenyConstant, given), Ok(Answer::Says(false)));
    assert_eq!(asked(CarriesObligation, given), Ok(Answer::Says(false)));
    // An entry is no fact that is needed.
    let none = Answer::Facts(reference::FactSet::default());
    assert_eq!(asked(RequiredResidualFacts, given), Ok(none));
}

/// What stood before stays, and of what is new only Absent past the table's end becomes silence.
#[test]
fn marking() {
    let record = |entries: &[(u16, Seen)]| Record::Pending {
        consulted: entries.to_vec(),
        residual: Tree::Deny,
    };
    let table = Table::partial(&[0x40]).expect("a table");
    let given = record(&[(9, Absent), (8, Silent), (9, Silent), (2, Unknown)]);
    let first = [(9, Absent), (8, Silent), (2, Unknown)];
    assert_eq!(standing(&given), first);
    let new = [(0, Present), (3, Absent), (4, Absent)];
    let old = [(9, Absent), (8, Absent), (2, Unknown)];
    let original = record(&[old, new].concat());
    let told = record(&[first, [(0, Present), (3, Absent), (4, Silent)]].concat());
    assert_eq!(marked(&original, &first, &table), told);
    assert_eq!(heard(told), original);
}

/// A relay whose table ended before a fact agrees with an archive that entered it as Absent, the other way about, and where both ended before it: with 80 or 40,
/// which are silent on fact 5, or with 80 00 or 40 00, which enter it, the sheet is reduced and completed.
#[test]
fn a_short_table_agrees_with_one_that_enters_absent() {
    let sheet = words(&format!("A0000002 80000001 00000000 20000000 {D}"));
    for (relay, archive) in [("80", "40 00"), ("80 00", "40"), ("80", "40")] {
        let chain = Chain {
            sheet: sheet.clone(),
            facts: vec![0, 5],
            known: super::bytes(archive),
            reduction: super::bytes(relay),
            narrowings: vec![super::bytes("A0")],
            number: 0,
        };
        let room = chain.room();
        let sitting =
            reference::evaluate(&chain.sheet, 0, &chain.known, room).expect("room for it");
        for order in [Order::PermitsFirst, Order::SheetOrder] {
            for record in chain.records(order) {
                let completed = reference::complete_residual(&record, 0, &chain.known, room);
                let completed = completed.expect("room for it");
                assert_eq!(decided(&completed), decided(&sitting), "{chain:X?}");
            }
        }
    }
}

/// With silence read as Absent, a record is what the call gives without any.
#[test]
fn silence_changes_no_decision() {
    let calls: Vec<Call> = Call::ALL.into_iter().filter(|call| call.writes()).collect();
    let cases = draw_silent(1, 20_000, &calls);
    let mut told = 0;
    for case in &cases {
        let (found, before) = (case.answer(), entered(case).answer());
        // What is entered may contradict what a silent table or entry does not.
        if before == Err(Refusal::Contradiction) {
            assert!(contradicts(&entered(case)), "{case:X?}");
            continue;
        }
        told += usize::from(found != before);
        let found = found.map(|answer| match answer {
            Answer::Record(record) => Answer::Record(without_silence(record)),
            other => other,
        });
        assert_eq!(found, before, "{case:X?}");
    }
    assert!(told > 3_000, "{told}");
}

/// The original's completion, marked, is the plain walk that reads silence itself.
#[test]
fn what_is_marked_is_what_is_read() {
    let cases = draw_silent(2, 20_000, &[Evaluate, PartialEvaluate, CompleteResidual]);
    let mut against = 0;
    for case in &cases {
        let Ok(Answer::Record(found)) = case.answer() else {
            continue;
        };
        let words = if case.call.reads_sheet() {
            let number = u16::try_from(case.number).expect("a sheet's number");
            write::numbered(number, [&[0xF000_0000], case.words.as_slice()].concat())
        } else {
            case.words.clone()
        };
        let narrowed = reference::narrow_residual(&words, case.number, &case.table, case.room);
        // A completion goes by its table, whatever the record has.
        if narrowed == Err(Refusal::Contradiction) {
            let (record, table) = (read::record(&words), Table::partial(&case.table));
            assert!(reference::contradicted(
                &record.expect("a record"),
                &table.expect("a table")
            ));
            against += 1;
        } else {
            assert_eq!(narrowed, Ok(found), "{case:X?}");
        }
    }
    assert!(against > 100 && against < 4_000, "{against}");
    let met = Tally::of(&cases);
    assert!(met.given > 1_000 && met.cut > 3_000, "{met}");
    assert!(met.told > 2_000 && met.entered > 1_500, "{met}");
    let [absent, present, _] = met.entered_later;
    assert!(absent > 300 && present > 300, "{met}");
    assert!(met.silent_later > 150, "{met}");
}

/// Chains have records with silence, whichever tables they are of.
#[test]
fn chains_tell_silence() {
    let mut rng = Rng::new(7);
    let mut told = 0;
    for _ in 0..3_000 {
        let alphabet = Alphabet::draw(&mut rng);
        let sheet = write::tree(&Grower::of_sheets(&mut rng, &alphabet).layered());
        let chain = Chain::over(&mut rng, sheet);
        let records = chain.records(Order::PermitsFirst);
        let silent = |words: &Vec<u32>| {
            let record = read::record(words).expect("a record");
            record.consulted().iter().any(|(_, seen)| *seen == Silent)
        };
        told += usize::from(records.iter().any(silent));
    }
    assert!(told > 150, "{told}");
}
