//! Both sides of each limit.

use compare::case::Call::{
    CompleteResidual, Evaluate, NarrowResidual, NarrowResidualInOrder, PartialEvaluate,
    PartialEvaluateInOrder,
};
use compare::case::Case;
use compare::generate::limits::{
    cases, deep, growing, growing_in_order, listed, naming, records, sheets, tables,
};
use compare::generate::rng::Rng;
use compare::refusal::Refusal;
use compare::repeats::Tally;
use compare::words::{read, write};

use super::written;

/// How often each refusal's number, or 0, is an answer.
fn tally<T>(answers: impl Iterator<Item = Result<T, Refusal>>) -> [usize; 18] {
    let mut tally = [0; 18];
    for answer in answers {
        let number = answer.map_or_else(Refusal::number, |_| 0);
        tally[usize::from(number)] += 1;
    }
    tally
}

#[test]
fn sheets_pass_up_to_their_limits() {
    let sheets = sheets(&mut Rng::new(1));
    let found = tally(sheets.iter().map(|words| read::sheet(words)));
    // Accepted: three sheets of each of 4,095 and 4,096 words, four of each of 31 and 32 levels,
    // two of each of 63 and 64 obligations, one of both lists that an evaluation makes 127 of, two of 29 lists over a grant, one of denies.
    assert_eq!(found[..12], [22, 4, 0, 0, 0, 0, 0, 8, 2, 0, 0, 0]);
}

#[test]
fn records_pass_up_to_their_limits() {
    let records = records(&mut Rng::new(1));
    let found = tally(records.iter().map(|words| read::record(words)));
    // Refused: no words and 16,385 of them, two leads alone, levels 33 and 34, 65 obligations of a Grant and 128 of a node 12. Nine are unions.
    assert_eq!(found[..12], [35, 2, 0, 0, 0, 0, 2, 2, 2, 0, 0, 0]);
}

#[test]
fn fact_lists_end_at_4095() {
    let mut rng = Rng::new(1);
    for facts in 4_093..=4_098 {
        let record = [
            &[0xF000_0000],
            write::tree(&naming(&mut rng, facts)).as_slice(),
        ]
        .concat();
        for call in [NarrowResidual, NarrowResidualInOrder, CompleteResidual] {
            // A list of Present facts is true under All and names all; Any names its first.
            let (number, found) = written(call, &record, &[0x55; 256], 16_384);
            let (missing, found_missing) = written(call, &record, &[], 16_384);
            let longest = found.len().max(found_missing.len()) > 2_000;
            let numbers = [number, missing];
            assert_eq!(numbers.contains(&11), facts > 4_095, "{facts}");
            assert_eq!(longest, facts <= 4_095, "{facts}");
        }
    }
}

#[test]
fn stored_lists_come_back() {
    let mut rng = Rng::new(1);
    let record = write::record(&listed(&mut rng, 4_095));
    for call in [NarrowResidual, NarrowResidualInOrder, CompleteResidual] {
        let found = written(call, &record, &[], record.len());
        assert_eq!(found, (0, record.clone()));
    }
}

#[test]
fn a_narrowing_may_outgrow_a_record() {
    for words in 16_380..=16_390 {
        let expected = if words <= 16_384 { (0, words) } else { (11, 0) };
        for (call, record) in [
            (NarrowResidual, growing(words)),
            (NarrowResidualInOrder, growing(words)),
            (NarrowResidualInOrder, growing_in_order(words)),
        ] {
            let (number, found) = written(call, &write::record(&record), &[0x80], 20_000);
            assert_eq!((number, found.len()), expected);
        }
        // Permits first, the denies drop out.
        let record = write::record(&growing_in_order(words));
        let (number, found) = written(NarrowResidual, &record, &[0x80], 20_000);
        assert!(number == 0 && found.len() < 20, "{}", found.len());
    }
}

/// In sheet order a Deny of a sheet's Any comes to three words, and a deny under many lists stays where it stands.
#[test]
fn sheets_grow_within_their_room() {
    let denies = [vec![0xA000_0FFD], vec![0x7000_0000; 4_092]].concat();
    let sheet = [denies, vec![0x8000_0001, 0, 0x2000_0000]].concat();
    let room = 3 * sheet.len() + 513;
    let (number, found) = written(PartialEvaluateInOrder, &sheet, &[0x80], room);
    assert_eq!((number, found.len()), (0, 3 * 4_092 + 5));
    assert_eq!(written(PartialEvaluate, &sheet, &[0x80], room).1.len(), 8);
    let sheet = write::tree(&deep(4_000, &[]));
    let (number, found) = written(PartialEvaluateInOrder, &sheet, &[], 3 * sheet.len() + 513);
    assert_eq!(
        (number, found[0] >> 28, found.len()),
        (0, 14, 1 + 512 + 2_003)
    );
}

#[test]
fn tables_end_at_256_bytes() {
    for unknown in [false, true] {
        let call = if unknown { PartialEvaluate } else { Evaluate };
        for table in tables(&mut Rng::new(1), unknown) {
            let expected = if table.len() > 256 { 2 } else { 0 };
            assert_eq!(written(call, &[0x7000_0000], &table, 4).0, expected);
        }
    }
}

/// Every call at every limit ends in an answer, and outputs of the record's length suffice.
#[test]
fn every_call_ends() {
    let found = tally(cases(&mut Rng::new(1)).iter().map(Case::answer));
    for number in [0, 1, 2, 6, 7, 8, 11] {
        assert!(found[number] > 0, "{found:?}");
    }
}

/// Lists of the most obligations, and unions of 127, 128 and 190 that are kept and dropped, are among them.
#[test]
fn obligations_up_to_their_limits() {
    let met = Tally::of(&cases(&mut Rng::new(1)));
    let counts = [met.granted[0], met.granted[1], met.stored[1], met.stored[2]];
    assert!(counts.into_iter().all(|count| count > 10), "{met:?}");
    let unions = [met.kept, met.dropped].concat();
    assert!(unions.into_iter().all(|count| count > 10), "{met:?}");
}
