//! Each refusal, by a call that meets it.

use std::collections::BTreeSet;

use vierskof::read::{Record, Sheet};
use vierskof::{
    Entry, REGISTER_WORDS, Refusal, complete_residual, evaluate, in_force, narrow_residual,
    narrow_residual_in_order, partial_evaluate, partial_evaluate_in_order,
};

/// A Deny node.
const DENY: u32 = 0x7000_0000;
/// The lead of a Pending record without consulted entries.
const PENDING: u32 = 0xF000_0000;

/// Calls that write a record, refused: with this number, and the output as it was.
#[track_caller]
fn refused(number: u32, sheet: &[u32], facts: &[u8]) {
    let mut out = [0x5A5A_5A5A; 600];
    let record = [&[PENDING], sheet].concat();
    let found = [
        evaluate(sheet, 0, facts, &mut out).map(<[u32]>::len),
        complete_residual(&record, 0, facts, &mut out).map(<[u32]>::len),
    ];
    assert_eq!(found, [Err(Refusal::try_from(number).unwrap()); 2]);
    assert_eq!(out, [0x5A5A_5A5A; 600]);
}

/// Words that reading refuses, whichever way they are read.
#[track_caller]
fn unread(number: u32, sheet: &[u32]) {
    refused(number, sheet, &[]);
    let refusal = Refusal::try_from(number).unwrap();
    let record = [&[PENDING], sheet].concat();
    assert_eq!(Sheet::read(sheet), Err(refusal));
    assert_eq!(Record::read(&record), Err(refusal));
    assert_eq!(vierskof::required_facts(sheet), Err(refusal));
    assert_eq!(vierskof::required_residual_facts(&record), Err(refusal));
    assert_eq!(vierskof::is_permit_constant(&record), Err(refusal));
    assert_eq!(vierskof::is_deny_constant(&record), Err(refusal));
    assert_eq!(vierskof::carries_obligation(&record), Err(refusal));
}

#[test]
fn length_is_1() {
    let mut out = [0; 8];
    for words in [0, 4_097] {
        let sheet = vec![DENY; words];
        assert_eq!(Sheet::read(&sheet), Err(Refusal::Length));
        assert_eq!(evaluate(&sheet, 0, &[], &mut out), Err(Refusal::Length));
    }
    for words in [0, 16_385] {
        let record = vec![DENY; words];
        assert_eq!(Record::read(&record), Err(Refusal::Length));
        let narrowed = narrow_residual(&record, 0, &[], &mut out);
        assert_eq!(narrowed.map_err(Refusal::number), Err(1));
    }
}

#[test]
fn tables_are_2_to_4() {
    refused(2, &[DENY], &[0; 257]);
    refused(3, &[DENY], &[0x00, 0x03]);
    refused(4, &[DENY], &[0x00, 0x02]);
    let mut out = [0; 8];
    assert!(partial_evaluate(&[DENY], 0, &[0x00, 0x02], &mut out).is_ok());
}

#[test]
fn words_are_5_to_10() {
    unread(5, &[0x0000_0000]);
    unread(5, &[0xE000_0000]);
    unread(6, &[0x9000_0001]);
    unread(7, &[0x9000_0001; 33]);
    unread(8, &[0x7000_0001]);
    unread(8, &[0x8010_0001, 0, 0x4000_0000, 0]);
    unread(8, &[0x8030_0001, 0, 0x0707_4000, 0]);
    unread(8, &[0x8410_0001]);
    unread(10, &[DENY, DENY]);
}

/// An entry may say 3, which is silence; what must be 0 in it must still be.
#[test]
fn entries_are_8_by_their_zeros_alone() {
    for presence in 0..4 {
        assert!(Record::read(&[0xF000_0001, presence << 30 | 5 << 16, DENY]).is_ok());
    }
    for entries in [0xC405_0000, 0xC005_C000, 0xC005_0001] {
        let record = [0xF000_0001, entries, DENY];
        assert_eq!(Record::read(&record), Err(Refusal::Field));
    }
    let cut = |entries| vierskof::is_deny_constant(&[0xF000_0FFF, entries]);
    assert_eq!(cut(0xC000_0000), Err(Refusal::WordsEnd));
    assert_eq!(cut(0x0400_0000), Err(Refusal::Field));
}

/// Reduction and narrowing are refused alike in either order, for the first cause.
#[test]
fn both_pairs_are_refused_alike() {
    let long = vec![DENY; 4_097];
    let cases: [(&[u32], &[u8], u32); 10] = [
        (&[], &[0; 257], 1),
        (&long, &[], 1),
        (&[DENY, DENY], &[0; 257], 2),
        (&[DENY, DENY], &[0x00, 0x03], 3),
        (&[0x0000_0000], &[0x02], 5),
        (&[0x9000_0001], &[0x02], 6),
        (&[0x9000_0001; 33], &[], 7),
        (&[0x7000_0001], &[], 8),
        (&[0x8020_0001, 0, 0x0740_0000, 0], &[], 8),
        (&[DENY, DENY], &[], 10),
    ];
    for (sheet, facts, number) in cases {
        let refusal = Err(Refusal::try_from(number).unwrap());
        let mut out = [0x5A5A_5A5A; 600];
        assert_eq!(partial_evaluate(sheet, 0, facts, &mut out), refusal);
        assert_eq!(
            partial_evaluate_in_order(sheet, 0, facts, &mut out),
            refusal
        );
        if number != 1 {
            let record = [&[PENDING], sheet].concat();
            assert_eq!(narrow_residual(&record, 0, facts, &mut out), refusal);
            assert_eq!(
                narrow_residual_in_order(&record, 0, facts, &mut out),
                refusal
            );
        }
        assert_eq!(out, [0x5A5A_5A5A; 600]);
    }
}

/// Stored decisions stand in records only, and alone in a Resolved one.
#[test]
fn kinds_have_their_places() {
    let permit = [0xC000_0001, 0x0000_0000];
    assert_eq!(Sheet::read(&permit), Err(Refusal::Kind));
    let record = |lead: u32, tree: &[u32]| Record::read(&[&[lead], tree].concat()).is_ok();
    assert!(record(PENDING, &permit));
    assert!(record(0xE000_0000, &permit));
    assert!(record(PENDING, &[DENY]));
    assert!(!record(0xE000_0000, &[DENY]));
}

#[test]
fn room_is_11() {
    let sheet = [0x8800_0003, 0x0000_0000, 0x2000_0005];
    let mut out = [1, 2, 3];
    let refused = partial_evaluate(&sheet, 0, &[0x00, 0x20], &mut out);
    assert_eq!(refused, Err(Refusal::Room));
    assert_eq!(Refusal::Room.number(), 11);
    assert_eq!(out, [1, 2, 3]);
    let mut out = [9; 6];
    let accepted = partial_evaluate(&sheet, 0, &[0x00, 0x20], &mut out);
    assert_eq!(accepted, Ok(&[PENDING, sheet[0], sheet[1], sheet[2]][..]));
    assert_eq!(out[4..], [9, 9]);
}

/// A record of another sheet, Pending or Resolved: after 10 and before 11. Expected 0 is no wildcard.
#[test]
fn another_sheet_is_16() {
    let calls = [narrow_residual, narrow_residual_in_order, complete_residual];
    let pending = [0xF000_7000, 0x8800_0003, 0x0000_0000, 0x2000_0005];
    let resolved = [0xE000_7000, 0xC000_0001, 0x0000_0000];
    for record in [&pending[..], &resolved] {
        let longer = [record, &[0]].concat();
        for call in calls {
            for room in [0, 8] {
                let mut out = vec![0x5A5A_5A5A; room];
                for number in [0, 8, 0x7000, u16::MAX] {
                    assert_eq!(
                        call(record, number, &[], &mut out),
                        Err(Refusal::SheetNumber)
                    );
                    let refused = call(&longer, number, &[], &mut out);
                    assert_eq!(refused, Err(Refusal::WordsAfterTree));
                    let refused = call(record, number, &[0x03], &mut out);
                    assert_eq!(refused, Err(Refusal::TableField));
                }
                assert_eq!(out, vec![0x5A5A_5A5A; room]);
            }
            let mut out = [0; 8];
            assert!(call(record, 7, &[], &mut out).is_ok());
            assert_eq!(call(record, 7, &[], &mut out[..2]), Err(Refusal::Room));
        }
    }
}

/// A table that says the contrary of an entry, of a Pending and a Resolved record: after 16 and before 11, of narrowings alone.
#[test]
fn a_contradiction_is_17() {
    let pending = [
        0xF000_7001,
        0x4005_0000,
        0x8000_0001,
        0x0000_0000,
        0x2000_0006,
    ];
    let resolved = [
        0xE000_7001,
        0x4005_0000,
        0xC000_0003,
        0x0000_0001,
        0x0005_0000,
    ];
    for record in [pending, resolved] {
        for call in [narrow_residual, narrow_residual_in_order] {
            for room in [0, 2, 8] {
                let mut out = vec![0x5A5A_5A5A; room];
                let refused = call(&record, 7, &[0x00, 0x00], &mut out);
                assert_eq!(refused, Err(Refusal::Contradiction));
                let refused = call(&record, 8, &[0x00, 0x00], &mut out);
                assert_eq!(refused, Err(Refusal::SheetNumber));
                assert_eq!(out, vec![0x5A5A_5A5A; room]);
            }
            let mut out = [0; 8];
            for table in [&[0x00, 0x10][..], &[0x00, 0x20], &[0x00], &[]] {
                assert!(call(&record, 7, table, &mut out).is_ok());
            }
        }
        let mut out = [0; 8];
        assert!(complete_residual(&record, 7, &[0x00, 0x00], &mut out).is_ok());
    }
}

/// A register at its limit and past it, whatever group is asked for.
#[test]
fn no_register_is_15() {
    let entry = |number| Entry {
        group: 1,
        number,
        day: u32::from(number),
        withdrawn: false,
    };
    let most: Vec<u32> = (0..256).flat_map(|at| entry(at).words()).collect();
    assert_eq!(most.len(), REGISTER_WORDS);
    assert_eq!(in_force(&most, 1, u32::MAX), Ok(Some(255)));
    let refused = [
        [most.as_slice(), &[0]].concat(),
        [most.as_slice(), &entry(256).words()].concat(),
        [&most[..510], &entry(7).words()].concat(),
        [&most[..510], &[0x0101_0100, 0]].concat(),
        most[..1].to_vec(),
    ];
    for words in refused {
        for group in [0, 1] {
            assert_eq!(in_force(&words, group, 0), Err(Refusal::Register));
        }
    }
}

#[test]
fn numbers_and_refusals_belong_together() {
    let numbers = [
        1, 2, 3, 4, 5, 6, 7, 8, 10, 11, 12, 13, 14, 15, 16, 17, 18, 19, 20, 21,
    ];
    assert_eq!(numbers.len(), Refusal::ALL.len());
    for (number, &refusal) in numbers.into_iter().zip(Refusal::ALL) {
        assert_eq!(refusal.number(), number);
        assert_eq!(u32::from(refusal), number);
        assert_eq!(Refusal::try_from(number), Ok(refusal));
    }
    for number in [0, 9, 22, u32::MAX] {
        assert!(Refusal::try_from(number).is_err());
    }
    let sentences: BTreeSet<String> = Refusal::ALL.iter().map(ToString::to_string).collect();
    assert_eq!(sentences.len(), Refusal::ALL.len());
}
