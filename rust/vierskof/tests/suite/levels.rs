//! Outcome tables through the safe interface.

use vierskof::{
    Levels, Refusal, complete_residual, complete_residual_by_levels, evaluate, evaluate_by_levels,
    narrow_residual, narrow_residual_by_levels, narrow_residual_in_order,
    narrow_residual_in_order_by_levels, partial_evaluate, partial_evaluate_by_levels,
    partial_evaluate_in_order, partial_evaluate_in_order_by_levels,
};

/// Three levels between a least and a greatest.
const M3: [u8; 50] = [
    0, 0, 0, 0, 0, 0, 1, 0, 0, 1, 0, 0, 2, 0, 2, 0, 0, 0, 3, 3, 0, 1, 2, 3, 4, 0, 1, 2, 3, 4, 1, 1,
    4, 4, 4, 2, 4, 2, 4, 4, 3, 4, 4, 3, 4, 4, 4, 4, 4, 4,
];

#[test]
fn chains_are_tables() {
    for count in 1..=Levels::MOST {
        let levels = Levels::chain(count).expect("1 to 16 levels");
        assert_eq!(levels.count(), count);
        assert_eq!(Levels::new(count, levels.as_bytes()), Ok(levels));
        for one in 0..20 {
            for other in 0..20 {
                let both = usize::from(one.max(other)) < count;
                let lower = both.then_some(one.min(other));
                let higher = both.then_some(one.max(other));
                assert_eq!(levels.meet(one, other), lower);
                assert_eq!(levels.join(one, other), higher);
            }
        }
    }
    for count in [0, 17, 256, usize::MAX] {
        assert_eq!(Levels::chain(count), Err(Refusal::OutcomeTable));
    }
}

#[test]
fn tables_are_judged() {
    let levels = Levels::new(5, &M3).expect("a lattice");
    assert_eq!(levels.as_bytes(), M3);
    assert_eq!((levels.meet(1, 3), levels.join(1, 3)), (Some(0), Some(4)));
    assert_eq!((levels.meet(5, 0), levels.join(0, 5)), (None, None));
    // Level 0 may be the greatest, and there may be one level.
    assert!(Levels::new(2, &[0, 1, 1, 1, 0, 0, 0, 1]).is_ok());
    assert!(Levels::new(1, &[0, 0]).is_ok());
    let refused: [(usize, &[u8]); 12] = [
        (0, &[]),
        (0, &[0, 0]),
        (4, &M3),
        (5, &M3[..49]),
        (5, &[&M3[..], &[4]].concat()),
        (17, &[0; 578]),
        (1 << 32 | 1, &[0, 0]),
        (usize::MAX, &[]),
        (1, &[0, 1]),
        (2, &[0, 0, 0, 1, 0, 1, 1, 0]),
        (2, &[0, 0, 1, 1, 0, 1, 1, 1]),
        (3, &[0, 0, 2, 0, 1, 1, 2, 1, 2, 0, 1, 0, 1, 1, 2, 0, 2, 2]),
    ];
    for (count, outcomes) in refused {
        let found = Levels::new(count, outcomes);
        assert_eq!(found, Err(Refusal::OutcomeTable), "{count} {outcomes:?}");
    }
}

#[test]
fn stages_by_one_table() {
    let levels = &Levels::new(5, &M3).expect("a lattice");
    // Any of level 1 on fact 5, level 2 on fact 6, and level 3.
    let sheet = [
        0xA000_0003,
        0x8000_0001,
        0,
        0x2000_0005,
        0x8000_0002,
        0,
        0x2000_0006,
        0x6000_0003,
    ];
    let known = [0x00, 0x14];
    let [mut one, mut two, mut three] = [[0x5A5A_5A5A; 16]; 3];
    let sitting = evaluate_by_levels(levels, &sheet, 7, &known, &mut one);
    let expected = [0xE000_7002, 0x4005_4006, 0xC000_0004, 0];
    assert_eq!(sitting, Ok(&expected[..]));
    assert_eq!(one[4..], [0x5A5A_5A5A; 12]);
    for (reduce, narrow) in [
        (
            partial_evaluate_by_levels as By,
            narrow_residual_by_levels as By,
        ),
        (
            partial_evaluate_in_order_by_levels,
            narrow_residual_in_order_by_levels,
        ),
    ] {
        let pending = reduce(levels, &sheet, 7, &[0x00, 0x24], &mut two).expect("accepted");
        for last in [complete_residual_by_levels as By, narrow] {
            let completed = last(levels, pending, 7, &known, &mut three);
            let expected = [0xE000_7002, 0x4006_4005, 0xC000_0004, 0];
            assert_eq!(completed, Ok(&expected[..]));
        }
        let four = &Levels::chain(3).expect("a chain");
        for other in [complete_residual_by_levels as By, narrow] {
            let mut out = [0x5A5A_5A5A; 16];
            let refused = other(four, pending, 7, &known, &mut out);
            assert_eq!(refused, Err(Refusal::Field));
            assert_eq!(out, [0x5A5A_5A5A; 16]);
        }
    }
}

/// Four products are sixteen levels.
#[test]
fn sets_of_four_products_are_levels() {
    let pairs = || (0..16).flat_map(|one| (0..16).map(move |other| (one, other)));
    let meets = pairs().map(|(one, other)| one & other);
    let table: Vec<u8> = meets
        .chain(pairs().map(|(one, other)| one | other))
        .collect();
    let levels = &Levels::new(16, &table).expect("a lattice");
    let sheets: [&[u32]; 4] = [
        &[0x9000_0002, 0x6000_0003, 0x6000_0006],
        &[0xA000_0002, 0x6000_0003, 0x6000_0006],
        &[0x8800_0003, 0, 0x2000_0005],
        &[0xB000_0000, 0x8800_0003, 0, 0x2000_0005, 0x6000_000F],
    ];
    let calls: [(By, None); 6] = [
        (evaluate_by_levels, evaluate),
        (partial_evaluate_by_levels, partial_evaluate),
        (
            partial_evaluate_in_order_by_levels,
            partial_evaluate_in_order,
        ),
        (narrow_residual_by_levels, narrow_residual),
        (narrow_residual_in_order_by_levels, narrow_residual_in_order),
        (complete_residual_by_levels, complete_residual),
    ];
    for sheet in sheets {
        let record = [&[0xF000_0000], sheet].concat();
        for (place, (by, none)) in calls.into_iter().enumerate() {
            let words = if place < 3 { sheet } else { &record };
            for table in [&[][..], &[0x00, 0x10], &[0x00, 0x20], &[0x03]] {
                let [mut one, mut other] = [[0; 16]; 2];
                let found = by(levels, words, 0, table, &mut one);
                assert_eq!(found, none(words, 0, table, &mut other));
            }
        }
    }
}

type None = for<'o> fn(&[u32], u16, &[u8], &'o mut [u32]) -> Result<&'o [u32], Refusal>;
type By = for<'o> fn(&Levels, &[u32], u16, &[u8], &'o mut [u32]) -> Result<&'o [u32], Refusal>;
