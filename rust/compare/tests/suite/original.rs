//! The independent narrowing beside the original, where both answer.

use compare::generate::chains::Chain;
use compare::generate::exhaustive::sheets;
use compare::generate::grow::{Alphabet, Grower};
use compare::generate::rng::Rng;
use compare::generate::tables;
use compare::reference::{complete_residual, evaluate, narrow_residual, partial_evaluate};
use compare::refusal::Refusal;
use compare::words::table::pack;
use compare::words::write;

const ROOM: usize = 16_384;

fn pending(sheet: &[u32]) -> Vec<u32> {
    [&[0xF000_0000], sheet].concat()
}

/// A sheet as a record's tree narrows to what the original reduces the sheet to, and completes to
/// what the original evaluates it to.
fn agree(sheet: &[u32], table: &[u8]) {
    let record = pending(sheet);
    let reduced = partial_evaluate(sheet, 0, table, ROOM);
    assert_eq!(
        narrow_residual(&record, 0, table, ROOM),
        reduced,
        "{sheet:X?}"
    );
    if let Ok(decided) = evaluate(sheet, 0, table, ROOM) {
        let completed = complete_residual(&record, 0, table, ROOM);
        assert_eq!(completed.as_ref(), Ok(&decided), "{sheet:X?}");
        assert_eq!(reduced, Ok(decided), "{sheet:X?}");
    }
}

#[test]
fn on_all_small_sheets() {
    let tables: Vec<Vec<u8>> = (0..9).map(|both| pack(&[both / 3, both % 3])).collect();
    let sheets = sheets(5);
    assert!(sheets.len() > 5_000);
    for sheet in sheets {
        for table in &tables {
            agree(&sheet, table);
        }
        agree(&sheet, &[]);
    }
}

#[test]
fn on_random_sheets() {
    let mut rng = Rng::new(1);
    for _ in 0..10_000 {
        let alphabet = Alphabet::draw(&mut rng);
        let words = rng.between(1, 120);
        let chain = Chain::draw(&mut rng, &alphabet, words);
        agree(&chain.sheet, &chain.reduction);
        agree(&chain.sheet, &chain.known);
    }
}

#[test]
fn on_long_sheets() {
    let mut rng = Rng::new(2);
    for _ in 0..20 {
        let alphabet = Alphabet::draw(&mut rng);
        let words = rng.between(1_000, 4_096);
        let tree = Grower::of_sheets(&mut rng, &alphabet).exactly(words);
        let sheet = write::tree(&tree);
        let table = tables::draw(&mut rng, &alphabet.facts, true);
        agree(&sheet, &table);
    }
}

/// Narrowing by a known table is completing, unless the table contradicts the record: nothing is pending, so every rule is the same.
#[test]
fn on_records_and_known_tables() {
    let mut rng = Rng::new(3);
    let mut against = 0;
    for _ in 0..20_000 {
        let alphabet = Alphabet::draw(&mut rng);
        let words = rng.between(1, 80);
        let record = Grower::of_records(&mut rng, &alphabet).record(words);
        let record = write::record(&record);
        let table = tables::draw(&mut rng, &alphabet.facts, false);
        let narrowed = narrow_residual(&record, 0, &table, ROOM);
        if narrowed == Err(Refusal::Contradiction) {
            against += 1;
        } else {
            assert_eq!(narrowed, complete_residual(&record, 0, &table, ROOM));
        }
    }
    assert!(against > 100 && against < 15_000, "{against}");
}
