//! Reading and writing words, and the original's types, there and back.

use compare::generate::damage::damage;
use compare::generate::grow::{Alphabet, Grower};
use compare::generate::numbers::SHEETS;
use compare::generate::rng::Rng;
use compare::words::tree::Record;
use compare::words::{convert, read, write};

/// A record's words under its own number.
fn written(words: &[u32], record: &Record) -> Vec<u32> {
    let number = u16::try_from(read::sheet_number(words)).expect("sixteen bits");
    write::numbered(number, write::record(record))
}

fn record(rng: &mut Rng) -> Record {
    let alphabet = Alphabet::draw(rng);
    let words = rng.between(1, 80);
    Grower::of_records(rng, &alphabet).record(words)
}

fn sheet(rng: &mut Rng) -> Vec<u32> {
    let alphabet = Alphabet::draw(rng);
    let words = rng.between(1, 80);
    write::tree(&Grower::of_sheets(rng, &alphabet).tree(words, 1))
}

#[test]
fn written_records_read_back() {
    let mut rng = Rng::new(1);
    for _ in 0..20_000 {
        let (record, number) = (record(&mut rng), rng.pick(&SHEETS));
        let words = write::numbered(number, write::record(&record));
        assert_eq!(read::sheet_number(&words), u32::from(number));
        assert_eq!(read::record(&words), Ok(record));
    }
}

#[test]
fn read_words_are_written_back() {
    let mut rng = Rng::new(2);
    let [mut accepted, mut numbered] = [0; 2];
    for _ in 0..100_000 {
        let mut words = write::record(&record(&mut rng));
        damage(&mut rng, &mut words);
        if let Ok(record) = read::record(&words) {
            assert_eq!(written(&words, &record), words);
            numbered += usize::from(read::sheet_number(&words) > 0);
            accepted += 1;
        }
        let mut words = sheet(&mut rng);
        damage(&mut rng, &mut words);
        if let Ok(sheet) = read::sheet(&words) {
            assert_eq!(write::tree(&sheet), words);
            accepted += 1;
        }
    }
    assert!(accepted > 10_000, "damage that changes numbers only");
    assert!(numbered > 500, "{numbered} with a damaged lead");
}

#[test]
fn any_words_are_read_or_refused() {
    let mut rng = Rng::new(3);
    for _ in 0..200_000 {
        let length = rng.between(0, 8);
        let words: Vec<u32> = (0..length).map(|_| rng.word() & 0xF313_8F03).collect();
        if let Ok(sheet) = read::sheet(&words) {
            assert_eq!(write::tree(&sheet), words);
        }
        if let Ok(record) = read::record(&words) {
            assert_eq!(written(&words, &record), words);
        }
    }
}

#[test]
fn sheets_pass_through_the_originals_types() {
    let mut rng = Rng::new(4);
    for _ in 0..10_000 {
        let sheet = read::sheet(&sheet(&mut rng)).expect("a sheet");
        assert_eq!(convert::from_policy(&convert::to_policy(&sheet)), sheet);
    }
}

#[test]
fn records_pass_through_the_originals_types() {
    let mut rng = Rng::new(5);
    for _ in 0..10_000 {
        let record = record(&mut rng);
        let residual = convert::to_residual(&record);
        assert_eq!(convert::from_residual(&residual), record);
    }
}
