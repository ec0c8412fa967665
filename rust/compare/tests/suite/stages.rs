//! Facts in stages: no road leads elsewhere than one sitting.

use compare::generate::chains::{Chain, room};
use compare::generate::exhaustive::sheets;
use compare::generate::grow::{Alphabet, Grower};
use compare::generate::numbers::SHEETS;
use compare::generate::rng::Rng;
use compare::generate::tables;
use compare::narrow::Order;
use compare::products::Products;
use compare::reference::{
    complete_residual, evaluate, narrow_residual, partial_evaluate, required_residual_facts,
};
use compare::words::table::{Table, pack};
use compare::words::tree::Record;
use compare::words::{read, write};
use gatekeep::Presence;

/// The effect and products of a Resolved record.
pub fn decided(record: &[u32]) -> Option<Products> {
    match read::record(record).expect("a record") {
        Record::Resolved { decided, .. } => decided.products(),
        Record::Pending { .. } => panic!("{record:X?} is pending"),
    }
}

/// No condition of the residual names a fact that one of the tables has settled.
pub fn settled(record: &[u32], tables: &[&[u8]]) -> bool {
    let named = required_residual_facts(record).expect("a record");
    let unknown = |fact| {
        tables.iter().all(|table| {
            let table = Table::partial(table).expect("an accepted table");
            table.presence(fact) == Presence::Unknown
        })
    };
    named.facts().all(unknown)
}

/// Runs a chain with the room that suffices, and checks all that demand 3 promises of it.
fn check(chain: &Chain) {
    let (room, number) = (chain.room(), u32::from(chain.number));
    let sitting = evaluate(&chain.sheet, number, &chain.known, room).expect("room for it");
    let unknown = tables::unknown(&chain.facts);
    let mut accepted: Vec<&[u8]> = vec![&chain.reduction];
    for (stage, record) in chain.records(Order::PermitsFirst).iter().enumerate() {
        if stage > 0 {
            accepted.push(&chain.narrowings[stage - 1]);
        }
        assert!(settled(record, &accepted), "{chain:X?}");
        assert_eq!(read::sheet_number(record), number, "{chain:X?}");
        let same = narrow_residual(record, number, &unknown, room);
        assert_eq!(same.as_ref(), Ok(record), "{chain:X?}");
        let completed = complete_residual(record, number, &chain.known, room).expect("room for it");
        assert_eq!(decided(&completed), decided(&sitting), "{chain:X?}");
        let narrowed = narrow_residual(record, number, &chain.known, room).expect("room for it");
        assert_eq!(decided(&narrowed), decided(&sitting), "{chain:X?}");
    }
}

#[test]
fn random_chains() {
    let mut rng = Rng::new(1);
    for _ in 0..10_000 {
        let alphabet = Alphabet::draw(&mut rng);
        let words = rng.between(1, 100);
        check(&Chain::draw(&mut rng, &alphabet, words).under(rng.pick(&SHEETS)));
    }
}

#[test]
fn long_chains() {
    let mut rng = Rng::new(2);
    for _ in 0..12 {
        let alphabet = Alphabet::wide(&mut rng);
        let words = rng.between(500, 4_096);
        let tree = Grower::of_sheets(&mut rng, &alphabet).exactly(words);
        let sheet = write::tree(&tree);
        check(&Chain::over(&mut rng, sheet));
    }
}

/// All sheets of at most this many words, known tables of two facts, and two tables that agree with each.
pub fn small_chains(words: usize, mut check: impl FnMut(&Chain)) {
    for sheet in sheets(words) {
        for known in 0..4 {
            let (first, second) = (known / 2, known % 2);
            for hidden in 0..16 {
                let reading = |bit: u8, reading| if hidden >> bit & 1 == 1 { 2 } else { reading };
                check(&Chain {
                    sheet: sheet.clone(),
                    facts: vec![0, 1],
                    known: pack(&[first, second]),
                    reduction: pack(&[reading(0, first), reading(1, second)]),
                    narrowings: vec![pack(&[reading(2, first), reading(3, second)])],
                    number: 7,
                });
            }
        }
    }
}

#[test]
fn all_small_chains() {
    small_chains(4, check);
}

/// A refused narrowing hands on what it was given, so it changes nothing of the chain.
#[test]
fn chains_with_refused_narrowings() {
    let mut rng = Rng::new(3);
    let mut refusals = 0;
    for _ in 0..5_000 {
        let alphabet = Alphabet::draw(&mut rng);
        let words = rng.between(1, 60);
        let chain = Chain::draw(&mut rng, &alphabet, words).under(rng.pick(&SHEETS));
        let (roomy, number) = (chain.room(), u32::from(chain.number));
        let sitting = evaluate(&chain.sheet, number, &chain.known, roomy).expect("room for it");
        let reduced = partial_evaluate(&chain.sheet, number, &chain.reduction, roomy);
        let mut record = reduced.expect("room for the reduction");
        let mut accepted: Vec<Vec<u8>> = vec![chain.reduction.clone()];
        for table in &chain.narrowings {
            let mut table = table.clone();
            if rng.percent(20) {
                table.resize(table.len() + 1, 0xFF);
            }
            let room = rng.below(room(chain.sheet.len()) / 20);
            // One of another sheet is refused as well.
            let expected = number ^ u32::from(rng.percent(10));
            match narrow_residual(&record, expected, &table, room) {
                Ok(narrowed) => {
                    record = narrowed;
                    accepted.push(table);
                }
                Err(_) => refusals += 1,
            }
        }
        let accepted: Vec<&[u8]> = accepted.iter().map(Vec::as_slice).collect();
        assert!(settled(&record, &accepted), "{chain:X?}");
        let completed = complete_residual(&record, number, &chain.known, roomy);
        let completed = completed.expect("room for the completion");
        assert_eq!(decided(&completed), decided(&sitting), "{chain:X?}");
    }
    assert!(refusals > 1_000);
}
