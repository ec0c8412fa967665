//! Calls by outcome tables, beside those by sets of products.

use std::hint::black_box;

use compare::case::{Call, Case};
use compare::generate::levels::four_products;
use compare::levels::ByLevels;
use compare::proved::Writer;
use compare::proved::levels::{Safe, agrees, levels};
use compare::words::RECORD_WORDS;
use vierskof::Levels;

use crate::timing::by_turns;

/// Every second fact Present, and of a reduction one of four Unknown.
const KNOWN: [u8; 256] = [0x44; 256];
const PARTIAL: [u8; 256] = [0x64; 256];

/// An evaluation and a reduction, by sets of products and by the sixteen levels that four products are: the same work with the same answer.
pub fn beside_sets(words: &[u32]) -> [(&'static str, [f64; 2]); 2] {
    let table = four_products();
    let sixteen = levels(&table).expect("a lattice");
    let timed = |call: Call, sets: Writer, by: Safe, facts: &[u8]| {
        let case = Case {
            call,
            table: facts.to_vec(),
            words: words.to_vec(),
            number: 0,
            room: RECORD_WORDS,
        };
        let levels = table.clone();
        let by_levels = ByLevels { levels, case };
        assert!(agrees(&by_levels), "{}", by_levels.line());
        let same = by_levels.answer() == by_levels.case.answer();
        assert!(same, "levels differ from sets");
        let [mut one, mut other] = [vec![0; RECORD_WORDS], vec![0; RECORD_WORDS]];
        let mut by_sets = || {
            let record = sets(black_box(words), 0, black_box(facts), &mut one);
            black_box(record).expect("accepted");
        };
        let mut by_levels = || {
            let levels = black_box(&sixteen);
            let record = by(levels, black_box(words), 0, black_box(facts), &mut other);
            black_box(record).expect("accepted");
        };
        by_turns([&mut by_sets, &mut by_levels])
    };
    [
        (
            "evaluate",
            timed(
                Call::Evaluate,
                vierskof::evaluate,
                vierskof::evaluate_by_levels,
                &KNOWN,
            ),
        ),
        (
            "partial_evaluate",
            timed(
                Call::PartialEvaluate,
                vierskof::partial_evaluate,
                vierskof::partial_evaluate_by_levels,
                &PARTIAL,
            ),
        ),
    ]
}

/// What the judging of a chain of so many levels takes: a Permit evaluated by it, less the same by sets of products.
pub fn judging(count: usize) -> f64 {
    let levels = Levels::chain(count).expect("1 to 16 levels");
    let permit = [0x6000_0000];
    let [mut one, mut other] = [[0; 3]; 2];
    let mut sets = || {
        let record = vierskof::evaluate(black_box(&permit), 0, &[], &mut one);
        black_box(record).expect("accepted");
    };
    let mut by = || {
        let levels = black_box(&levels);
        let record = vierskof::evaluate_by_levels(levels, black_box(&permit), 0, &[], &mut other);
        black_box(record).expect("accepted");
    };
    let [sets, by] = by_turns([&mut sets, &mut by]);
    by - sets
}
