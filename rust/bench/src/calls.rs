//! The proved calls and the original's functions on one sheet. Narrowing, and reduction in sheet order, which the original lacks, stand beside the comparison's
//! own.

use std::hint::black_box;

use compare::case::{Call, Case};
use compare::narrow::{Order, narrow, reduce};
use compare::proved::{Writer, agrees, finds, pair};
use compare::register::Question;
use compare::words::convert::{
    known_facts, partial_facts, to_policy, to_residual, to_residual_policy,
};
use compare::words::table::Table;
use compare::words::tree::Record;
use compare::words::{RECORD_WORDS, read};
use vierskof::Entry;

use crate::sheets::Sheet;
use crate::timing::{Timed, beside, by_turns};

/// The lead of a Pending record without consulted entries.
const PENDING: u32 = 0xF000_0000;

/// Times one call on a sheet.
pub type Timing = fn(&Sheet) -> Timed;

/// Each call, by its name.
pub const CALLS: [(&str, Timing); 8] = [
    ("evaluate", evaluate),
    ("partial_evaluate", partial_evaluate),
    ("narrow_residual", narrow_residual),
    ("complete_residual", complete_residual),
    ("required_facts", required_facts),
    ("required_residual_facts", required_residual_facts),
    ("partial_evaluate_in_order", partial_evaluate_in_order),
    ("narrow_residual_in_order", narrow_residual_in_order),
];

fn evaluate(sheet: &Sheet) -> Timed {
    let Sheet { words, table, .. } = sheet;
    let policy = to_policy(&read::sheet(words).expect("a sheet"));
    let facts = known_facts(&Table::known(table).expect("a known table"));
    writes(Call::Evaluate, vierskof::evaluate, words, table, || {
        black_box(gatekeep::evaluate(black_box(&policy), black_box(&facts)));
    })
}

/// With the sheet's table, but that every second fact that it has Absent is Unknown.
fn partial_evaluate(sheet: &Sheet) -> Timed {
    let words = &sheet.words;
    let table = &sheet.partial();
    let policy = to_policy(&read::sheet(words).expect("a sheet"));
    let facts = partial_facts(&Table::partial(table).expect("a partial table"));
    let call = vierskof::partial_evaluate;
    writes(Call::PartialEvaluate, call, words, table, || {
        black_box(gatekeep::partial_evaluate(
            black_box(&policy),
            black_box(&facts),
        ));
    })
}

/// With the table of `partial_evaluate`.
fn partial_evaluate_in_order(sheet: &Sheet) -> Timed {
    let words = &sheet.words;
    let table = &sheet.partial();
    let tree = read::sheet(words).expect("a sheet").into();
    let facts = Table::partial(table).expect("a partial table");
    let call = vierskof::partial_evaluate_in_order;
    writes(Call::PartialEvaluateInOrder, call, words, table, || {
        let (tree, facts) = (black_box(&tree), black_box(&facts));
        black_box(reduce(&[], tree, facts, Order::SheetOrder));
    })
}

/// Of the record whose tree is the sheet, with the table of `partial_evaluate`.
fn narrow_residual(sheet: &Sheet) -> Timed {
    let call = vierskof::narrow_residual;
    narrows(Call::NarrowResidual, call, sheet, Order::PermitsFirst)
}

/// Of the same record, with the same table.
fn narrow_residual_in_order(sheet: &Sheet) -> Timed {
    let call = vierskof::narrow_residual_in_order;
    narrows(Call::NarrowResidualInOrder, call, sheet, Order::SheetOrder)
}

fn narrows(call: Call, proved: Writer, sheet: &Sheet, order: Order) -> Timed {
    let words = &record(sheet);
    let table = &sheet.partial();
    let given = read::record(words).expect("a record");
    let facts = Table::partial(table).expect("a partial table");
    writes(call, proved, words, table, || {
        black_box(narrow(black_box(&given), black_box(&facts), order));
    })
}

/// The record whose tree is the sheet.
fn record(sheet: &Sheet) -> Vec<u32> {
    [&[PENDING], sheet.words.as_slice()].concat()
}

/// Of the record whose tree is the sheet.
fn complete_residual(sheet: &Sheet) -> Timed {
    let words = &record(sheet);
    let table = &sheet.table;
    let residual = to_residual(&read::record(words).expect("a record"));
    let facts = known_facts(&Table::known(table).expect("a known table"));
    let call = vierskof::complete_residual;
    writes(Call::CompleteResidual, call, words, table, || {
        black_box(gatekeep::complete_residual(
            black_box(&residual),
            black_box(&facts),
        ));
    })
}

/// A call that writes a record.
fn writes(
    call: Call,
    proved: Writer,
    words: &[u32],
    table: &[u8],
    original: impl FnMut(),
) -> Timed {
    let case = same_answers(call, words, table);
    beside(writing(proved, words, table), original, || {
        from_words(&case);
    })
}

/// A proved call that writes a record.
fn writing<'a>(proved: Writer, words: &'a [u32], table: &'a [u8]) -> impl FnMut() + 'a {
    let mut out = vec![0; RECORD_WORDS];
    move || {
        let written = proved(black_box(words), 0, black_box(table), &mut out);
        black_box(written).expect("accepted");
    }
}

/// The proved reduction in each of the two orders, with the table of `partial_evaluate`.
pub fn reduced_in(sheet: &Sheet) -> [f64; 2] {
    let table = sheet.partial();
    let calls = ORDERS.map(|order| pair(order).0);
    let [mut first, mut second] = calls.map(|call| writing(call, &sheet.words, &table));
    by_turns([&mut first, &mut second])
}

/// The proved narrowing, of the record whose tree is the sheet, in each of the two orders.
pub fn narrowed_in(sheet: &Sheet) -> [f64; 2] {
    let (words, table) = (record(sheet), sheet.partial());
    let calls = ORDERS.map(|order| pair(order).1);
    let [mut first, mut second] = calls.map(|call| writing(call, &words, &table));
    by_turns([&mut first, &mut second])
}

const ORDERS: [Order; 2] = [Order::PermitsFirst, Order::SheetOrder];

/// The proved reduction with each of two tables.
pub fn reduced_by(words: &[u32], tables: [&[u8]; 2]) -> [f64; 2] {
    let call = vierskof::partial_evaluate;
    by_tables(Call::PartialEvaluate, call, words, tables)
}

/// The proved narrowing, of the record whose tree the words are, with each of two tables.
pub fn narrowed_by(words: &[u32], tables: [&[u8]; 2]) -> [f64; 2] {
    let words = [&[PENDING], words].concat();
    let call = vierskof::narrow_residual;
    by_tables(Call::NarrowResidual, call, &words, tables)
}

fn by_tables(call: Call, proved: Writer, words: &[u32], tables: [&[u8]; 2]) -> [f64; 2] {
    for table in tables {
        same_answers(call, words, table);
    }
    let [mut one, mut other] = tables.map(|table| writing(proved, words, table));
    by_turns([&mut one, &mut other])
}

/// The proved call on a register of so many entries of four groups, and the same by sorting.
pub fn in_force(entries: u16) -> [f64; 2] {
    let entry = |number: u16| Entry {
        group: (number % 4) as u8,
        number,
        day: u32::from(number / 8),
        withdrawn: number % 16 == 15,
    };
    let words: Vec<u32> = (0..entries).flat_map(|at| entry(at).words()).collect();
    let question = Question {
        words,
        group: 0,
        day: u32::MAX,
    };
    assert!(finds(&question), "the register differs from sorting");
    let mut proved = || {
        let found = vierskof::in_force(black_box(&question.words), 0, black_box(question.day));
        black_box(found).expect("accepted");
    };
    let mut sorting = || {
        black_box(black_box(&question).answer()).expect("accepted");
    };
    by_turns([&mut proved, &mut sorting])
}

fn required_facts(sheet: &Sheet) -> Timed {
    let words = &sheet.words;
    let case = same_answers(Call::RequiredFacts, words, &[]);
    let policy = to_policy(&read::sheet(words).expect("a sheet"));
    beside(
        || {
            let set = vierskof::required_facts(black_box(words));
            black_box(set).expect("accepted");
        },
        || {
            black_box(gatekeep::required_facts(black_box(&policy)));
        },
        || from_words(&case),
    )
}

/// Of the record whose tree is the sheet.
fn required_residual_facts(sheet: &Sheet) -> Timed {
    let words = record(sheet);
    let case = same_answers(Call::RequiredResidualFacts, &words, &[]);
    let Ok(Record::Pending { residual, .. }) = read::record(&words) else {
        unreachable!("a record with a tree");
    };
    let policy = to_residual_policy(&residual);
    beside(
        || {
            let set = vierskof::required_residual_facts(black_box(&words));
            black_box(set).expect("accepted");
        },
        || {
            black_box(gatekeep::required_residual_facts(black_box(&policy)));
        },
        || from_words(&case),
    )
}

/// The original, with the words and the table read into its types and its answer written as words.
fn from_words(case: &Case) {
    black_box(black_box(case).answer()).expect("accepted");
}

/// What is timed is the same work: both sides give the same answer.
fn same_answers(call: Call, words: &[u32], table: &[u8]) -> Case {
    let case = Case {
        call,
        table: table.to_vec(),
        words: words.to_vec(),
        number: 0,
        room: RECORD_WORDS,
    };
    assert!(agrees(&case), "{} differs from the original", call.name());
    case
}
