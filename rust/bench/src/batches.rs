//! Batches beside direct calls of the same sheets, tables and output.
//!
//! The bars are for a register of one entry and a list of one sheet: what a batch adds to the direct calls there is the count of the nodes and the reading of
//! the requests. Each request also costs a walk of the register, and of the list of sheets up to the first of its number, a word for each sheet: so its time
//! grows with the number of entries, and with the number of sheets before its own. The desk has that too, with 64 of each.

use std::hint::black_box;

use compare::batch::nodes;
use vierskof::{BATCH_REQUESTS, Entry, Request, SheetList};

use crate::sheets::Sheet;
use crate::timing::by_turns;

/// How many requests: the most, or as many as the greatest allowance holds.
pub fn requests(sheet: &Sheet) -> usize {
    let nodes = nodes(&sheet.words, &sheet.table).expect("accepted");
    BATCH_REQUESTS.min(usize::from(u16::MAX) / nodes)
}

/// So many direct calls one after the other, each into what is left of the output; and a batch of as many requests, by a register of one entry and a list of
/// one sheet.
pub fn beside_direct_calls(sheet: &Sheet) -> [f64; 2] {
    const NUMBER: u16 = 7;
    let count = requests(sheet);
    let Sheet { words, table, .. } = sheet;
    let entry = Entry {
        group: 1,
        number: NUMBER,
        day: 0,
        withdrawn: false,
    };
    let register = entry.words();
    let mut list = vec![0; 1 + words.len()];
    let mut sheets = SheetList::new(&mut list);
    sheets.push(NUMBER, words).expect("room");
    let request = Request {
        group: 1,
        day: 10,
        facts: table,
    };
    let asked = vec![request.words(); count];
    let room = count * vierskof::room(words.len());
    let [mut one, mut other] = [vec![0; room], vec![0; room]];
    let mut places = vec![0; count];
    let mut direct = || {
        let mut left = &mut one[..];
        for _ in 0..count {
            let record = vierskof::evaluate(black_box(words), NUMBER, black_box(table), left);
            let used = black_box(record).expect("accepted").len();
            left = &mut left[used..];
        }
    };
    let mut batch = || {
        let replies = vierskof::evaluate_batch(
            black_box(&register),
            black_box(sheets.words()),
            black_box(asked.as_flattened()),
            u16::MAX,
            &mut places,
            &mut other,
        );
        black_box(replies).expect("a batch");
    };
    let times = by_turns([&mut direct, &mut batch]);
    assert!(one == other, "a batch writes what direct calls write");
    times
}

/// A desk of 64 groups, each with an entry of the register, a sheet of its own and a request: as many calls of `sheet_in_force` and of `evaluate` with the sheet
/// that it names, each into what is left of the output; and the batch.
pub fn beside_a_desk(sheet: &Sheet) -> [f64; 2] {
    const DAY: u32 = 10;
    let Sheet { words, table, .. } = sheet;
    let numbers = || (0_u8..).take(BATCH_REQUESTS);
    let entry = |group: u8| Entry {
        group,
        number: group.into(),
        day: 0,
        withdrawn: false,
    };
    let register: Vec<u32> = numbers().flat_map(|group| entry(group).words()).collect();
    let apart = vec![words.clone(); BATCH_REQUESTS];
    let mut list = vec![0; BATCH_REQUESTS * (1 + words.len())];
    let mut sheets = SheetList::new(&mut list);
    for (number, words) in (0..).zip(&apart) {
        sheets.push(number, words).expect("room");
    }
    let asked = |group| Request {
        group,
        day: DAY,
        facts: table,
    };
    let requests: Vec<u32> = numbers().flat_map(|group| asked(group).words()).collect();
    let room = BATCH_REQUESTS * vierskof::room(words.len());
    let [mut one, mut other] = [vec![0; room], vec![0; room]];
    let mut places = vec![0; BATCH_REQUESTS];
    let mut direct = || {
        let mut left = &mut one[..];
        for group in numbers() {
            let found = vierskof::in_force(black_box(&register), group, DAY);
            let number = found.expect("a register").expect("a sheet");
            let words = black_box(&apart[usize::from(number)]);
            let record = vierskof::evaluate(words, number, black_box(table), left);
            let used = black_box(record).expect("accepted").len();
            left = &mut left[used..];
        }
    };
    let mut batch = || {
        let replies = vierskof::evaluate_batch(
            black_box(&register),
            black_box(sheets.words()),
            black_box(&requests),
            u16::MAX,
            &mut places,
            &mut other,
        );
        black_box(replies).expect("a batch");
    };
    let times = by_turns([&mut direct, &mut batch]);
    assert!(one == other, "a batch writes what direct calls write");
    times
}
