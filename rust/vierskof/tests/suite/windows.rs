//! Retention windows through the safe interface.

use std::ops::RangeInclusive;

use vierskof::{Ages, Date, FactTable, Refusal, Window, apply_windows};

use super::fact;

const TODAY: Date = Date::new(2026, 11, 15);

/// A table of zeros but for its bytes 1 and 255.
fn table(second: u8, last: u8) -> [u8; 256] {
    let mut table = FactTable::new().to_bytes();
    (table[1], table[255]) = (second, last);
    table
}

/// Raw stage for 90 days, hourly means for ten years.
fn stages() -> [[u32; 2]; 2] {
    [
        Window::open(fact(6), Ages::days(0..=90)).words(),
        Window::open(fact(7), Ages::years(0..=9)).words(),
    ]
}

#[test]
fn words_are_the_documents() {
    let words = [0x8000_0006, 0x0000_005A, 0xC000_0007, 0x0000_0009];
    assert_eq!(stages().as_flattened(), words);
    let closed = Window::closed(fact(1_023), Ages::days(10..=20));
    assert_eq!(closed.words(), [0x0000_03FF, 0x000A_0014]);
}

#[test]
fn facts_are_set_by_age() {
    for (reading, expected) in [
        (Date::new(2026, 8, 17), 0x25),
        (Date::new(2026, 8, 16), 0x21),
        (Date::new(2026, 11, 16), 0x20),
        (Date::UNKNOWN, 0x2A),
    ] {
        let mut out = [0xA5; 258];
        let facts = table(0x25, 0x02);
        let set = apply_windows(stages().as_flattened(), reading, TODAY, &facts, &mut out);
        assert_eq!(set, Ok(&table(expected, 0x02)[..]), "{reading}");
        assert_eq!(out[256..], [0xA5; 2]);
    }
}

/// A closed window goes before an open one, in either order, also in another unit.
#[test]
fn closed_goes_before_open() {
    let open = Window::open(fact(6), Ages::days(0..=90)).words();
    let survey = Window::closed(fact(6), Ages::days(10..=20)).words();
    let years = Window::closed(fact(6), Ages::years(0..=0)).words();
    for (list, reading, expected) in [
        ([open, survey], Date::new(2026, 11, 1), 0x00),
        ([open, survey], Date::new(2026, 10, 25), 0x04),
        ([open, years], Date::new(2026, 10, 25), 0x00),
        ([open, survey], Date::UNKNOWN, 0x08),
    ] {
        for list in [list, [list[1], list[0]]] {
            let mut out = [0xA5; 256];
            let set = apply_windows(list.as_flattened(), reading, TODAY, &table(0, 0), &mut out);
            assert_eq!(set, Ok(&table(expected, 0)[..]), "{list:X?} {reading}");
        }
    }
}

#[test]
fn refusals_come_in_their_order() {
    let refused = |windows: &[u32], reading, facts: &[u8], room: usize| {
        let mut out = vec![0xA5; room];
        let set = apply_windows(windows, reading, TODAY, facts, &mut out);
        let refusal = set.map(<[u8]>::len).expect_err("refused");
        assert!(out.iter().all(|byte| *byte == 0xA5));
        refusal
    };
    let no_date = Date::new(2026, 2, 29);
    assert_eq!(refused(&[1], no_date, &[3], 0), Refusal::Date);
    assert_eq!(refused(&[1], TODAY, &[3], 0), Refusal::Windows);
    assert_eq!(refused(&[], TODAY, &[0; 257], 256), Refusal::Windows);
    let above = Window::open(fact(6), Ages::days(RangeInclusive::new(5, 3))).words();
    assert_eq!(refused(&above, TODAY, &table(0, 0), 256), Refusal::Windows);
    assert_eq!(refused(&[], TODAY, &table(0x0C, 0), 0), Refusal::TableField);
    assert_eq!(refused(&[], TODAY, &table(0, 0), 255), Refusal::Room);
}
