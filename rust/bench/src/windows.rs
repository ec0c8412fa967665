//! Facts set by age, beside the comparison's own call, by how many windows the list has.

use std::hint::black_box;

use compare::proved::sets_as;
use compare::windows::Case;
use vierskof::{Date, apply_windows};

use crate::timing::by_turns;

/// Nanoseconds of the proved call and of the comparison's own, for a list of so many windows: on as many facts, every second one in years, each holding
/// the age.
pub fn by_count(windows: u32) -> [f64; 2] {
    let window = |at: u32| [(1 << 31) | ((at & 1) << 30) | (at * 31), 0x0000_FFFF];
    let case = Case {
        windows: (0..windows).flat_map(window).collect(),
        reading: [2016, 2, 29],
        today: [2026, 11, 15],
        table: vec![0x18; 256],
        room: 256,
    };
    assert!(sets_as(&case), "differs from the comparison's own");
    let [reading, today] = [case.reading, case.today].map(|[y, m, d]| Date::new(y, m, d));
    let mut out = [0; 256];
    let mut proved = || {
        let list = black_box(&case.windows);
        let dates = [black_box(reading), black_box(today)];
        let set = apply_windows(list, dates[0], dates[1], black_box(&case.table), &mut out);
        black_box(set).expect("accepted");
    };
    let mut own = || {
        black_box(black_box(&case).answer()).expect("accepted");
    };
    by_turns([&mut proved, &mut own])
}
