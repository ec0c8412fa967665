//! Retention windows: the comparison's own call on worked cases, and the proved call against it.

use compare::generate::windows::draw_overlaps;
use compare::refusal::Refusal;
use compare::windows::{Case, Numbers};

const TODAY: Numbers = [2026, 11, 15];
const UNKNOWN: Numbers = [0, 0, 0];
/// Fact 6 for 90 days, fact 7 for ten years.
const STAGES: [u32; 4] = [0x8000_0006, 0x0000_005A, 0xC000_0007, 0x0000_0009];

/// A table of zeros but for its bytes 1 and 255.
fn table(second: u8, last: u8) -> Vec<u8> {
    let mut table = vec![0; 256];
    (table[1], table[255]) = (second, last);
    table
}

fn case(windows: &[u32], reading: Numbers, today: Numbers, table: Vec<u8>) -> Case {
    Case {
        windows: windows.to_vec(),
        reading,
        today,
        table,
        room: 256,
    }
}

#[test]
fn worked_cases() {
    let set = |windows: &[u32], reading, today, second, last| {
        let answer = case(windows, reading, today, table(second, last)).answer();
        let bytes = answer.expect("accepted");
        (bytes[1], bytes[255])
    };
    for (reading, expected) in [
        ([2026, 8, 17], 0x25),
        ([2026, 8, 16], 0x21),
        ([2026, 11, 16], 0x20),
        (UNKNOWN, 0x2A),
    ] {
        let found = set(&STAGES, reading, TODAY, 0x25, 0x02);
        assert_eq!(found, (expected, 0x02), "{reading:?}");
    }
    let (from, to) = ([1900, 1, 1], [2199, 12, 31]);
    assert_eq!(set(&[0x8000_03FF, 0x0000_FFFF], from, to, 0, 0x02).1, 0);
    let leap = [2000, 2, 29];
    for (today, years) in [
        ([2001, 2, 28], 0),
        ([2001, 3, 1], 1),
        ([2004, 2, 28], 3),
        ([2004, 2, 29], 4),
    ] {
        let only = |years: u32| [0xC000_0006, years << 16 | years];
        assert_eq!(set(&only(years), leap, today, 0, 0).0, 0x04, "{today:?}");
        assert_eq!(set(&only(years + 1), leap, today, 0, 0).0, 0, "{today:?}");
    }
}

/// The rows of request 12: in every order of the list, and by the former rule in the order that is given.
#[test]
fn closed_before_open() {
    const FORTNIGHT: Numbers = [2026, 11, 1];
    const PRESENT: u8 = 0x04;
    const ABSENT: u8 = 0x00;
    const WIDE: [u32; 2] = [0x8000_0006, 0x0000_005A];
    const SURVEY: [u32; 2] = [0x0000_0006, 0x000A_0014];
    for (list, reading, former, now) in [
        (&[WIDE, SURVEY][..], FORTNIGHT, PRESENT, ABSENT),
        (&[SURVEY, WIDE], FORTNIGHT, ABSENT, ABSENT),
        (
            &[WIDE, [0x0000_0006, 0x005B_0064]],
            FORTNIGHT,
            PRESENT,
            PRESENT,
        ),
        (
            &[[0xC000_0006, 0x0000_0009], [0x0000_0006, 0x016D_02DA]],
            [2025, 6, 1],
            PRESENT,
            ABSENT,
        ),
        (
            &[WIDE, [0x8000_0006, 0x0005_001E], [0x0000_0006, 0x000E_000E]],
            FORTNIGHT,
            PRESENT,
            ABSENT,
        ),
    ] {
        let case = case(list.as_flattened(), reading, TODAY, table(0, 0));
        assert_eq!(case.former(), Ok(table(former, 0)), "{list:X?}");
        assert_eq!(case.overruled().contains(&6), former != now, "{list:X?}");
        for case in orders(&case) {
            assert_eq!(case.answer(), Ok(table(now, 0)), "{list:X?}");
        }
    }
}

/// The case with its windows in every order.
fn orders(case: &Case) -> Vec<Case> {
    let pairs = case.windows.as_chunks::<2>().0;
    let mut lists: Vec<Vec<[u32; 2]>> = vec![vec![]];
    for pair in pairs {
        let longer = |list: &Vec<[u32; 2]>| {
            let list = list.clone();
            (0..=list.len()).map(move |at| {
                let mut longer = list.clone();
                longer.insert(at, *pair);
                longer
            })
        };
        lists = lists.iter().flat_map(longer).collect();
    }
    let with = |list: Vec<[u32; 2]>| Case {
        windows: list.into_flattened(),
        ..case.clone()
    };
    lists.into_iter().map(with).collect()
}

/// Two to five windows of one fact: every order gives one answer, and the former rule another exactly where it is overruled.
#[test]
fn overlaps_in_every_order() {
    let cases = draw_overlaps(12, 1_000);
    let (mut overruled, mut depends) = (0, 0);
    for case in &cases {
        let orders = orders(case);
        let answer = case.answer();
        assert!(answer.is_ok(), "{case:X?}");
        for other in &orders {
            assert_eq!(other.answer(), answer, "{other:X?}");
            assert!(other.parts_where_overruled(), "{other:X?}");
        }
        overruled += usize::from(!case.overruled().is_empty());
        depends += usize::from(orders.iter().any(|other| other.former() != case.former()));
    }
    assert!(overruled > 100, "{overruled}");
    assert!(depends > 200, "{depends}");
}

#[test]
fn refusals_in_their_order() {
    let refused = |windows: &[u32], reading, today, table: Vec<u8>| {
        let answer = case(windows, reading, today, table).answer();
        answer.map(|_| ()).expect_err("refused")
    };
    for no_date in [
        [2026, 2, 29],
        [1900, 2, 29],
        [2000, 0, 0],
        [2026, 13, 1],
        [2200, 1, 1],
        [1899, 12, 31],
    ] {
        assert_eq!(refused(&[1], no_date, UNKNOWN, vec![]), Refusal::Date);
        assert_eq!(refused(&[], TODAY, no_date, table(0, 0)), Refusal::Date);
    }
    for list in [&[0][..], &[0; 66], &[0x400, 0], &[0, 0x0001_0000]] {
        let found = refused(list, UNKNOWN, UNKNOWN, table(0xC0, 0));
        assert_eq!(found, Refusal::Windows);
    }
    for bytes in [0, 255, 257] {
        assert_eq!(refused(&[], TODAY, TODAY, vec![3; bytes]), Refusal::Windows);
    }
    assert_eq!(
        refused(&STAGES, TODAY, TODAY, table(0x0C, 0)),
        Refusal::TableField
    );
    let mut short = case(&STAGES, TODAY, TODAY, table(0, 0));
    short.room = 255;
    assert_eq!(short.answer(), Err(Refusal::Room));
}

/// Each drawn list in two orders.
#[cfg(feature = "proved")]
#[test]
fn the_proved_call_agrees() {
    use compare::generate::rng::Rng;
    use compare::generate::windows::{draw, shuffled};
    use compare::proved::sets_as;

    let cases = draw(20_261_115, 40_000);
    let mut rng = Rng::new(12);
    let (mut accepted, mut overruled) = (0, 0);
    for case in &cases {
        let other = shuffled(&mut rng, case);
        assert!(sets_as(case), "{case:X?}");
        assert!(sets_as(&other), "{other:X?}");
        let answer = case.answer();
        assert_eq!(answer, other.answer(), "{case:X?}");
        assert!(case.parts_where_overruled(), "{case:X?}");
        accepted += usize::from(answer.is_ok());
        overruled += usize::from(answer.is_ok() && !case.overruled().is_empty());
    }
    assert!((20_000..36_000).contains(&accepted), "{accepted}");
    assert!(overruled > 4_000, "{overruled}");
}

#[cfg(feature = "proved")]
#[test]
fn the_proved_call_agrees_on_every_order() {
    use compare::proved::sets_as;

    for case in draw_overlaps(26, 2_000) {
        for other in orders(&case) {
            assert!(sets_as(&other), "{other:X?}");
        }
    }
}
