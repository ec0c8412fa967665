//! Lists of windows, dates and tables: around month ends, 29 February, anniversaries, 65,535 days and the ends of the years.

use time::{Date, Duration, Month};

use super::rng::Rng;
use crate::windows::{Case, Numbers};

/// Days from the first date to the last.
const DAYS: usize = 109_572;

/// As many cases as asked for.
pub fn draw(seed: u64, count: usize) -> Vec<Case> {
    let mut rng = Rng::new(seed);
    (0..count).map(|_| case(&mut rng)).collect()
}

fn case(rng: &mut Rng) -> Case {
    let (reading, today) = dates(rng);
    let age = known(reading).zip(known(today));
    let age = age.map_or(0, |(reading, today)| (today - reading).whole_days());
    let mut case = Case {
        windows: windows(rng, age),
        reading,
        today,
        table: table(rng),
        room: if rng.percent(5) {
            rng.between(0, 255)
        } else {
            rng.between(256, 259)
        },
    };
    if rng.percent(10) {
        damage(rng, &mut case);
    }
    case
}

/// Two to five windows of one fact, their ends at the age more often than not.
pub fn draw_overlaps(seed: u64, count: usize) -> Vec<Case> {
    let mut rng = Rng::new(seed);
    let overlap = |rng: &mut Rng| {
        let apart = i64::from(rng.small(1_500));
        let reading = turning(rng);
        let today = reading + Duration::days(apart);
        let fact = rng.pick(&[0, 6, 7, 1_023]);
        let windows = rng.between(2, 5);
        Case {
            windows: (0..windows)
                .flat_map(|_| window(rng, fact, apart))
                .collect(),
            reading: plain(reading),
            today: plain(if today.year() > 2199 { reading } else { today }),
            table: table(rng),
            room: 256,
        }
    };
    (0..count).map(|_| overlap(&mut rng)).collect()
}

/// The case with its windows in some other order; a word without its pair stays the last.
pub fn shuffled(rng: &mut Rng, case: &Case) -> Case {
    let (pairs, odd) = case.windows.as_chunks::<2>();
    let pairs = rng.choose(pairs, pairs.len());
    Case {
        windows: [pairs.as_flattened(), odd].concat(),
        ..case.clone()
    }
}

/// Two dates: any two, or two that are as far apart as some rule turns on.
fn dates(rng: &mut Rng) -> (Numbers, Numbers) {
    let reading = turning(rng);
    let apart = match rng.below(6) {
        0 => rng.pick(&[-366, -365, -2, -1, 0, 1, 2]),
        1 => rng.pick(&[65_534, 65_535, 65_536, 65_537]),
        2 => i64::from(rng.small(4_000)) - 100,
        // An anniversary, or the day before or after it.
        3 | 4 => {
            let years = i64::from(rng.small(300)) - 20;
            let days = years * 1_461 / 4;
            days + i64::from(rng.small(5)) - 2
        }
        _ => return (numbers(rng, reading), anyhow(rng)),
    };
    let today = reading.checked_add(Duration::days(apart));
    let today = today.filter(|today| (1900..=2199).contains(&today.year()));
    (
        numbers(rng, reading),
        numbers(rng, today.unwrap_or(reading)),
    )
}

fn anyhow(rng: &mut Rng) -> Numbers {
    let date = turning(rng);
    numbers(rng, date)
}

/// A date: any, or one at the end of a month, of February or of the years.
fn turning(rng: &mut Rng) -> Date {
    let first = day(1900, Month::January, 1);
    let any = first + Duration::days(i64::try_from(rng.below(DAYS + 1)).expect("a few days"));
    match rng.below(6) {
        0 => rng.pick(&[first, day(2199, Month::December, 31)]),
        1 => {
            let year = rng.pick(&[
                1900, 1904, 1999, 2000, 2001, 2004, 2026, 2096, 2100, 2104, 2196,
            ]);
            let days = i64::from(rng.small(4));
            day(year, Month::February, 27) + Duration::days(days)
        }
        2 => {
            let turned = day(any.year(), any.month(), 1) - Duration::days(i64::from(rng.small(2)));
            if turned < first { first } else { turned }
        }
        _ => any,
    }
}

fn day(year: i32, month: Month, day: u8) -> Date {
    Date::from_calendar_date(year, month, day).expect("a date")
}

fn plain(date: Date) -> Numbers {
    let year = u32::try_from(date.year()).expect("a year");
    [
        year,
        u32::from(u8::from(date.month())),
        u32::from(date.day()),
    ]
}

/// The date as it is given; now and then it is unknown, or no date.
fn numbers(rng: &mut Rng, date: Date) -> Numbers {
    let mut numbers = plain(date);
    match rng.below(100) {
        0..6 => [0, 0, 0],
        6..9 => {
            numbers[rng.below(3)] = 0;
            numbers
        }
        9..14 => {
            let wrong = [
                13,
                29,
                30,
                31,
                32,
                1_899,
                2_200,
                256,
                65_536 + 5,
                rng.word(),
            ];
            numbers[rng.below(3)] = rng.pick(&wrong);
            numbers
        }
        _ => numbers,
    }
}

/// The date that numbers are, if they are one.
fn known([year, month, day]: Numbers) -> Option<Date> {
    let month = Month::try_from(u8::try_from(month).ok()?).ok()?;
    Date::from_calendar_date(i32::try_from(year).ok()?, month, u8::try_from(day).ok()?).ok()
}

/// Up to 32 windows on a few facts, their ends often at the age.
fn windows(rng: &mut Rng, age: i64) -> Vec<u32> {
    let facts = [
        rng.small(1_024),
        rng.small(1_024),
        rng.pick(&[0, 1, 2, 3, 1_020, 1_023]),
    ];
    let count = if rng.percent(50) {
        rng.below(5)
    } else {
        rng.below(33)
    };
    (0..count)
        .flat_map(|_| {
            let fact = rng.pick(&facts);
            window(rng, fact, age)
        })
        .collect()
}

fn window(rng: &mut Rng, fact: u16, age: i64) -> [u32; 2] {
    let years = rng.percent(50);
    let about = if years { age / 365 } else { age };
    let mut end = |near: bool| {
        let around = about + i64::from(rng.small(5)) - 2;
        if near {
            u16::try_from(around).unwrap_or_else(|_| rng.pick(&[0, u16::MAX]))
        } else {
            rng.pick(&[0, 1, 9, 90, 299, u16::MAX, u16::MAX - 1])
        }
    };
    let (one, other) = (end(true), end(age % 3 == 0));
    let (first, last) = (one.min(other), one.max(other));
    let lead = u32::from(rng.percent(50)) << 31 | u32::from(years) << 30 | u32::from(fact);
    [lead, u32::from(first) << 16 | u32::from(last)]
}

fn table(rng: &mut Rng) -> Vec<u8> {
    let byte = rng.pick(&[0x00, 0x55, 0xAA, 0x18, 0x92]);
    let mut table = vec![byte; 256];
    for _ in 0..rng.below(8) {
        let fields = [0, 1, 2].map(|_| u8::try_from(rng.below(3)).expect("a field"));
        table[rng.below(256)] = fields[0] << 6 | fields[1] << 4 | fields[2];
    }
    table
}

/// Something that the list or the table may not have.
fn damage(rng: &mut Rng, case: &mut Case) {
    match rng.below(6) {
        0 => {
            case.windows.pop();
        }
        1 => case.windows.resize(66, 0),
        2 => {
            let wrong = [0x0000_0400, 0x2000_0000, 1 << rng.between(10, 29)];
            let at = rng.below(case.windows.len() / 2 + 1) * 2;
            if let Some(lead) = case.windows.get_mut(at) {
                *lead |= rng.pick(&wrong);
            }
        }
        3 => {
            let at = rng.below(case.windows.len() / 2 + 1) * 2 + 1;
            if let Some(ages) = case.windows.get_mut(at) {
                *ages = ages.rotate_left(16);
            }
        }
        4 => {
            let bytes = rng.pick(&[0, 1, 255, 257, 300]);
            case.table.resize(bytes, 0);
        }
        _ => {
            let at = rng.below(case.table.len());
            case.table[at] |= rng.pick(&[0xC0, 0x30, 0x0C, 0x03]);
        }
    }
}
