//! Retention windows, from document 02's requests 1 and 12 alone: the original has no such call. The calendar is the crate `time`'s.

use std::collections::BTreeSet;

use gatekeep::Presence;
use time::{Date, Month};

use crate::refusal::Refusal;
use crate::words::TABLE_BYTES;
use crate::words::table::{Table, fields, pack};

/// Year, month and day as they are given.
pub type Numbers = [u32; 3];

/// What the call is given.
#[derive(Clone, Debug, PartialEq, Eq)]
pub struct Case {
    /// The list's words.
    pub windows: Vec<u32>,
    /// The reading's date.
    pub reading: Numbers,
    /// Today's.
    pub today: Numbers,
    /// The table.
    pub table: Vec<u8>,
    /// Bytes of the output.
    pub room: usize,
}

struct Window {
    opens: bool,
    years: bool,
    fact: usize,
    first: i64,
    last: i64,
}

/// What a fact becomes of the verdicts of its windows that hold the age, in the list's order.
type Rule = fn(&[bool]) -> Presence;

impl Case {
    /// The 256 bytes that are written, or why there are none.
    pub fn answer(&self) -> Result<Vec<u8>, Refusal> {
        self.by(closed_first)
    }

    /// The same by the rule of request 1 that request 12 replaced.
    pub fn former(&self) -> Result<Vec<u8>, Refusal> {
        self.by(first_listed)
    }

    /// Whether the two rules part where request 12 says so, from Present to Absent, and nowhere else, in a refusal neither.
    pub fn parts_where_overruled(&self) -> bool {
        match (self.former(), self.answer()) {
            (Ok(before), Ok(after)) => {
                let overruled = self.overruled();
                let mut both = fields(&before).zip(fields(&after)).enumerate();
                both.all(|(fact, (was, is))| {
                    if overruled.contains(&fact) {
                        [was, is] == [Presence::Present, Presence::Absent].map(field_of)
                    } else {
                        was == is
                    }
                })
            }
            (before, after) => before == after,
        }
    }

    /// The facts of which the first window that holds the age is open and a later one that holds it closed.
    pub fn overruled(&self) -> BTreeSet<usize> {
        let (Ok(Some(ages)), Ok(windows)) = (self.ages(), self.list()) else {
            return BTreeSet::new();
        };
        let overruled = |fact: &usize| {
            let verdicts = verdicts(&windows, *fact, &ages);
            verdicts.starts_with(&[true]) && verdicts.contains(&false)
        };
        let facts = windows.iter().map(|window| window.fact);
        facts.filter(overruled).collect()
    }

    fn by(&self, rule: Rule) -> Result<Vec<u8>, Refusal> {
        let ages = self.ages()?;
        let windows = self.list()?;
        if self.table.len() != TABLE_BYTES {
            return Err(Refusal::Windows);
        }
        Table::partial(&self.table)?;
        if self.room < TABLE_BYTES {
            return Err(Refusal::Room);
        }
        let set = |(fact, field): (usize, u8)| match &ages {
            _ if windows.iter().all(|window| window.fact != fact) => field,
            None => field_of(Presence::Unknown),
            Some(ages) => field_of(rule(&verdicts(&windows, fact, ages))),
        };
        let set: Vec<u8> = fields(&self.table).enumerate().map(set).collect();
        Ok(pack(&set))
    }

    /// Both ages, if both dates are known.
    fn ages(&self) -> Result<Option<Ages>, Refusal> {
        let (reading, today) = (date(self.reading)?, date(self.today)?);
        let dates = reading.zip(today);
        Ok(dates.map(|(reading, today)| Ages::between(reading, today)))
    }

    fn list(&self) -> Result<Vec<Window>, Refusal> {
        let (pairs, []) = self.windows.as_chunks() else {
            return Err(Refusal::Windows);
        };
        if pairs.len() > 32 {
            return Err(Refusal::Windows);
        }
        let windows: Option<Vec<Window>> = pairs.iter().copied().map(Window::read).collect();
        windows.ok_or(Refusal::Windows)
    }
}

impl Window {
    fn read([lead, ages]: [u32; 2]) -> Option<Self> {
        let window = Self {
            opens: lead >> 31 == 1,
            years: lead >> 30 & 1 == 1,
            fact: (lead & 0x3FF) as usize,
            first: i64::from(ages >> 16),
            last: i64::from(ages & 0xFFFF),
        };
        (lead & 0x3FFF_FC00 == 0 && window.first <= window.last).then_some(window)
    }

    fn holds(&self, ages: &Ages) -> bool {
        let age = if self.years { ages.years } else { ages.days };
        age >= 0 && (self.first..=self.last).contains(&age)
    }
}

/// Which windows of a fact that hold the age are open, in the list's order.
fn verdicts(windows: &[Window], fact: usize, ages: &Ages) -> Vec<bool> {
    let holding = |window: &&Window| window.fact == fact && window.holds(ages);
    let held = windows.iter().filter(holding);
    held.map(|window| window.opens).collect()
}

fn closed_first(verdicts: &[bool]) -> Presence {
    if verdicts.contains(&true) && !verdicts.contains(&false) {
        Presence::Present
    } else {
        Presence::Absent
    }
}

fn first_listed(verdicts: &[bool]) -> Presence {
    match verdicts.first() {
        Some(true) => Presence::Present,
        _ => Presence::Absent,
    }
}

/// Both ages of a reading.
struct Ages {
    days: i64,
    years: i64,
}

impl Ages {
    fn between(reading: Date, today: Date) -> Self {
        Self {
            days: i64::from(today.to_julian_day() - reading.to_julian_day()),
            years: completed_years(reading, today),
        }
    }
}

const fn field_of(presence: Presence) -> u8 {
    match presence {
        Presence::Absent => 0,
        Presence::Present => 1,
        Presence::Unknown => 2,
    }
}

/// The date, if it is known.
fn date(numbers: Numbers) -> Result<Option<Date>, Refusal> {
    let [year, month, day] = numbers;
    if numbers == [0, 0, 0] {
        return Ok(None);
    }
    let read = || {
        let month = Month::try_from(u8::try_from(month).ok()?).ok()?;
        let day = u8::try_from(day).ok()?;
        Date::from_calendar_date(i32::try_from(year).ok()?, month, day).ok()
    };
    read()
        .filter(|date| (1900..=2199).contains(&date.year()))
        .map(Some)
        .ok_or(Refusal::Date)
}

/// The anniversary a number of years on: 1 March where the year has no 29 February.
fn anniversary(date: Date, years: i64) -> Date {
    let year = date.year() + i32::try_from(years).expect("a few hundred years");
    Date::from_calendar_date(year, date.month(), date.day())
        .or_else(|_| Date::from_calendar_date(year, Month::March, 1))
        .expect("a year that has a March")
}

/// The greatest number of years whose anniversary isn't after today, found by going through them.
fn completed_years(date: Date, today: Date) -> i64 {
    (-300..=300)
        .rev()
        .find(|years| anniversary(date, *years) <= today)
        .expect("an anniversary three hundred years ago")
}
