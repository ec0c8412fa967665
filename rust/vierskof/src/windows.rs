//! Retention windows: dates, and the words that a list of windows is made of.

use core::fmt;
use core::ops::RangeInclusive;

use crate::Fact;

/// A Gregorian date of the years 1900 to 2199, or [`UNKNOWN`](Self::UNKNOWN).
///
/// Any numbers may stand in it: a date that doesn't exist is for the call to refuse, with
/// [`Refusal::Date`](crate::Refusal::Date).
///
/// ```
/// use vierskof::Date;
///
/// assert_eq!(Date::new(2026, 8, 17).to_string(), "2026-08-17");
/// assert_eq!(Date::UNKNOWN.to_string(), "unknown");
/// ```
#[derive(Clone, Copy, Debug, PartialEq, Eq, PartialOrd, Ord, Hash)]
pub struct Date {
    /// The year.
    pub year: u32,
    /// The month, January 1.
    pub month: u32,
    /// The day of the month, from 1 on.
    pub day: u32,
}

impl Date {
    /// A date that nobody knows: year, month and day are 0.
    pub const UNKNOWN: Self = Self::new(0, 0, 0);

    /// The date with these numbers.
    #[must_use]
    pub const fn new(year: u32, month: u32, day: u32) -> Self {
        Self { year, month, day }
    }
}

impl fmt::Display for Date {
    fn fmt(&self, f: &mut fmt::Formatter<'_>) -> fmt::Result {
        let Self { year, month, day } = self;
        if *self == Self::UNKNOWN {
            return f.write_str("unknown");
        }
        write!(f, "{year:04}-{month:02}-{day:02}")
    }
}

/// Ages from a first one to a last one, both included, in days or in completed years.
///
/// Ten years are the completed years 0 to 9. A first age above the last is for the call to refuse, with
/// [`Refusal::Windows`](crate::Refusal::Windows).
#[derive(Clone, Debug, PartialEq, Eq, Hash)]
pub struct Ages {
    years: bool,
    first: u16,
    last: u16,
}

impl Ages {
    /// Ages in days.
    #[must_use]
    pub const fn days(ages: RangeInclusive<u16>) -> Self {
        Self::new(false, &ages)
    }

    /// Ages in completed years.
    #[must_use]
    pub const fn years(ages: RangeInclusive<u16>) -> Self {
        Self::new(true, &ages)
    }

    const fn new(years: bool, ages: &RangeInclusive<u16>) -> Self {
        Self {
            years,
            first: *ages.start(),
            last: *ages.end(),
        }
    }
}

/// A window: what a fact is while a reading has an age.
///
/// ```
/// use vierskof::{Ages, Fact, Window};
///
/// const RAW_STAGE: Fact = Fact::new(6).unwrap();
///
/// let window = Window::open(RAW_STAGE, Ages::days(0..=90));
/// assert_eq!(window.words(), [0x8000_0006, 0x0000_005A]);
/// ```
#[derive(Clone, Debug, PartialEq, Eq, Hash)]
pub struct Window {
    opens: bool,
    fact: Fact,
    ages: Ages,
}

impl Window {
    /// The fact is Present at these ages.
    #[must_use]
    pub const fn open(fact: Fact, ages: Ages) -> Self {
        Self {
            opens: true,
            fact,
            ages,
        }
    }

    /// The fact is Absent at these ages.
    #[must_use]
    pub const fn closed(fact: Fact, ages: Ages) -> Self {
        Self {
            opens: false,
            fact,
            ages,
        }
    }

    /// Its two words: [`apply_windows`](crate::apply_windows) takes those of a list of windows, one after the other.
    #[must_use]
    pub fn words(&self) -> [u32; 2] {
        let Ages { years, first, last } = self.ages;
        let fact = u32::from(self.fact.number());
        [
            u32::from(self.opens) << 31 | u32::from(years) << 30 | fact,
            u32::from(first) << 16 | u32::from(last),
        ]
    }
}
