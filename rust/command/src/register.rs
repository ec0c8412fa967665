//! The register of sheets, as it is asked and refused at the command line.

use clap::ValueEnum;
use time::{Date, Month, format_description};
use vierskof::{REGISTER_WORDS, in_force};

use crate::form::Form;

/// How the words of a register stand in a file.
#[derive(Clone, Copy, Debug, PartialEq, Eq, ValueEnum)]
pub enum Words {
    /// Eight hexadecimal digits a word, with white space or commas between; 0x, _ and # comments may stand in it.
    Hex,
    /// Four bytes a word, the most significant first.
    Binary,
}

impl From<Words> for Form {
    fn from(words: Words) -> Self {
        match words {
            Words::Hex => Self::Hex,
            Words::Binary => Self::Binary,
        }
    }
}

/// A day as it is typed: a number of days after 1900-01-01, or a date of the Gregorian calendar from then on.
pub fn day(text: &str) -> Result<u32, &'static str> {
    let number = text.bytes().all(|byte| byte.is_ascii_digit());
    let day = if number {
        text.parse().ok()
    } else {
        date(text)
    };
    day.ok_or("a number of days from 0 to 4294967295, or a date from 1900-01-01 to 9999-12-31")
}

fn date(text: &str) -> Option<u32> {
    let format = format_description::parse("[year]-[month]-[day]").ok()?;
    let first = Date::from_calendar_date(1900, Month::January, 1).ok()?;
    // The library takes a sign before the year.
    let unsigned = Some(text).filter(|text| text.len() == "YYYY-MM-DD".len())?;
    let date = Date::parse(unsigned, &format).ok()?;
    u32::try_from(date.to_julian_day() - first.to_julian_day()).ok()
}

/// Why words are no register: their count, or the last entry of the shortest beginning that the proved call refuses.
pub fn place(words: &[u32]) -> String {
    let count = words.len();
    if count > REGISTER_WORDS {
        return format!("{count} words, where at most {REGISTER_WORDS} are due");
    }
    let (entries, []) = words.as_chunks::<2>() else {
        return format!("an odd number of words, {count}");
    };
    let refused = |&last: &usize| in_force(entries[..=last].as_flattened(), 0, 0).is_err();
    let last = (0..entries.len()).find(refused).unwrap_or_default();
    let [lead, day] = entries[last];
    format!(
        "entry {}, {lead:08X} {day:08X}: its zero field isn't 0, or an entry before it has its group and number",
        last + 1
    )
}
