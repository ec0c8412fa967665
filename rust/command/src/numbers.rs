//! The numbers of the field as they are typed. A reader that fails says what is due in the number's place.

use std::ops::RangeInclusive;

use vierskof::read::Reading;
use vierskof::{Date, Fact, Label, Obligation, Presence, Products, Reason};

/// Reads one item, or says what is due.
pub type Read<T> = fn(&str) -> Result<T, &'static str>;

/// A fact.
pub fn fact(text: &str) -> Result<Fact, &'static str> {
    let fact = number(text).and_then(Fact::new);
    fact.ok_or("a fact from 0 to 1023")
}

/// An obligation.
pub fn obligation(text: &str) -> Result<Obligation, &'static str> {
    let number = number(text).and_then(|number| u8::try_from(number).ok());
    let obligation = number.and_then(Obligation::new);
    obligation.ok_or("an obligation from 0 to 63")
}

/// A label.
pub fn label(text: &str) -> Result<Label, &'static str> {
    let label = number(text).and_then(Label::new);
    label.ok_or("a label from 0 to 32767")
}

/// A reason.
pub fn reason(text: &str) -> Result<Reason, &'static str> {
    let reason = number(text).and_then(Reason::new);
    reason.ok_or("a reason from 0 to 32767")
}

/// A group.
pub fn group(text: &str) -> Result<u8, &'static str> {
    let group = number(text).and_then(|number| u8::try_from(number).ok());
    group.ok_or("a group from 0 to 255")
}

/// The number of a sheet.
pub fn sheet(text: &str) -> Result<u16, &'static str> {
    number(text).ok_or("a sheet's number from 0 to 65535")
}

/// How many levels an outcome table has, or says that it has.
pub fn levels(text: &str) -> Result<u16, &'static str> {
    number(text).ok_or("a number of levels")
}

/// A level, or what stands in the place of one.
pub fn level(text: &str) -> Result<u8, &'static str> {
    let level = number(text).and_then(|number| u8::try_from(number).ok());
    level.ok_or("a level from 0 to 15")
}

/// A set of products.
pub fn products(text: &str) -> Result<Products, &'static str> {
    let digits = text.len() == 4 && text.bytes().all(|byte| byte.is_ascii_hexdigit());
    let bits = u16::from_str_radix(text, 16).ok().filter(|_| digits);
    bits.map(Products::from_bits)
        .ok_or("a set of products in four hexadecimal digits")
}

/// A fact and what is said of it, such as `5=present`.
pub fn said(text: &str) -> Result<(Fact, Presence), &'static str> {
    let presences = [Presence::Absent, Presence::Present, Presence::Unknown];
    named(text, presences).ok_or("a fact from 0 to 1023 with =present, =absent or =unknown")
}

/// A fact that was consulted and how it read, such as `5=silent`.
pub fn observed(text: &str) -> Result<(Fact, Reading), &'static str> {
    let readings = [
        Reading::Absent,
        Reading::Present,
        Reading::Unknown,
        Reading::Silent,
    ];
    named(text, readings).ok_or("a fact from 0 to 1023 with =present, =absent, =unknown or =silent")
}

/// Ages from a first to a last, such as `0..90`.
pub fn ages(text: &str) -> Result<RangeInclusive<u16>, &'static str> {
    let read = || {
        let (first, last) = text.split_once("..")?;
        Some(number(first)?..=number(last)?)
    };
    read().ok_or("ages from 0 to 65535, such as 0..90")
}

/// A date, such as `2026-08-17`, whether or not there is such a day; or `unknown`.
pub fn date(text: &str) -> Result<Date, &'static str> {
    if text == "unknown" {
        return Ok(Date::UNKNOWN);
    }
    let mut parts = text.split('-');
    let mut part = |digits: usize| {
        let part = parts.next().filter(|part| part.len() == digits)?;
        number(part).map(u32::from)
    };
    let mut read = || Some(Date::new(part(4)?, part(2)?, part(2)?));
    let date = read().filter(|_| text.len() == 10);
    date.ok_or("a date such as 2026-08-17, or unknown,")
}

/// Hexadecimal digits without what may stand among them: `0x` before them, and `_` between.
pub fn digits(text: &str) -> String {
    let bare = text.strip_prefix("0x").or_else(|| text.strip_prefix("0X"));
    bare.unwrap_or(text).replace('_', "")
}

/// A fact with one of these, by its word.
fn named<T: ToString>(text: &str, words: impl IntoIterator<Item = T>) -> Option<(Fact, T)> {
    let (number, name) = text.split_once('=')?;
    let word = words.into_iter().find(|word| word.to_string() == name)?;
    Some((fact(number).ok()?, word))
}

/// Digits alone: the standard reader takes a sign too.
fn number(text: &str) -> Option<u16> {
    let digits = text.bytes().all(|byte| byte.is_ascii_digit());
    text.parse().ok().filter(|_| digits)
}
