//! Outcome tables from files: a count of levels, and what any two of them meet and join in.

use std::path::Path;

use vierskof::Levels;

use crate::form::{Form, utf8};
use crate::given::open;
use crate::numbers;
use crate::text::{Fault, quoted};
use crate::work::Failure;

/// The table in a file, if the proved library accepts it.
pub fn read(file: &Path) -> Result<Levels, Failure> {
    let name = file.display();
    let named = |message| Failure::Usage(format!("{name}: {message}"));
    let bytes = open(file).map_err(named)?;
    let (count, outcomes) = parts(&bytes).map_err(named)?;
    Levels::new(count, &outcomes).map_err(|refusal| {
        let why = why(count, &outcomes).unwrap_or_default();
        Failure::Refused(refusal, Some(format!("{name}: {why}")))
    })
}

/// The count and the bytes. Every table has a byte 0, the meet of level 0 with itself, which no text has.
fn parts(bytes: &[u8]) -> Result<(usize, Vec<u8>), String> {
    if Form::of(bytes) != Form::Binary {
        return from_text(utf8(bytes)?);
    }
    match bytes {
        [count, outcomes @ ..] => Ok((usize::from(*count), outcomes.to_vec())),
        [] => Err(NO_COUNT.to_owned()),
    }
}

const NO_COUNT: &str = "there is no count of levels";

/// Numbers apart by white space or commas, the first one the count.
fn from_text(text: &str) -> Result<(usize, Vec<u8>), String> {
    let mut count = None;
    let mut outcomes = Vec::new();
    for (line, number) in text.lines().zip(1..) {
        let said = line.split('#').next().unwrap_or_default();
        let between = |found: char| found == ',' || found.is_whitespace();
        for word in said.split(between).filter(|word| !word.is_empty()) {
            let read = match count {
                None => numbers::levels(word).map(|levels| count = Some(levels)),
                Some(_) => numbers::level(word).map(|level| outcomes.push(level)),
            };
            read.map_err(|due| {
                let fault = Fault {
                    line: number,
                    found: quoted(word),
                    due: due.to_owned(),
                };
                fault.to_string()
            })?;
        }
    }
    let count = count.ok_or(NO_COUNT)?;
    Ok((usize::from(count), outcomes))
}

/// Why a table is refused; none of one that is not.
fn why(count: usize, outcomes: &[u8]) -> Option<String> {
    if !(1..=Levels::MOST).contains(&count) {
        return Some(format!("{count} levels, where 1 to 16 are due"));
    }
    let (found, due) = (outcomes.len(), 2 * count * count);
    if found != due {
        return Some(format!("{found} meets and joins, where {due} are due"));
    }
    let tables = outcomes.chunks(count * count);
    for (verb, table) in ["meet", "join"].into_iter().zip(tables) {
        let beyond = table.iter().position(|level| usize::from(*level) >= count);
        if let Some(at) = beyond {
            let (one, other, level) = (at / count, at % count, table[at]);
            let said = format!("levels {one} and {other} {verb} in {level}, which is no level");
            return Some(said);
        }
    }
    broken(count, outcomes)
}

/// The first law that a table of levels breaks.
fn broken(count: usize, outcomes: &[u8]) -> Option<String> {
    let entry = |from: usize, one: usize, other: usize| {
        usize::from(outcomes[from * count * count + one * count + other])
    };
    let verbs = ["meet", "join"];
    let pairs = || (0..count).flat_map(|one| (0..count).map(move |other| (one, other)));
    for (one, other) in pairs() {
        for (from, verb) in verbs.into_iter().enumerate() {
            let (found, turned) = (entry(from, one, other), entry(from, other, one));
            if found != turned {
                return Some(format!(
                    "levels {one} and {other} {verb} in {found}, but {other} and {one} in {turned}"
                ));
            }
        }
    }
    for (one, other) in pairs() {
        for (from, verb) in verbs.into_iter().enumerate() {
            let inner = entry(1 - from, one, other);
            let found = entry(from, one, inner);
            if found != one {
                let within = verbs[1 - from];
                return Some(format!(
                    "level {one} and what {one} and {other} {within} in, {inner}, {verb} in {found} and not in {one}"
                ));
            }
        }
    }
    for (one, other) in pairs() {
        for third in 0..count {
            for (from, verb) in verbs.into_iter().enumerate() {
                let left = entry(from, entry(from, one, other), third);
                let right = entry(from, one, entry(from, other, third));
                if left != right {
                    return Some(format!(
                        "levels {one}, {other} and {third} {verb} in {left} if the first two do so first, and in {right} if the last two do"
                    ));
                }
            }
        }
    }
    None
}
