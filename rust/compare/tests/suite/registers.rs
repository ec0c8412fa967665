//! Registers of sheets: the worked ones, and the proved call against sorting.

use std::thread;

use compare::generate::registers::draw;
use compare::proved::finds;
use compare::refusal::Refusal;
use compare::register::Question;

use super::words;

/// Request 5's worked register.
const REGISTER: &str =
    "01000007 00000064 01000009 000000C8 0180000C 000000FA 01000003 000000C8 02000000 00000000";

fn question(register: &str, group: u32, day: u32) -> Question {
    Question {
        words: words(register),
        group,
        day,
    }
}

/// Both implementations answer as the request's text does.
#[track_caller]
fn answers(register: &str, group: u32, day: u32, expected: Result<Option<u16>, Refusal>) {
    let question = question(register, group, day);
    assert_eq!(question.answer(), expected, "group {group}, day {day}");
    assert!(finds(&question), "group {group}, day {day}");
}

#[test]
fn the_worked_registers() {
    for (group, day, number) in [
        (1, 99, None),
        (1, 100, Some(7)),
        (1, 199, Some(7)),
        (1, 200, Some(9)),
        (1, 300, Some(9)),
        (2, 0, Some(0)),
        (3, 300, None),
    ] {
        answers(REGISTER, group, day, Ok(number));
    }
    let unsigned = "01000007 FFFFFFFF 01000008 80000000";
    answers(unsigned, 1, 0x8000_0000, Ok(Some(8)));
    answers("01000007 00000000 02000007 00000009", 1, 5, Ok(Some(7)));
    answers("", 1, 5, Ok(None));
    for refused in [
        "01000007",
        "01000007 00000000 01800007 00000009",
        "01000007 00000000 02400008 00000000",
    ] {
        answers(refused, 1, 5, Err(Refusal::Register));
    }
}

#[test]
fn no_entry_has_a_group_over_255() {
    assert_eq!(question(REGISTER, 257, 300).answer(), Ok(None));
    assert_eq!(question("01000007", 257, 300).returned(), 0xF_0000_0000);
}

#[test]
fn long_registers_on_a_small_stack() {
    let long = draw(6, 20_000).filter(|question| question.words.len() >= 510);
    let long: Vec<Question> = long.collect();
    assert!(long.len() > 200);
    let small = thread::Builder::new().stack_size(256 * 1024);
    let asked = small.spawn(move || assert!(long.iter().all(finds)));
    asked.expect("a thread").join().expect("no overflow");
}

/// What a run has met, so that none of it is missing.
#[derive(Default)]
struct Met {
    refused: usize,
    repeats: usize,
    none: usize,
    zero: usize,
    ties: usize,
    ends: [usize; 3],
    full: usize,
}

impl Met {
    fn count(&mut self, question: &Question) {
        let words = &question.words;
        match question.answer() {
            Err(_) => self.refused += 1,
            Ok(None) => self.none += 1,
            Ok(Some(0)) => self.zero += 1,
            Ok(Some(_)) => {}
        }
        let (entries, odd) = words.as_chunks::<2>();
        let whole = odd.is_empty() && entries.len() <= 256;
        let zeros = entries.iter().all(|[lead, _]| lead & 0x007F_0000 == 0);
        self.repeats += usize::from(whole && zeros && question.answer().is_err());
        self.full += usize::from(words.len() == 512 && question.answer().is_ok());
        let due =
            |entry: &&[u32; 2]| entry[0] >> 23 == question.group << 1 && entry[1] <= question.day;
        let latest = entries.iter().filter(due).map(|entry| entry[1]).max();
        let tied = entries
            .iter()
            .filter(due)
            .filter(|entry| Some(entry[1]) == latest);
        self.ties += usize::from(tied.count() > 1 && question.answer().is_ok());
        for (count, end) in self.ends.iter_mut().zip([0, 1 << 31, u32::MAX]) {
            *count += usize::from(latest == Some(end) && question.answer().is_ok());
        }
    }
}

#[test]
fn drawn_and_damaged_registers() {
    let mut met = Met::default();
    for question in draw(5, 200_000) {
        assert!(finds(&question), "{question:X?}");
        met.count(&question);
    }
    let Met {
        refused,
        repeats,
        none,
        zero,
        ties,
        ends,
        full,
    } = met;
    let counts = [refused, repeats, none, zero, ties, full];
    let least = counts.into_iter().chain(ends).min();
    assert!(least > Some(500), "{counts:?} {ends:?}");
}
