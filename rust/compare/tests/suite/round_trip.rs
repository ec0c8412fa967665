//! Words to text and back, on every accepted document that the comparison's generator makes.

use command::document::Document;
use command::form::Form;
use command::text::assemble;
use compare::case::Call;
use compare::generate::rng::Rng;
use compare::generate::{cases, exhaustive, limits};
use compare::refusal::Refusal;
use compare::words::read;
use compare::worked;

/// What the comparison's own reader, which knows nothing of the proved one, makes of words.
fn judged(words: &[u32]) -> Result<(), Refusal> {
    match words.first() {
        Some(first) if first >> 28 >= 14 => read::record(words).map(|_| ()),
        _ => read::sheet(words).map(|_| ()),
    }
}

/// Checks that accepted words have a text form that says them again, and that others are refused as they ought to be. Answers whether they were accepted.
fn returns(words: &[u32]) -> bool {
    match (Document::read(words), judged(words)) {
        (Ok(document), Ok(())) => {
            let text = document.to_string();
            assert_eq!(assemble(&text).as_deref(), Ok(words), "{text}");
            for form in [Form::Text, Form::Hex, Form::Binary] {
                let bytes = form.write(&document);
                assert_eq!(Form::of(&bytes), form);
                let again = form.read(&bytes).map(|(words, _)| words);
                assert_eq!(again.as_deref(), Ok(words));
            }
            true
        }
        (Err(found), Err(due)) => {
            assert_eq!(found.number(), u32::from(due.number()), "{words:08X?}");
            false
        }
        (found, due) => panic!("{found:?} for {due:?}: {words:08X?}"),
    }
}

/// How many of these are accepted, and how many are refused.
fn tally(documents: impl IntoIterator<Item = Vec<u32>>) -> [usize; 2] {
    let mut tally = [0; 2];
    for words in documents {
        tally[usize::from(!returns(&words))] += 1;
    }
    tally
}

#[test]
fn drawn_documents() {
    let drawn = cases::draw(1, 20_000, &Call::ALL);
    let [accepted, refused] = tally(drawn.into_iter().map(|case| case.words));
    assert!(accepted > 14_000, "{accepted}");
    assert!(refused > 2_000, "{refused}");
}

#[test]
fn documents_with_repeats() {
    let drawn = cases::draw_repeating(1, 5_000, &Call::ALL);
    let [accepted, refused] = tally(drawn.into_iter().map(|case| case.words));
    assert!(accepted > 3_000, "{accepted}");
    assert!(refused > 500, "{refused}");
}

#[test]
fn records_of_drawn_calls() {
    let calls = [
        Call::PartialEvaluate,
        Call::NarrowResidual,
        Call::PartialEvaluateInOrder,
        Call::NarrowResidualInOrder,
    ];
    let drawn = cases::draw(2, 5_000, &calls);
    let records = drawn.iter().filter_map(|case| match case.answer() {
        Ok(compare::case::Answer::Record(record)) => Some(record),
        _ => None,
    });
    let [accepted, refused] = tally(records);
    assert!(accepted > 2_500, "{accepted}");
    assert_eq!(refused, 0);
}

#[test]
fn all_small_sheets() {
    let [accepted, refused] = tally(exhaustive::sheets(5));
    assert!(accepted > 5_000, "{accepted}");
    assert_eq!(refused, 0);
}

#[test]
fn worked_sheets() {
    let cases = worked::cases();
    assert!(tally(cases.into_iter().map(|case| case.words))[0] > 20);
}

#[test]
fn documents_at_the_limits() {
    // The tallies that the comparison's own test of these has.
    assert_eq!(tally(limits::sheets(&mut Rng::new(1))), [22, 14]);
    assert_eq!(tally(limits::records(&mut Rng::new(1))), [35, 8]);
}

/// A text with one or two edits, each in one place.
fn edited(rng: &mut Rng, text: &str) -> String {
    let mut lines: Vec<String> = text.lines().map(str::to_owned).collect();
    for _ in 0..rng.between(1, 2) {
        let (at, other) = (rng.below(lines.len()), rng.below(lines.len()));
        match rng.below(6) {
            0 => lines[at].clear(),
            1 => lines.insert(at, lines[other].clone()),
            2 => lines.swap(at, other),
            3 => lines[at].insert_str(0, "  "),
            4 => lines[at] = lines[at].replacen("  ", "", 1),
            _ => {
                let from = rng.pick(&["0", "1", "5", " ", ",", "=", "a", "l"]);
                let to = rng.pick(&["", "0", "9", " ", ",", "#", "=", "any", "\t", "ü"]);
                lines[at] = lines[at].replacen(from, to, 1);
            }
        }
    }
    lines.join("\n")
}

#[test]
fn edited_texts_are_faulty_or_say_words() {
    let mut rng = Rng::new(3);
    let (mut faulty, mut accepted, mut refused) = (0, 0, 0);
    for case in cases::draw(3, 20_000, &Call::ALL) {
        let Ok(document) = Document::read(&case.words) else {
            continue;
        };
        let text = edited(&mut rng, &document.to_string());
        match assemble(&text) {
            Err(fault) => {
                assert!((1..=text.lines().count()).contains(&fault.line), "{fault}");
                faulty += 1;
            }
            Ok(words) if returns(&words) => accepted += 1,
            Ok(words) => {
                // Length and level are all that a text without a fault leaves to refuse.
                let number = judged(&words).map_err(Refusal::number);
                assert!(matches!(number, Err(1 | 7)), "{text}");
                refused += 1;
            }
        }
    }
    assert!(
        faulty > 3_000 && accepted > 3_000 && refused > 10,
        "{faulty} {accepted} {refused}"
    );
}
