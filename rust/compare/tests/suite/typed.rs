//! The typed values over the proved calls against the trees of the original's side: what is read, and what is built.

use std::convert::Infallible;

use compare::case::Call;
use compare::generate::cases::{draw, draw_repeating};
use compare::generate::grow::{Alphabet, Grower};
use compare::generate::limits;
use compare::generate::rng::Rng;
use compare::products::Products;
use compare::refusal::Refusal;
use compare::repeats::has_repeat;
use compare::words::tree::{
    Condition, Decided, Deny, Entry, Grant, Permit, Record, Residual, Seen, Sheet, Tree,
};
use compare::words::write::Stored;
use compare::words::{read, write};
use gatekeep::DenyShape;
use vierskof::build::{self, Unwritable};
use vierskof::read as typed;

const SEED: u64 = 20_261_116;

/// The tree of a typed policy; each part of it has the part's own words.
fn tree<S: Stored>(policy: typed::PolicyRef, stored: fn(Decided) -> S) -> Tree<S> {
    let arms = |arms: typed::Policies| arms.map(|arm| tree(arm, stored)).collect();
    let found = match policy.node() {
        typed::Policy::Permit(outcome) => Tree::Permit(products(outcome)),
        typed::Policy::Deny => Tree::Deny,
        typed::Policy::Grant(found) => Tree::Grant(grant(found)),
        typed::Policy::All(found) => Tree::All(arms(found)),
        typed::Policy::Any(found) => Tree::Any(arms(found)),
        typed::Policy::OrElse { primary, fallback } => Tree::OrElse(
            Box::new(tree(primary, stored)),
            Box::new(tree(fallback, stored)),
        ),
        typed::Policy::PermitWithTrace(found) => Tree::Stored(stored(permit(found))),
        typed::Policy::DenyWithTrace(found) => Tree::Stored(stored(deny(found))),
    };
    assert_eq!(write::tree(&found), policy.words());
    found
}

fn condition(given: typed::ConditionRef) -> Condition {
    let arms = |arms: typed::Conditions| arms.map(condition).collect();
    let found = match given.node() {
        typed::Condition::Always => Condition::Always,
        typed::Condition::Never => Condition::Never,
        typed::Condition::Has(fact) => Condition::Has(fact.number()),
        typed::Condition::Not(inner) => Condition::Not(Box::new(condition(inner))),
        typed::Condition::All(found) => Condition::All(arms(found)),
        typed::Condition::Any(found) => Condition::Any(arms(found)),
    };
    assert_eq!(write::condition(&found), given.words());
    found
}

fn grant(given: typed::GrantRef) -> Grant {
    Grant {
        outcome: products(given.outcome()),
        shape: shape(given.shape()),
        label: given.label().map(u16::from),
        reason: given.reason().map(u16::from),
        obligations: given.obligations().map(u8::from).collect(),
        condition: condition(given.condition()),
    }
}

fn permit(given: typed::PermitWithTrace) -> Decided {
    Decided::Permit(Permit {
        outcome: products(given.outcome()),
        obligations: given.obligations().map(u8::from).collect(),
        satisfied: given.facts().map(u16::from).collect(),
        label: given.label().map(u16::from),
    })
}

fn deny(given: typed::DenyWithTrace) -> Decided {
    Decided::Deny(Deny {
        denied: given.denied().map(products),
        unsatisfied: given.facts().map(u16::from).collect(),
        label: given.label().map(u16::from),
        reason: given.reason().map(u16::from),
        shape: shape(given.shape()),
    })
}

const fn products(given: vierskof::Products) -> Products {
    Products(given.bits())
}

const fn shape(given: vierskof::Shape) -> DenyShape {
    match given {
        vierskof::Shape::Forbidden => DenyShape::Forbidden,
        vierskof::Shape::Hidden => DenyShape::Hidden,
    }
}

fn entry(given: typed::Observation) -> Entry {
    let seen = match given.reading {
        typed::Reading::Absent => Seen::Absent,
        typed::Reading::Present => Seen::Present,
        typed::Reading::Unknown => Seen::Unknown,
        typed::Reading::Silent => Seen::Silent,
        other => panic!("{other} is no reading of today"),
    };
    (given.fact.number(), seen)
}

fn sheet(words: &[u32]) -> Result<Sheet, u32> {
    let none = |decided| -> Infallible { panic!("{decided:?} in a sheet") };
    let sheet = typed::Sheet::read(words).map_err(vierskof::Refusal::number)?;
    Ok(tree(sheet.policy(), none))
}

fn record(words: &[u32]) -> Result<Record, u32> {
    let record = typed::Record::read(words).map_err(vierskof::Refusal::number)?;
    let consulted = record.consulted().map(entry).collect();
    let residual = tree(record.tree(), |decided| decided);
    let decided = record.decision().map(|decision| match decision {
        typed::Decision::Permit(found) => permit(found),
        typed::Decision::Deny(found) => deny(found),
    });
    match (record.status(), decided) {
        (typed::Status::Resolved, Some(decided)) => {
            assert_eq!(residual, Tree::Stored(decided.clone()));
            Ok(Record::Resolved { consulted, decided })
        }
        (typed::Status::Pending, None) => Ok(Record::Pending {
            consulted,
            residual,
        }),
        (status, decided) => panic!("{status:?} with {decided:?}"),
    }
}

/// The words read alike as a sheet and as a record, or are refused alike; how many of both are accepted.
#[track_caller]
fn read_alike(words: &[u32]) -> usize {
    let number = |refusal: Refusal| u32::from(refusal.number());
    let (expected, found) = (read::sheet(words).map_err(number), sheet(words));
    assert!(expected == found, "seed {SEED}: sheet {words:X?}");
    let accepted = usize::from(found.is_ok());
    let (expected, found) = (read::record(words).map_err(number), record(words));
    assert!(expected == found, "seed {SEED}: record {words:X?}");
    if let Ok(record) = typed::Record::read(words) {
        assert_eq!(u32::from(record.number()), read::sheet_number(words));
    }
    accepted + usize::from(found.is_ok())
}

#[test]
fn generated_and_damaged_words_read_alike() {
    let repeating = draw_repeating(SEED, 10_000, &Call::ALL);
    for cases in [draw(SEED, 40_000, &Call::ALL), repeating] {
        let accepted: usize = cases.iter().map(|case| read_alike(&case.words)).sum();
        let some = cases.len() / 4..cases.len();
        assert!(some.contains(&accepted), "{accepted}");
    }
}

#[test]
fn words_at_the_limits_read_alike() {
    let mut rng = Rng::new(SEED);
    let words = [limits::sheets(&mut rng), limits::records(&mut rng)].concat();
    let accepted: usize = words.iter().map(|words| read_alike(words)).sum();
    assert!((20..words.len()).contains(&accepted), "{accepted}");
}

/// The policy to build. What it borrows is never given back: the tests are few and short.
fn policy(tree: &Residual) -> build::Policy<'static> {
    let arms = |arms: &[Residual]| arms.iter().map(policy).collect::<Vec<_>>().leak();
    match tree {
        Tree::Permit(outcome) => build::Policy::Permit(vierskof::Products::from_bits(outcome.0)),
        Tree::Deny => build::Policy::Deny,
        Tree::Grant(grant) => build::Policy::Grant(granted(grant)),
        Tree::All(found) => build::Policy::All(arms(found)),
        Tree::Any(found) => build::Policy::Any(arms(found)),
        Tree::OrElse(primary, fallback) => {
            build::Policy::OrElse(leaked(policy(primary)), leaked(policy(fallback)))
        }
        Tree::Stored(decided) => panic!("{decided:?} in a sheet"),
    }
}

fn granted(grant: &Grant) -> build::Grant<'static> {
    let outcome = vierskof::Products::from_bits(grant.outcome.0);
    let mut built = build::Grant::new(outcome, leaked(asked(&grant.condition)));
    if grant.shape == DenyShape::Hidden {
        built = built.hidden();
    }
    if let Some(label) = grant.label {
        built = built.label(vierskof::Label::new(label).expect("a label"));
    }
    if let Some(reason) = grant.reason {
        built = built.reason(vierskof::Reason::new(reason).expect("a reason"));
    }
    let obligations = grant.obligations.iter().copied();
    let obligations = obligations.map(vierskof::Obligation::try_from);
    built.obligations(Vec::leak(
        obligations.collect::<Result<_, _>>().expect("obligations"),
    ))
}

fn asked(condition: &Condition) -> build::Condition<'static> {
    let arms = |arms: &[Condition]| arms.iter().map(asked).collect::<Vec<_>>().leak();
    match condition {
        Condition::Always => build::Condition::Always,
        Condition::Never => build::Condition::Never,
        Condition::Has(fact) => build::Condition::Has(vierskof::Fact::new(*fact).expect("a fact")),
        Condition::Not(inner) => build::Condition::Not(leaked(asked(inner))),
        Condition::All(found) => build::Condition::All(arms(found)),
        Condition::Any(found) => build::Condition::Any(arms(found)),
    }
}

fn leaked<T>(value: T) -> &'static T {
    Box::leak(Box::new(value))
}

/// The tree's words are built, or it is refused for the cause for which its words would be.
#[track_caller]
fn built_alike(tree: &Residual) -> Result<(), Unwritable> {
    let words = write::tree(tree);
    let mut out = vec![0x5A5A_5A5A; words.len() + 1];
    let built = policy(tree).write(&mut out).map(typed::Sheet::words);
    match (read::sheet(&words), built) {
        (Ok(_), Ok(found)) => assert!(found == words, "seed {SEED}: {tree:?}"),
        (Err(Refusal::Length), Err(Unwritable::Words | Unwritable::Arms))
        | (Err(Refusal::Level), Err(Unwritable::Levels))
        | (Err(Refusal::Field), Err(Unwritable::Obligations)) => {}
        (expected, found) => panic!("seed {SEED}: {expected:?} but {found:?}: {tree:?}"),
    }
    built.map(|_| ())
}

#[test]
fn generated_trees_are_built_alike() {
    let mut rng = Rng::new(SEED);
    let mut found = Vec::new();
    let mut repeated = 0;
    for _ in 0..5_000 {
        let alphabet = Alphabet::draw(&mut rng).repeating();
        let (kind, words) = (rng.below(10), rng.between(1, 60));
        let (nodes, obligations) = (rng.between(31, 34), rng.between(63, 66));
        let mut grower = Grower::of_sheets(&mut rng, &alphabet);
        let tree = match kind {
            0 => grower.tall(nodes),
            1 => grower.bulky(obligations),
            2 => grower.repeating(),
            3 | 4 => grower.mixed(),
            _ => grower.tree(words, 1),
        };
        let built = built_alike(&tree);
        let again = tree.granted().into_iter().any(has_repeat);
        repeated += usize::from(built.is_ok() && again);
        found.push(built);
    }
    let times = |answer| found.iter().filter(|&&found| found == answer).count();
    assert!(times(Ok(())) > 3_000);
    assert!(times(Err(Unwritable::Levels)) > 100);
    assert!(times(Err(Unwritable::Obligations)) > 100);
    assert!(repeated > 300, "{repeated}");
}

#[test]
fn trees_at_the_limits_are_built_alike() {
    let mut rng = Rng::new(SEED);
    let alphabet = Alphabet::wide(&mut rng);
    for words in 4_095..=4_098 {
        let cause = |cause| if words > 4_096 { Err(cause) } else { Ok(()) };
        let long = Grower::of_sheets(&mut rng, &alphabet).exactly(words);
        assert_eq!(built_alike(&long), cause(Unwritable::Words));
        let wide = Grower::of_sheets(&mut rng, &alphabet).flat(words - 1);
        assert_eq!(built_alike(&wide), cause(Unwritable::Arms));
        let naming = limits::naming(&mut rng, words - 3);
        assert_eq!(built_alike(&naming), cause(Unwritable::Words));
    }
}
