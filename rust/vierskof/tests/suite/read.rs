//! Typed values of the longest, widest and deepest words.

use std::thread;

use vierskof::read::{
    Condition, ConditionRef, Decision, Policy, PolicyRef, Reading, Record, Sheet, Status,
};
use vierskof::{LEVELS, LIST, Presence, RECORD_WORDS, Refusal, SHEET_WORDS, Shape};

use super::{fact, label, obligation, products, reason};

/// A count in the lower 12 bits of a word.
fn count(count: usize) -> u32 {
    u32::try_from(count).expect("a count")
}

/// 16-bit fields, two a word.
fn halves(fields: &[u32]) -> Vec<u32> {
    let pair = |pair: &[u32]| pair[0] << 16 | pair.get(1).copied().unwrap_or(0);
    fields.chunks(2).map(pair).collect()
}

/// How many nodes a policy has, and on how many levels.
fn walked(policy: PolicyRef) -> (usize, usize) {
    match policy.node() {
        Policy::Grant(grant) => above([asked(grant.condition())]),
        Policy::All(arms) | Policy::Any(arms) => above(arms.map(walked)),
        Policy::OrElse { primary, fallback } => above([walked(primary), walked(fallback)]),
        _ => (1, 1),
    }
}

fn asked(condition: ConditionRef) -> (usize, usize) {
    match condition.node() {
        Condition::Always | Condition::Never | Condition::Has(_) => (1, 1),
        Condition::Not(inner) => above([asked(inner)]),
        Condition::All(arms) | Condition::Any(arms) => above(arms.map(asked)),
    }
}

/// The node above these.
fn above(arms: impl IntoIterator<Item = (usize, usize)>) -> (usize, usize) {
    let (nodes, levels) = arms.into_iter().fold((0, 0), |(nodes, levels), arm| {
        (nodes + arm.0, levels.max(arm.1))
    });
    (nodes + 1, levels + 1)
}

#[test]
fn the_widest_sheet() {
    let mut words = vec![0x7000_0000; SHEET_WORDS];
    words[0] = 0xA000_0000 | count(LIST);
    words[LIST] = 0x6000_0009;
    let Policy::Any(mut arms) = Sheet::read(&words).unwrap().policy().node() else {
        panic!("no Any");
    };
    for left in (0..LIST).rev() {
        let arm = arms.next().expect("an arm");
        assert_eq!(arms.len(), left);
        assert_eq!(arm.words().len(), 1);
        let last = Policy::Permit(products(9));
        assert_eq!(arm.node(), if left == 0 { last } else { Policy::Deny });
    }
    assert_eq!((arms.next(), arms.next()), (None, None));
}

#[test]
fn the_widest_condition() {
    let mut words = vec![0x2000_03FF; SHEET_WORDS];
    words[..3].copy_from_slice(&[0x8000_0001, 0, 0x5000_0000 | count(SHEET_WORDS - 3)]);
    let Policy::Grant(grant) = Sheet::read(&words).unwrap().policy().node() else {
        panic!("no grant");
    };
    let Condition::Any(arms) = grant.condition().node() else {
        panic!("no Any");
    };
    assert_eq!(arms.len(), SHEET_WORDS - 3);
    assert!(
        arms.clone()
            .all(|arm| arm.node() == Condition::Has(fact(1_023)))
    );
    assert_eq!(arms.count(), SHEET_WORDS - 3);
}

/// Trees of 32 levels, walked by a function that calls itself, with 256 KiB of stack.
#[test]
fn the_deepest_sheets_on_a_small_stack() {
    let lists = [0x9000_0001; LEVELS - 1];
    let policies = [&lists[..], &[0x7000_0000]].concat();
    let negations = [0x3000_0000; LEVELS - 2];
    let conditions = [&[0x8000_0001, 0], &negations[..], &[0x0000_0000]].concat();
    let falling: Vec<u32> = [0xB000_0000, 0x7000_0000].repeat(LEVELS - 1);
    let falling = [&falling[..], &[0x7000_0000]].concat();
    let walk = move || {
        [policies, conditions, falling].map(|words| {
            let sheet = Sheet::read(&words).expect("a sheet");
            assert!(format!("{sheet:?}").len() > LEVELS);
            walked(sheet.policy())
        })
    };
    let small = thread::Builder::new().stack_size(256 * 1024).spawn(walk);
    let found = small.expect("a thread").join().expect("no overflow");
    assert_eq!(found, [(32, 32), (32, 32), (63, 32)]);
}

#[test]
fn the_longest_record() {
    let deny = [0xD000_0000, 0x0000_0000, 0x0000_0002, 0x0001_0002];
    let longer = [
        0xD000_0000,
        0x0000_0000,
        0x0000_0006,
        0x0001_0002,
        0x0003_0004,
        0x0005_0006,
    ];
    let mut words = vec![0xF000_0000, 0x9000_0000 | count(LIST)];
    words.extend(deny.repeat(LIST - 1));
    words.extend(longer);
    assert_eq!(words.len(), RECORD_WORDS);
    let record = Record::read(&words).expect("a record");
    assert_eq!(record.status(), Status::Pending);
    assert_eq!(record.words(), words);
    assert_eq!(record.tree().words(), &words[1..]);
    assert_eq!(walked(record.tree()), (LIST + 1, 2));
    let Policy::All(arms) = record.tree().node() else {
        panic!("no All");
    };
    let joined: Vec<u32> = arms.clone().flat_map(|arm| arm.words().to_vec()).collect();
    assert_eq!(joined, &words[2..]);
    let Some(Policy::DenyWithTrace(last)) = arms.last().map(PolicyRef::node) else {
        panic!("no deny");
    };
    assert!(last.facts().eq((1..=6).map(fact)));
    words.push(0);
    assert_eq!(Record::read(&words), Err(Refusal::Length));
}

/// One node of each kind that may be an arm in a record, with parts of its own.
const ARMS: [&[u32]; 8] = [
    &[0x6000_FFFF],
    &[0x7000_0000],
    &[
        0x8050_0001,
        0x8001_8001,
        0x0102_0304,
        0x0500_0000,
        0x3000_0000,
        0x2000_0005,
    ],
    &[
        0x8000_0001,
        0x0000_0000,
        0x4000_0002,
        0x5000_0001,
        0x0000_0000,
        0x1000_0000,
    ],
    &[0x9000_0002, 0xA000_0000, 0x7000_0000],
    &[
        0xB000_0000,
        0xB000_0000,
        0x7000_0000,
        0x7000_0000,
        0x6000_0001,
    ],
    &[
        0xC050_0001,
        0x8001_0003,
        0x0102_0304,
        0x0500_0000,
        0x0001_0002,
        0x0003_0000,
    ],
    &[
        0xDC00_0001,
        0x8001_8001,
        0x0000_0003,
        0x0001_0002,
        0x0003_0000,
    ],
];

#[test]
fn an_arm_ends_where_the_next_begins() {
    for turned in 0..ARMS.len() {
        let mut arms = ARMS;
        arms.rotate_left(turned);
        let record = [&[0xF000_0000, 0x9000_0008], arms.concat().as_slice()].concat();
        let Policy::All(found) = Record::read(&record).unwrap().tree().node() else {
            panic!("no All");
        };
        assert!(found.map(PolicyRef::words).eq(arms));
    }
    for (primary, fallback) in ARMS.iter().zip(ARMS.iter().rev()) {
        let record = [&[0xF000_0000, 0xB000_0000], *primary, *fallback].concat();
        let node = Record::read(&record).unwrap().tree().node();
        let Policy::OrElse {
            primary: first,
            fallback: second,
        } = node
        else {
            panic!("no OrElse");
        };
        assert_eq!((first.words(), second.words()), (*primary, *fallback));
    }
}

/// The four readings of an entry, what the rules take each for, and its word.
const READINGS: [(Reading, Presence, &str); 4] = [
    (Reading::Absent, Presence::Absent, "absent"),
    (Reading::Present, Presence::Present, "present"),
    (Reading::Unknown, Presence::Unknown, "unknown"),
    (Reading::Silent, Presence::Absent, "silent"),
];

#[test]
fn a_reading_is_what_was_entered_or_silence() {
    let (silent, entered) = READINGS.split_last().expect("four");
    for (reading, presence, _) in entered {
        assert_eq!(Reading::from(*presence), *reading);
        assert_eq!(Reading::from(Some(*presence)), *reading);
    }
    assert_eq!(Reading::from(None::<Presence>), silent.0);
    assert_eq!(format!("{:>7}", Reading::Silent), " silent");
}

#[test]
fn the_longest_lists() {
    let facts: Vec<u32> = (0..4_095).map(|at| at % 1_024).collect();
    let consulted: Vec<u32> = facts.iter().map(|fact| (fact % 4) << 14 | fact).collect();
    let obligations: Vec<u8> = (0..64).rev().collect();
    let mut words = vec![0xE000_0000 | count(LIST)];
    words.extend(halves(&consulted));
    words.extend([0xC400_0000 | 0xFFFF, 0x8005_0000 | count(LIST)]);
    words.extend(
        obligations
            .chunks(4)
            .map(|four| u32::from_be_bytes(four.try_into().unwrap())),
    );
    words.extend(halves(&facts));

    let record = Record::read(&words).expect("a record");
    assert_eq!(record.status(), Status::Resolved);
    assert_eq!(record.consulted().len(), LIST);
    for (read, fact) in record.consulted().zip(&facts) {
        assert_eq!(u32::from(read.fact.number()), *fact);
        let (reading, presence, text) = READINGS[(*fact % 4) as usize];
        assert_eq!(read.reading, reading);
        assert_eq!(u32::from(reading.number()), *fact % 4);
        assert_eq!(read.reading.presence(), presence);
        assert_eq!(read.reading.to_string(), text);
    }
    let Policy::PermitWithTrace(permit) = record.tree().node() else {
        panic!("no permit");
    };
    assert_eq!(permit.label(), Some(label(5)));
    assert!(
        permit
            .obligations()
            .eq(obligations.into_iter().map(obligation))
    );
    assert_eq!(permit.facts().len(), LIST);
    assert!(
        permit
            .facts()
            .map(|fact| u32::from(fact.number()))
            .eq(facts)
    );
}

#[test]
fn a_deny_with_everything() {
    let words = [
        0xE000_0000,
        0xDC00_8001,
        0x8001_FFFF,
        0x0000_0001,
        0x03FF_0000,
    ];
    let record = Record::read(&words).expect("a record");
    let Policy::DenyWithTrace(deny) = record.tree().node() else {
        panic!("no deny");
    };
    assert_eq!(deny.denied(), Some(products(0x8001)));
    assert_eq!(deny.shape(), Shape::Hidden);
    assert_eq!(deny.label(), Some(label(1)));
    assert_eq!(deny.reason(), Some(reason(0x7FFF)));
    assert!(deny.facts().eq([fact(1_023)]));
}

#[test]
fn a_deny_is_hidden_or_denies_an_outcome_by_itself() {
    let deny = |first: u32| {
        let words = [0xE000_0000, first, 0, 0];
        match Record::read(&words).map(Record::decision) {
            Ok(Some(Decision::Deny(deny))) => (deny.shape(), deny.denied()),
            other => panic!("{other:?}"),
        }
    };
    assert_eq!(deny(0xD400_0000), (Shape::Forbidden, Some(products(0))));
    assert_eq!(deny(0xD800_0000), (Shape::Hidden, None));
}

#[test]
fn trees_are_shown() {
    let words = [0x8800_0003, 0x0000_0000, 0x2000_0005];
    let sheet = Sheet::read(&words).expect("a sheet");
    assert_eq!(
        format!("{sheet:?}"),
        "Sheet(Grant(GrantRef { outcome: Products(3), shape: Hidden, label: None, reason: None, \
         obligations: [], condition: Has(Fact(5)) }))"
    );
}
