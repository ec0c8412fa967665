//! Building sheets, and both sides of each limit.

use vierskof::build::{Condition, Grant, Policy, Unwritable};
use vierskof::read::Sheet;
use vierskof::{GRANT_OBLIGATIONS, LEVELS, LIST, Obligation, SHEET_WORDS};

use super::{fact, label, obligation, products, reason};

/// A word that no sheet here has.
const LEFT: u32 = 0x5A5A_5A5A;

/// What is written is as long as was said, is a sheet to the proved reader, and leaves the later words.
#[track_caller]
fn written(policy: &Policy) -> Vec<u32> {
    let mut out = vec![LEFT; SHEET_WORDS + 1];
    let words = policy.write(&mut out).expect("a sheet").words().to_vec();
    assert_eq!(policy.len(), Ok(words.len()));
    assert!(Sheet::read(&words).is_ok());
    assert_eq!(out[..words.len()], words);
    assert!(out[words.len()..].iter().all(|&word| word == LEFT));
    words
}

/// Nothing is written of what can't be, whatever the room.
#[track_caller]
fn unwritable(policy: &Policy, cause: Unwritable) {
    let mut out = vec![LEFT; 2 * SHEET_WORDS];
    assert_eq!(policy.len(), Err(cause));
    assert_eq!(policy.write(&mut out), Err(cause));
    assert!(out.iter().all(|&word| word == LEFT));
}

/// A list of one arm around each policy, this often.
fn nested(policy: Policy<'static>, times: usize) -> Policy<'static> {
    (0..times).fold(policy, |inner, _| Policy::All(vec![inner].leak()))
}

fn granted(condition: &Condition<'static>) -> Policy<'static> {
    let condition = Box::leak(Box::new(*condition));
    Policy::Grant(Grant::new(products(1), condition))
}

#[test]
fn every_node_has_its_words() {
    let has = Condition::Has(fact(1_023));
    let conditions = [
        Condition::Always,
        Condition::Never,
        has,
        Condition::Not(&has),
    ];
    let all = Condition::All(&conditions);
    let both = [all, Condition::Any(&[])];
    let any = Condition::Any(&both);
    let obligations = [63, 0, 7, 9, 1].map(obligation);
    let grant = Grant::new(products(0xABCD), &any)
        .hidden()
        .label(label(0x7FFF))
        .reason(reason(1))
        .obligations(&obligations);
    let arms = [
        Policy::Permit(products(0xFFFF)),
        Policy::Grant(grant),
        Policy::Deny,
    ];
    let (all, any) = (Policy::All(&arms), Policy::Any(&[]));
    let expected = [
        0xB000_0000,
        0x9000_0003,
        0x6000_FFFF,
        0x8850_ABCD,
        0xFFFF_8001,
        0x3F00_0709,
        0x0100_0000,
        0x5000_0002,
        0x4000_0004,
        0x0000_0000,
        0x1000_0000,
        0x2000_03FF,
        0x3000_0000,
        0x2000_03FF,
        0x5000_0000,
        0x7000_0000,
        0xA000_0000,
    ];
    assert_eq!(written(&Policy::OrElse(&all, &any)), expected);
}

#[test]
fn levels_end_at_32() {
    written(&nested(Policy::Deny, LEVELS - 1));
    unwritable(&nested(Policy::Deny, LEVELS), Unwritable::Levels);
    let tall = nested(Policy::Deny, LEVELS - 2);
    written(&Policy::OrElse(&tall, &tall));
    let taller = nested(Policy::Deny, LEVELS - 1);
    unwritable(&Policy::OrElse(&tall, &taller), Unwritable::Levels);
    unwritable(&Policy::OrElse(&taller, &tall), Unwritable::Levels);
    let has = Condition::Has(fact(5));
    written(&nested(granted(&has), LEVELS - 2));
    unwritable(&nested(granted(&has), LEVELS - 1), Unwritable::Levels);
    unwritable(
        &nested(granted(&Condition::Not(&Condition::Never)), LEVELS - 2),
        Unwritable::Levels,
    );
}

#[test]
fn levels_may_be_any_number() {
    let mut deep: &Policy = &Policy::Deny;
    for _ in 0..1_000_000 {
        deep = Box::leak(Box::new(Policy::OrElse(deep, &Policy::Deny)));
    }
    unwritable(deep, Unwritable::Levels);
}

#[test]
fn arms_end_at_4095() {
    let denies = vec![Policy::Deny; LIST + 1];
    let never = vec![Condition::Never; LIST + 1];
    for list in [Policy::All, Policy::Any] {
        assert_eq!(written(&list(&denies[1..])).len(), SHEET_WORDS);
        unwritable(&list(&denies), Unwritable::Arms);
    }
    for list in [Condition::All, Condition::Any] {
        let most = list(&never[..SHEET_WORDS - 3]);
        assert_eq!(
            written(&Policy::Grant(Grant::new(products(1), &most))).len(),
            SHEET_WORDS
        );
        let more = list(&never);
        unwritable(
            &Policy::Grant(Grant::new(products(1), &more)),
            Unwritable::Arms,
        );
    }
}

#[test]
fn words_end_at_4096() {
    let empty = [Policy::All(&[])];
    let mut arms = vec![Policy::Deny; LIST];
    assert_eq!(written(&Policy::Any(&arms)).len(), SHEET_WORDS);
    arms[LIST - 1] = Policy::Any(&empty);
    unwritable(&Policy::Any(&arms), Unwritable::Words);
    assert_eq!(written(&Policy::Any(&arms[1..])).len(), SHEET_WORDS);
}

/// Shared arms make a tree of more nodes than could ever be visited.
#[test]
fn words_end_however_wide_the_tree() {
    let mut wide = Policy::Deny;
    for _ in 1..LEVELS {
        wide = Policy::Any(vec![wide; LIST].leak());
    }
    unwritable(&wide, Unwritable::Words);
}

fn obliging(obligations: &[Obligation]) -> Policy<'_> {
    Policy::Grant(Grant::new(products(1), &Condition::Always).obligations(obligations))
}

#[test]
fn obligations_stand_as_often_as_given() {
    let twice = [7, 9, 7, 7, 9].map(obligation);
    let words = written(&obliging(&twice));
    assert_eq!(words, [0x8050_0001, 0, 0x0709_0707, 0x0900_0000, 0]);
}

#[test]
fn obligations_are_64_at_most() {
    let mut all: Vec<Obligation> = (0..64).map(obligation).collect();
    all.reverse();
    let same = vec![obligation(5); GRANT_OBLIGATIONS];
    for full in [all, same] {
        assert_eq!(written(&obliging(&full)).len(), 2 + 16 + 1);
        for again in [0, 31, 63].map(obligation) {
            let more = [full.as_slice(), &[again]].concat();
            unwritable(&obliging(&more), Unwritable::Obligations);
        }
    }
    // Far more are not taken for fewer.
    let many = vec![obligation(5); 128];
    unwritable(&obliging(&many), Unwritable::Obligations);
}

#[test]
fn the_first_cause_decides() {
    let denies = vec![Policy::Deny; LIST + 1];
    let many = [obligation(1); GRANT_OBLIGATIONS + 1];
    let (obliging, arms) = (obliging(&many), Policy::All(&denies));
    unwritable(&Policy::OrElse(&obliging, &arms), Unwritable::Obligations);
    unwritable(&Policy::OrElse(&arms, &obliging), Unwritable::Arms);
    assert_eq!(obliging.write(&mut []), Err(Unwritable::Obligations));
}

#[test]
fn one_word_short_is_no_room() {
    let has = Condition::Has(fact(5));
    let policy = Policy::Grant(Grant::new(products(3), &has).hidden());
    let mut out = [LEFT; 3];
    assert_eq!(policy.write(&mut out[..2]), Err(Unwritable::Room));
    assert_eq!(out, [LEFT; 3]);
    assert_eq!(policy.write(&mut []), Err(Unwritable::Room));
    assert_eq!(
        policy.write(&mut out).map(Sheet::words),
        Ok(&[0x8800_0003, 0, 0x2000_0005][..])
    );
}
