//! The worked sheets A to H, built, decided and read.

use vierskof::build::{Condition, Grant, Policy};
use vierskof::read::{self, Decision, PermitWithTrace, Reading, Record, Status};
use vierskof::{
    FactTable, Presence, Shape, complete_residual, evaluate, narrow_residual,
    narrow_residual_in_order, partial_evaluate, partial_evaluate_in_order,
};

use super::{fact, products};

/// Room for every record here.
const ROOM: usize = 16;

fn built(policy: &Policy) -> Vec<u32> {
    let mut out = [0; ROOM];
    policy.write(&mut out).expect("a sheet").words().to_vec()
}

fn sitting(policy: &Policy, facts: &FactTable) -> Vec<u32> {
    let mut out = [0; ROOM];
    let record = evaluate(&built(policy), 0, facts.as_bytes(), &mut out);
    record.expect("a record").to_vec()
}

fn five(presence: Presence) -> FactTable {
    FactTable::new().with(fact(5), presence)
}

/// D's sheet.
const D: Policy = Policy::Grant(Grant::new(products(3), &Condition::Has(FIVE)).hidden());
const FIVE: vierskof::Fact = vierskof::Fact::new(5).unwrap();

fn permit(record: &[u32]) -> PermitWithTrace<'_> {
    match Record::read(record).map(Record::decision) {
        Ok(Some(Decision::Permit(permit))) => permit,
        other => panic!("{other:?} is no permit"),
    }
}

#[test]
fn a_permits() {
    let policy = Policy::Permit(products(1));
    assert_eq!(built(&policy), [0x6000_0001]);
    let record = sitting(&policy, &FactTable::new());
    assert_eq!(record, [0xE000_0000, 0xC000_0001, 0x0000_0000]);
    let permit = permit(&record);
    assert_eq!(permit.outcome(), products(1));
    assert_eq!(permit.label(), None);
    assert_eq!((permit.obligations().len(), permit.facts().len()), (0, 0));
}

#[test]
fn b_and_c_deny() {
    let policies = [Policy::Deny, Policy::All(&[]), Policy::Any(&[])];
    let sheets = [0x7000_0000, 0x9000_0000, 0xA000_0000];
    for (policy, sheet) in policies.iter().zip(sheets) {
        assert_eq!(built(policy), [sheet]);
        let record = sitting(policy, &FactTable::new());
        assert_eq!(record, [0xE000_0000, 0xD000_0000, 0, 0]);
        let Some(Decision::Deny(deny)) = Record::read(&record).unwrap().decision() else {
            panic!("{record:X?} is no deny");
        };
        assert_eq!(deny.denied(), None);
        assert_eq!(deny.shape(), Shape::Forbidden);
        assert_eq!((deny.label(), deny.reason()), (None, None));
        assert_eq!(deny.facts().len(), 0);
    }
}

#[test]
fn d_permits_on_its_fact() {
    assert_eq!(built(&D), [0x8800_0003, 0x0000_0000, 0x2000_0005]);
    let record = sitting(&D, &five(Presence::Present));
    let expected = [0xE000_0001, 0x4005_0000, 0xC000_0003, 1, 0x0005_0000];
    assert_eq!(record, expected);
    let consulted = Record::read(&record).unwrap().consulted();
    let consulted = consulted.map(|read| (read.fact, read.reading));
    assert!(consulted.eq([(fact(5), Reading::Present)]));
    assert_eq!(permit(&record).outcome(), products(3));
    assert!(permit(&record).facts().eq([fact(5)]));
}

#[test]
fn e_denies_without_it() {
    let entered = five(Presence::Absent);
    assert_eq!(entered.as_bytes(), [0x00, 0x00]);
    let short = FactTable::new().with(fact(3), Presence::Absent);
    let tables = [
        (FactTable::new(), 0xC005_0000, Reading::Silent),
        (short, 0xC005_0000, Reading::Silent),
        (entered, 0x0005_0000, Reading::Absent),
    ];
    for (table, entry, reading) in tables {
        let record = sitting(&D, &table);
        let expected = [0xE000_0001, entry, 0xDC00_0003, 0, 1, 0x0005_0000];
        assert_eq!(record, expected);
        let record = Record::read(&record).unwrap();
        let consulted = record.consulted().map(|read| (read.fact, read.reading));
        assert!(consulted.eq([(fact(5), reading)]));
        assert_eq!(Reading::from(table.observation(fact(5))), reading);
        let Some(Decision::Deny(deny)) = record.decision() else {
            panic!("{record:?} is no deny");
        };
        assert_eq!(deny.denied(), Some(products(3)));
        assert_eq!(deny.shape(), Shape::Hidden);
        assert!(deny.facts().eq([fact(5)]));
    }
}

#[test]
fn f_stays_pending() {
    let sheet = built(&D);
    let mut out = [0; ROOM];
    let record = partial_evaluate(&sheet, 0, five(Presence::Unknown).as_bytes(), &mut out).unwrap();
    assert_eq!(record, [&[0xF000_0000], &sheet[..]].concat());
    let typed = Record::read(record).unwrap();
    assert_eq!(typed.status(), Status::Pending);
    assert_eq!(typed.decision(), None);
    assert_eq!(typed.consulted().len(), 0);
    assert_eq!(typed.tree(), read::Sheet::read(&sheet).unwrap().policy());
    let named = vierskof::required_residual_facts(record).unwrap();
    assert!(named.iter().eq([fact(5)]));
    let mut narrowed = [0; ROOM];
    let narrowed = narrow_residual(record, 0, five(Presence::Present).as_bytes(), &mut narrowed);
    assert_eq!(narrowed, Ok(&sitting(&D, &five(Presence::Present))[..]));
}

#[test]
fn g_meets_and_joins() {
    let permits = [Policy::Permit(products(3)), Policy::Permit(products(6))];
    for (policy, outcome) in [(Policy::All(&permits), 2), (Policy::Any(&permits), 7)] {
        let record = sitting(&policy, &FactTable::new());
        assert_eq!(record, [0xE000_0000, 0xC000_0000 | outcome, 0]);
        assert_eq!(u32::from(permit(&record).outcome().bits()), outcome);
    }
}

const SEVEN: [vierskof::Obligation; 1] = [vierskof::Obligation::new(7).unwrap()];

/// H's sheet.
const H: Policy = Policy::All(&[
    Policy::Grant(Grant::new(products(1), &Condition::Has(FIVE)).obligations(&SEVEN)),
    Policy::Permit(products(1)),
]);

#[test]
fn h_loses_an_obligation_on_the_way() {
    let one = sitting(&H, &five(Presence::Present));
    assert!(permit(&one).obligations().eq(SEVEN));

    let (mut out, mut completed) = ([0; ROOM], [0; ROOM]);
    let sheet = built(&H);
    let pending =
        partial_evaluate(&sheet, 0, five(Presence::Unknown).as_bytes(), &mut out).unwrap();
    assert_eq!(vierskof::carries_obligation(pending), Ok(true));
    let present = five(Presence::Present);
    let staged = complete_residual(pending, 0, present.as_bytes(), &mut completed).unwrap();
    assert_eq!(vierskof::is_permit_constant(staged), Ok(true));
    assert_eq!(vierskof::is_deny_constant(staged), Ok(false));
    assert_eq!(permit(staged).outcome(), permit(&one).outcome());
    assert_eq!(permit(staged).obligations().len(), 0);
}

#[test]
fn h_keeps_it_in_sheet_order() {
    let sheet = built(&H);
    let [mut out, mut again, mut narrowed, mut completed] = [[0; ROOM]; 4];
    let (unknown, present) = (five(Presence::Unknown), five(Presence::Present));
    let pending = partial_evaluate_in_order(&sheet, 0, unknown.as_bytes(), &mut out).unwrap();
    let permit_node = [0xC000_0001, 0x0000_0000];
    assert_eq!(pending[1..], [&sheet[..5], &permit_node].concat());
    let same = narrow_residual_in_order(pending, 0, unknown.as_bytes(), &mut again);
    assert_eq!(same, Ok(pending));
    let one = sitting(&H, &present);
    let staged = narrow_residual_in_order(pending, 0, present.as_bytes(), &mut narrowed);
    assert_eq!(staged, Ok(&one[..]));
    let staged = complete_residual(pending, 0, present.as_bytes(), &mut completed);
    assert_eq!(staged, Ok(&one[..]));
    // The output as it was, where there is no room.
    let mut short = [9; 7];
    let refused = partial_evaluate_in_order(&sheet, 0, unknown.as_bytes(), &mut short);
    assert_eq!(refused, Err(vierskof::Refusal::Room));
    assert_eq!(short, [9; 7]);
}

/// The number stands in the lead of what a call writes, and nowhere else.
#[test]
fn records_carry_their_sheets_number() {
    let [mut reduced, mut narrowed, mut completed] = [[0; ROOM]; 3];
    let (unknown, present) = (five(Presence::Unknown), five(Presence::Present));
    let sheet = built(&D);
    let pending = partial_evaluate(&sheet, 7, unknown.as_bytes(), &mut reduced).unwrap();
    assert_eq!(pending, [&[0xF000_7000], &sheet[..]].concat());
    assert_eq!(Record::read(pending).map(Record::number), Ok(7));
    let permit = narrow_residual(pending, 7, present.as_bytes(), &mut narrowed).unwrap();
    let expected = [0xE000_7001, 0x4005_0000, 0xC000_0003, 1, 0x0005_0000];
    assert_eq!(permit, expected);
    let deny = complete_residual(pending, 7, &[], &mut completed).unwrap();
    let expected = [0xE000_7001, 0xC005_0000, 0xDC00_0003, 0, 1, 0x0005_0000];
    assert_eq!(deny, expected);

    for number in [0, 1, 7, 4_095, 4_096, u16::MAX] {
        let [mut first, mut second, mut third] = [[0; ROOM]; 3];
        let lead = |kind: u32| kind << 28 | u32::from(number) << 12;
        let direct = evaluate(&[0x6000_0001], number, &[], &mut first);
        assert_eq!(direct, Ok(&[lead(14), 0xC000_0001, 0][..]));
        let pending = partial_evaluate_in_order(&sheet, number, unknown.as_bytes(), &mut second);
        let pending = pending.unwrap();
        assert_eq!(pending[0], lead(15));
        assert_eq!(Record::read(pending).map(Record::number), Ok(number));
        let same = narrow_residual_in_order(pending, number, unknown.as_bytes(), &mut third);
        assert_eq!(same, Ok(pending));
    }
}
