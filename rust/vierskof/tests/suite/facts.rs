//! Fact tables and sets.

use vierskof::{Fact, FactSet, FactTable, Presence, Refusal, TABLE_BYTES};

use super::fact;

fn every_fact() -> impl Iterator<Item = Fact> {
    (0..1_024).map(fact)
}

#[test]
fn a_new_table_says_nothing() {
    let table = FactTable::new();
    assert_eq!(table.as_bytes(), []);
    assert!(table.is_known());
    assert!(every_fact().all(|fact| table.presence(fact) == Presence::Absent));
    assert!(every_fact().all(|fact| table.observation(fact).is_none()));
    assert_eq!(table, FactTable::default());
    assert_eq!(format!("{table:?}"), "FactTable of 0 {}");
}

#[test]
fn an_unknown_table_leaves_every_fact_open() {
    let table = FactTable::unknown();
    assert!(every_fact().all(|fact| table.presence(fact) == Presence::Unknown));
    assert!(!table.is_known());
    let bytes = [0xAA; TABLE_BYTES];
    assert_eq!(table.as_bytes(), bytes);
    assert_eq!(FactTable::from_bytes(&bytes), Ok(table.clone()));
    let all = every_fact().map(|fact| (fact, Presence::Unknown));
    assert_eq!(all.collect::<FactTable>(), table);
    // A relay that holds nothing leaves the whole sheet open, where an empty table decides it.
    let sheet = [0x8800_0003, 0, 0x2000_03FF];
    let (mut open, mut decided) = ([0; 8], [0; 8]);
    let open = vierskof::partial_evaluate(&sheet, 0, table.as_bytes(), &mut open);
    assert_eq!(open, Ok(&[0xF000_0000, sheet[0], sheet[1], sheet[2]][..]));
    let empty = FactTable::new();
    let decided = vierskof::partial_evaluate(&sheet, 0, empty.as_bytes(), &mut decided);
    assert_eq!(decided.unwrap()[0], 0xE000_0001);
}

#[test]
fn each_fact_has_its_own_field() {
    for (set, presence) in every_fact().zip([Presence::Present, Presence::Unknown].iter().cycle()) {
        let table = FactTable::new().with(set, *presence);
        let said = every_fact().filter(|&fact| table.presence(fact) != Presence::Absent);
        assert!(said.eq([set]));
        assert_eq!(table.presence(set), *presence);
        assert_eq!(table.as_bytes().len(), usize::from(set.number()) / 4 + 1);
    }
}

#[test]
fn fields_stand_as_the_rules_say() {
    let present = |number| FactTable::new().with(fact(number), Presence::Present);
    assert_eq!(present(0).as_bytes(), [0x40]);
    assert_eq!(present(3).as_bytes(), [0x01]);
    assert_eq!(present(5).as_bytes(), [0x00, 0x10]);
    let last = present(1_023).with(fact(1_020), Presence::Unknown);
    assert_eq!(last.as_bytes().len(), TABLE_BYTES);
    assert_eq!(last.as_bytes()[255], 0x81);
    let shown = "FactTable of 1024 {1020: Unknown, 1023: Present}";
    assert_eq!(format!("{last:?}"), shown);
}

#[test]
fn what_is_said_last_holds() {
    let (first, last) = (fact(0), Fact::MAX);
    let mut table = FactTable::new();
    table
        .set(first, Presence::Unknown)
        .set(last, Presence::Unknown);
    assert!(!table.is_known());
    table
        .set(first, Presence::Present)
        .set(last, Presence::Absent);
    assert!(table.is_known());
    assert_eq!(table.as_bytes()[0], 0x40);
    assert_eq!(table.as_bytes()[1..], [0; TABLE_BYTES - 1]);
    let lower = FactTable::new()
        .with(last, Presence::Present)
        .with(first, Presence::Absent);
    assert_eq!(lower.as_bytes().len(), TABLE_BYTES);
    let twice = [(first, Presence::Unknown), (first, Presence::Present)];
    let last_said = FactTable::new().with(first, Presence::Present);
    assert_eq!(twice.into_iter().collect::<FactTable>(), last_said);
}

#[test]
fn bytes_are_read() {
    let bytes: Vec<u8> = (0..256)
        .map(|at| [0x00, 0x12, 0x84, 0x96][at % 4])
        .collect();
    let table = FactTable::from_bytes(&bytes).expect("a table");
    assert_eq!(table.as_bytes(), bytes);
    for fact in every_fact() {
        let byte = bytes[usize::from(fact.number() / 4)];
        let expected = match byte >> (6 - 2 * (fact.number() % 4)) & 3 {
            0 => Presence::Absent,
            1 => Presence::Present,
            _ => Presence::Unknown,
        };
        assert_eq!(table.presence(fact), expected);
        assert_eq!(table.observation(fact), Some(expected));
    }
    let again = every_fact().map(|fact| (fact, table.presence(fact)));
    assert_eq!(again.collect::<FactTable>(), table);
}

#[test]
fn a_table_keeps_its_length() {
    let short = FactTable::from_bytes(&[0x40]).expect("a table");
    let long = FactTable::from_bytes(&[0x40, 0, 0]).expect("a table");
    assert_eq!(AsRef::<[u8]>::as_ref(&long), [0x40, 0, 0]);
    assert_ne!(short, long);
    // An Absent entered at the end is no silence, whatever comes after it.
    let entered = FactTable::new()
        .with(fact(0), Presence::Present)
        .with(fact(9), Presence::Absent);
    assert_eq!(entered, long);
    assert_eq!(entered.with(fact(3), Presence::Absent), long);
    let taken_back = short
        .with(fact(9), Presence::Unknown)
        .with(fact(9), Presence::Absent);
    assert_eq!(taken_back, long);
    assert_eq!(format!("{long:?}"), "FactTable of 12 {0: Present}");
}

#[test]
fn past_its_last_byte_a_table_is_silent() {
    for length in [0, 1, 2, 255, 256] {
        let table = FactTable::from_bytes(&vec![0; length]).expect("a table");
        for fact in every_fact() {
            let entered = usize::from(fact.number()) < 4 * length;
            let said = entered.then_some(Presence::Absent);
            assert_eq!(table.observation(fact), said);
            assert_eq!(table.presence(fact), Presence::Absent);
        }
    }
    // Absent is entered as anything else is, and with it the facts of its byte.
    for set in [fact(0), fact(5), Fact::MAX] {
        let table = FactTable::new().with(set, Presence::Absent);
        let entered = every_fact().filter(|&fact| table.observation(fact).is_some());
        assert_eq!(entered.count(), usize::from(set.number()) / 4 * 4 + 4);
    }
}

#[test]
fn faulty_bytes_are_refused() {
    assert!(FactTable::from_bytes(&[0; 256]).is_ok());
    assert_eq!(
        FactTable::from_bytes(&[0xFF; 257]),
        Err(Refusal::TableLength)
    );
    for at in 0..4 {
        let mut bytes = [0x12, 0x84, 0x12];
        bytes[1] = 3 << (2 * at);
        assert_eq!(FactTable::from_bytes(&bytes), Err(Refusal::TableField));
    }
}

#[test]
fn known_bytes_are_known_to_the_calls() {
    let mut out = [0; 8];
    for fact in [fact(0), fact(3), fact(4), Fact::MAX] {
        for presence in [Presence::Absent, Presence::Present, Presence::Unknown] {
            let table = FactTable::new().with(fact, presence);
            let evaluated = vierskof::evaluate(&[0x7000_0000], 0, table.as_bytes(), &mut out);
            assert_eq!(evaluated.is_ok(), table.is_known());
            assert_eq!(table.is_known(), presence != Presence::Unknown);
        }
    }
}

#[test]
fn a_set_holds_its_facts() {
    let ends = [0, 1, 63, 64, 127, 128, 959, 960, 1_022, 1_023].map(fact);
    let set: FactSet = ends.into_iter().rev().collect();
    assert_eq!(set.len(), ends.len());
    assert!(set.iter().eq(ends));
    assert!(every_fact().all(|fact| set.contains(fact) == ends.contains(&fact)));
    assert_eq!(set.numbers()[0], 1 << 63 | 1 << 62 | 1);
    assert_eq!(set.numbers()[15], 1 << 63 | 3);
    assert_eq!(FactSet::from_numbers(*set.numbers()), set);
}

#[test]
fn sets_may_be_empty_or_full() {
    let empty = FactSet::default();
    assert!(empty.is_empty());
    assert_eq!(empty.iter().next(), None);
    let full = FactSet::from_numbers([u64::MAX; 16]);
    assert_eq!(full.len(), 1_024);
    assert!(full.iter().eq(every_fact()));
    assert_eq!(every_fact().collect::<FactSet>(), full);
}

#[test]
fn a_sets_iterator_knows_what_is_left() {
    let set: FactSet = every_fact().filter(|fact| fact.number() % 7 == 0).collect();
    let mut facts = set.iter();
    for left in (0..set.len()).rev() {
        assert!(facts.next().is_some());
        assert_eq!(facts.len(), left);
    }
    assert_eq!((facts.next(), facts.next()), (None, None));
    let mut sum = 0;
    for fact in &set {
        sum += usize::from(fact.number());
    }
    assert_eq!(sum, (0..1_024).step_by(7).sum());
    let some = FactSet::from_iter([fact(9), fact(2)]);
    assert_eq!(format!("{some:?}"), "{2, 9}");
}
