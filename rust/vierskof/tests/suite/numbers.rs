//! Numbers and products.

use std::collections::BTreeSet;

use vierskof::{Fact, Label, Obligation, Products, Reason};

use super::products;

#[test]
fn numbers_end_where_the_rules_say() {
    for number in 0..=u16::MAX {
        assert_eq!(Fact::new(number).is_some(), number < 1_024);
        assert_eq!(Fact::try_from(number).is_ok(), number < 1_024);
        assert_eq!(Label::new(number).is_some(), number < 32_768);
        assert_eq!(Label::try_from(number).is_ok(), number < 32_768);
        assert_eq!(Reason::new(number).is_some(), number < 32_768);
        assert_eq!(Reason::try_from(number).is_ok(), number < 32_768);
    }
    for number in 0..=u8::MAX {
        assert_eq!(Obligation::new(number).is_some(), number < 64);
        assert_eq!(Obligation::try_from(number).is_ok(), number < 64);
    }
}

#[test]
fn numbers_are_kept_and_shown() {
    assert!((0..1_024).all(|number| Fact::new(number).map(u16::from) == Some(number)));
    assert!((0..64).all(|number| Obligation::new(number).map(u8::from) == Some(number)));
    assert_eq!(format!("{:>5}", Fact::MAX), " 1023");
    assert_eq!(Obligation::MAX.to_string(), "63");
    assert_eq!(Label::MAX.to_string(), "32767");
    assert_eq!(Reason::MAX.to_string(), "32767");
    let errors = [
        Fact::try_from(1_024).unwrap_err(),
        Label::try_from(32_768).unwrap_err(),
        Reason::try_from(32_768).unwrap_err(),
        Obligation::try_from(64).unwrap_err(),
    ];
    let sentences: BTreeSet<String> = errors.iter().map(ToString::to_string).collect();
    assert_eq!(sentences.len(), errors.len());
}

#[test]
fn products_are_bits() {
    for product in 0..=u8::MAX {
        let only = Products::only(product);
        assert_eq!(only.is_some(), product < 16);
        assert_eq!(Products::ALL.contains(product), product < 16);
        assert!(!Products::NONE.contains(product));
        let held = |other| only.is_some_and(|only| only.contains(other));
        assert!((0..=u8::MAX).all(|other| held(other) == (product < 16 && other == product)));
    }
    let all: Products = (0..16).filter_map(Products::only).collect();
    assert_eq!(all, Products::ALL);
    assert_eq!(Products::from_iter([]), Products::NONE);
    assert_eq!(Products::default(), Products::NONE);
}

#[test]
fn products_meet_and_join() {
    let (some, others) = (products(0x00F3), products(0x0F36));
    assert_eq!(some.meet(others), products(0x0032));
    assert_eq!(some.join(others), products(0x0FF7));
    assert_eq!(some & Products::ALL, some);
    assert_eq!(some | Products::NONE, some);
    assert!(!some.is_empty() && (some & Products::NONE).is_empty());
    assert_eq!(products(0xAB).to_string(), "00AB");
}
