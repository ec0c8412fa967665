//! A first sheet: built, decided and read.

use vierskof::build::{Condition, Grant, Policy};
use vierskof::read::{Decision, Record};
use vierskof::{Fact, FactTable, Presence, Products, evaluate, room};

const LICENCE: Fact = Fact::new(5).unwrap();

fn main() -> Result<(), Box<dyn std::error::Error>> {
    // Products 0 and 1 for whoever has a licence; for all others they don't exist.
    let grant = Grant::new(Products::from_bits(0x0003), &Condition::Has(LICENCE)).hidden();
    let mut words = [0; 3];
    let sheet = Policy::Grant(grant).write(&mut words)?;

    let facts = FactTable::new().with(LICENCE, Presence::Present);
    let mut out = [0; room(3)];
    let record = evaluate(sheet.words(), 0, facts.as_bytes(), &mut out)?;
    match Record::read(record)?.decision() {
        Some(Decision::Permit(permit)) => println!("permit {}", permit.outcome()),
        Some(Decision::Deny(deny)) => println!("deny, {}", deny.shape()),
        None => println!("pending"),
    }
    Ok(())
}
