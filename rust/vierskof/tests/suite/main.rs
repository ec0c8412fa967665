//! Tests of the crate through its public interface.

mod batch;
mod build;
mod example;
mod facts;
mod header;
mod join;
mod levels;
mod linking;
mod numbers;
mod read;
mod refusals;
mod tight;
mod windows;
mod worked;

use vierskof::{Fact, Label, Obligation, Products, Reason};

fn fact(number: u16) -> Fact {
    Fact::new(number).expect("a fact")
}

fn obligation(number: u8) -> Obligation {
    Obligation::new(number).expect("an obligation")
}

fn label(number: u16) -> Label {
    Label::new(number).expect("a label")
}

fn reason(number: u16) -> Reason {
    Reason::new(number).expect("a reason")
}

const fn products(bits: u16) -> Products {
    Products::from_bits(bits)
}
