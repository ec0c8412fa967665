//! Proved access decisions: a safe interface to the static library `libvierskof.a`.
//!
//! A policy sheet says who may read which products, with which obligations. A sheet is decided in one
//! sitting, or in stages: whoever holds some of the facts reduces it and passes on the rest. Every
//! call is proved to end without fault, for any words and bytes, in the answer that the rules give;
//! and facts brought in stages are proved to end in the effect and the products of one sitting.
//!
//! The crate allocates nothing, and its callers need no unsafe code. Sheets and records are 32-bit
//! words, fact tables are bytes, and each call writes its record into an output that its caller
//! lends. [`build`] makes a sheet's words, [`read`] gives words back as typed values, and
//! [`FactTable`] holds what is known. [`in_force`] tells which sheet of a register rules for a group
//! on a day, [`evaluate_batch`] decides many requests by the sheets in force, [`join_tables`] makes one
//! table of two, [`apply_windows`] sets facts by the age of a reading, and [`pack_sheet`] and
//! [`pack_record`] make a tight form for a narrow link. Networks that grade access by levels, and not
//! by products, give the calls their [`Levels`].
//!
//! No call blocks, allocates, keeps state or panics, and none needs more than 256 KiB of stack: on a
//! thread with less, a deep or long sheet may overflow it. Calls on separate outputs may run at the
//! same time.
//!
//! # In stages
//!
//! A field relay reduces the sheet with the facts it has, the district narrows the record with its
//! own, and the archive completes it. The record carries the sheet's number on the way, so that
//! neither takes it for one of another sheet.
//!
//! ```
//! use vierskof::Presence::{Absent, Present};
//! use vierskof::build::{Condition, Grant, Policy};
//! use vierskof::read::{Decision, Record};
//! use vierskof::{Fact, FactTable, Obligation, Products};
//!
//! const CURATOR: Fact = Fact::new(0).unwrap();
//! const MEMBER: Fact = Fact::new(1).unwrap();
//! const SIGNED: Fact = Fact::new(2).unwrap();
//! const NAME_THE_SOURCE: Obligation = Obligation::new(7).unwrap();
//! const HOURLY_MEANS: Products = Products::only(1).unwrap();
//!
//! # fn main() -> Result<(), Box<dyn core::error::Error>> {
//! // Curators may read hourly means; so may members who have signed, if they name the source.
//! let curator = Condition::Has(CURATOR);
//! let both = [Condition::Has(MEMBER), Condition::Has(SIGNED)];
//! let signed_member = Condition::All(&both);
//! let grants = [
//!     Policy::Grant(Grant::new(HOURLY_MEANS, &curator)),
//!     Policy::Grant(Grant::new(HOURLY_MEANS, &signed_member).obligations(&[NAME_THE_SOURCE])),
//! ];
//! let mut words = [0; 32];
//! let sheet = Policy::Any(&grants).write(&mut words)?;
//! const NUMBER: u16 = 7;
//!
//! // Enough for every call of the chain.
//! const ROOM: usize = vierskof::room(32);
//!
//! // The relay knows that this is no curator. All else is Unknown to it.
//! let facts = FactTable::unknown().with(CURATOR, Absent);
//! let mut out = [0; ROOM];
//! let relayed = vierskof::partial_evaluate(sheet.words(), NUMBER, facts.as_bytes(), &mut out)?;
//!
//! // The district has the list of members.
//! let facts = FactTable::unknown().with(MEMBER, Present);
//! let mut out = [0; ROOM];
//! let narrowed = vierskof::narrow_residual(relayed, NUMBER, facts.as_bytes(), &mut out)?;
//! assert!(vierskof::required_residual_facts(narrowed)?.iter().eq([SIGNED]));
//!
//! // The archive has everything. What it doesn't say isn't so.
//! let facts = FactTable::new().with(MEMBER, Present).with(SIGNED, Present);
//! let mut out = [0; ROOM];
//! let completed = vierskof::complete_residual(narrowed, NUMBER, facts.as_bytes(), &mut out)?;
//! let Some(Decision::Permit(permit)) = Record::read(completed)?.decision() else {
//!     panic!("signed members may read");
//! };
//! assert_eq!(permit.outcome(), HOURLY_MEANS);
//! assert!(permit.obligations().eq([NAME_THE_SOURCE]));
//!
//! // One sitting with the same facts has the same effect and products.
//! let mut out = [0; ROOM];
//! let sitting = vierskof::evaluate(sheet.words(), NUMBER, facts.as_bytes(), &mut out)?;
//! let Some(Decision::Permit(direct)) = Record::read(sitting)?.decision() else {
//!     panic!("signed members may read");
//! };
//! assert_eq!(direct.outcome(), permit.outcome());
//! # Ok(())
//! # }
//! ```
//!
//! Obligations and traces may differ from those of one sitting. Where the obligations and the shape of a
//! deny are wanted as well, [`partial_evaluate_in_order`] and [`narrow_residual_in_order`] take the place
//! of the first two calls. Either way no table may contradict the one that completes the record.
//!
//! # Only what is required
//!
//! A completion depends on the facts that its record requires, and on nothing else of its table. That
//! is proved, for any words: two known tables that read these facts alike, silence included, leave the
//! same record, or the same refusal. So the archive need not send the district all that it knows. It
//! asks which facts are required, and sends a table of these.
//!
//! ```
//! use vierskof::Presence::{Absent, Present};
//! use vierskof::{Fact, FactTable};
//!
//! const CURATOR: Fact = Fact::new(0).unwrap();
//! const SIGNED: Fact = Fact::new(5).unwrap();
//!
//! # fn main() -> Result<(), vierskof::Refusal> {
//! // A record of sheet 7 that waits for fact 5, and what the archive knows.
//! let record = [0xF000_7000, 0x8800_0003, 0x0000_0000, 0x2000_0005];
//! let archive = FactTable::new().with(CURATOR, Present).with(SIGNED, Present).with(Fact::MAX, Absent);
//!
//! // What the archive never entered it leaves out, so that the trace tells silence as its own would.
//! let required = vierskof::required_residual_facts(&record)?;
//! let entered = required.iter().filter_map(|fact| Some((fact, archive.observation(fact)?)));
//! let sent = FactTable::from_iter(entered);
//! assert_eq!(sent.as_bytes(), [0x00, 0x10]);
//!
//! // The district completes with these facts as the archive would with all of its own.
//! let (mut out, mut archived) = ([0; 8], [0; 8]);
//! let completed = vierskof::complete_residual(&record, 7, sent.as_bytes(), &mut out)?;
//! let by_all = vierskof::complete_residual(&record, 7, archive.as_bytes(), &mut archived)?;
//! assert_eq!(completed, by_all);
//! # Ok(())
//! # }
//! ```
//!
//! # By levels
//!
//! An outcome is a set of products, or the number of a level. What any two levels meet and join in is
//! said by [`Levels`], an outcome table, which the calls by levels are given: all of a chain the same one.
//!
//! ```
//! use vierskof::build::{Condition, Grant, Policy};
//! use vierskof::read::{Decision, Record};
//! use vierskof::{Fact, FactTable, Levels, Presence, Products};
//!
//! const PARTNER: Fact = Fact::new(5).unwrap();
//!
//! # fn main() -> Result<(), Box<dyn core::error::Error>> {
//! // Level 0 below 1 and 2, which can't be compared, and these below 3.
//! let meets = [0, 0, 0, 0, 0, 1, 0, 1, 0, 0, 2, 2, 0, 1, 2, 3];
//! let joins = [0, 1, 2, 3, 1, 1, 3, 3, 2, 3, 2, 3, 3, 3, 3, 3];
//! let levels = Levels::new(4, &[meets, joins].concat())?;
//! assert_eq!((levels.meet(1, 2), levels.join(1, 2)), (Some(0), Some(3)));
//!
//! // Everybody has level 1, and partners level 2 as well.
//! let partner = Condition::Has(PARTNER);
//! let arms = [
//!     Policy::Permit(Products::from_bits(1)),
//!     Policy::Grant(Grant::new(Products::from_bits(2), &partner)),
//! ];
//! let mut words = [0; 8];
//! let sheet = Policy::Any(&arms).write(&mut words)?;
//! let facts = FactTable::new().with(PARTNER, Presence::Present);
//! let mut out = [0; vierskof::room(8)];
//! let record = vierskof::evaluate_by_levels(&levels, sheet.words(), 0, facts.as_bytes(), &mut out)?;
//! let Some(Decision::Permit(permit)) = Record::read(record)?.decision() else {
//!     panic!("level 1 is everybody's");
//! };
//! assert_eq!(permit.outcome().bits(), 3);
//! # Ok(())
//! # }
//! ```
//!
//! # Refusals
//!
//! A call that can't answer says why by a [`Refusal`], and leaves its output as it was.
//!
//! ```
//! use vierskof::Refusal;
//!
//! let mut out = [0; 8];
//! let refused = vierskof::evaluate(&[], 0, &[], &mut out);
//! assert_eq!(refused, Err(Refusal::Length));
//! assert_eq!(Refusal::Length.number(), 1);
//! ```
//!
//! # Linking
//!
//! The static library is looked for in the folder that the environment variable `VIERSKOF_LIB_DIR`
//! names; a relative one begins where cargo is called. Without it the build has `rt lib`, in
//! `crates/vierskof`, prove and make it, which takes minutes the first time. It is for x86-64 Linux.
//!
//! # What may grow
//!
//! [`Refusal`], [`read::Reading`], [`build::Unwritable`] and the values that [`build`] takes are open
//! lists, since later rules add to them. [`Presence`], [`Shape`], [`Reply`] and the nodes that [`read`]
//! gives are closed: a program that tells them apart should not compile when there is one more.
#![no_std]

mod batch;
mod c;
mod calls;
mod facts;
mod levels;
mod numbers;
mod products;
mod refusal;
mod register;
mod shape;
mod windows;

pub mod build;
pub mod read;

pub use batch::{Replies, Reply, Request, SheetList, evaluate_batch, evaluate_batch_by_levels};
pub use calls::{
    apply_windows, carries_obligation, complete_residual, evaluate, is_deny_constant,
    is_permit_constant, join_tables, narrow_residual, narrow_residual_in_order, pack_record,
    pack_sheet, partial_evaluate, partial_evaluate_in_order, required_facts,
    required_residual_facts, unpack_record, unpack_sheet,
};
pub use facts::{FactSet, FactSetIter, FactTable, Presence};
pub use levels::{
    Levels, complete_residual_by_levels, evaluate_by_levels, narrow_residual_by_levels,
    narrow_residual_in_order_by_levels, partial_evaluate_by_levels,
    partial_evaluate_in_order_by_levels,
};
pub use numbers::{Fact, Label, Obligation, OutOfRange, Reason};
pub use products::Products;
pub use refusal::Refusal;
pub use register::{Entry, in_force};
pub use shape::Shape;
pub use windows::{Ages, Date, Window};

/// Words of the longest sheet.
pub const SHEET_WORDS: usize = 4_096;
/// Words of the longest record.
pub const RECORD_WORDS: usize = 16_384;
/// Bytes of the longest table.
pub const TABLE_BYTES: usize = 256;
/// Nodes on the longest way down a tree, grant and condition together.
pub const LEVELS: usize = 32;
/// The most arms, facts or consulted entries of one list.
pub const LIST: usize = 4_095;
/// The most obligations of a grant.
pub const GRANT_OBLIGATIONS: usize = 64;
/// The most obligations of a permit that a record stores.
pub const TRACE_OBLIGATIONS: usize = 127;
/// Words of the longest register, two an entry.
pub const REGISTER_WORDS: usize = 512;
/// Words of a request of a batch.
pub const REQUEST_WORDS: usize = 66;
/// The most requests of a batch.
pub const BATCH_REQUESTS: usize = 64;
/// The most windows of one list.
pub const WINDOWS: usize = 32;
/// The most bytes that are unpacked.
pub const TIGHT_BYTES: usize = 65_536;

/// An output that is room enough for every call on a sheet of so many words and on the records that come of it.
///
/// With such outputs [`Refusal::Room`] is proved not to come.
///
/// ```
/// assert_eq!(vierskof::room(vierskof::SHEET_WORDS), 12_801);
/// ```
#[must_use]
pub const fn room(sheet_words: usize) -> usize {
    sheet_words.saturating_mul(3).saturating_add(513)
}

/// An output, in bytes, that is room enough for the tight form of so many words: four bytes a word, which it is proved never to be longer than.
///
/// ```
/// assert_eq!(vierskof::tight_room(vierskof::RECORD_WORDS), vierskof::TIGHT_BYTES);
/// ```
#[must_use]
pub const fn tight_room(words: usize) -> usize {
    words.saturating_mul(4)
}
