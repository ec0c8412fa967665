//! Document 01's calls on words and bytes, answered by the original evaluation core; and those that it lacks, by implementations of their own.
//!
//! [`words`] is document 01's format, [`reference`] the calls on sheets and records, [`listing`]
//! the listing's bytes; [`register`], [`join`], [`windows`] and [`tight`] answer for the register of
//! sheets, the join of tables, retention windows and the tight form, which the original lacks; [`levels`] are outcome tables,
//! by which the original answers too, and [`batch`] is a desk that has it decide many requests.
//! [`worked`] has document 01's worked sheets as cases, [`generate`] makes cases from a seed;
//! [`repeats`] tells how much of request 3 is in them, and [`silence`] how much of request 9; [`answers`] and [`rows`] write cases with their answers. With the feature `proved`, `proved` compares the proved calls with them.

pub mod answers;
pub mod batch;
pub mod case;
pub mod generate;
pub mod join;
pub mod levels;
pub mod listing;
pub mod narrow;
pub mod products;
#[cfg(feature = "proved")]
pub mod proved;
pub mod reference;
pub mod refusal;
pub mod register;
pub mod repeats;
pub mod rows;
pub mod silence;
pub mod tight;
pub mod windows;
pub mod words;
pub mod worked;
