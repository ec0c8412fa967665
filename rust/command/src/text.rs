//! The text form: one node a line, what stands under a node indented by two spaces, `#` before a comment.
//!
//! Every sheet and every record has a text form, which [`Document`](crate::document::Document) is displayed as, and [`assemble`] gives the same words for it.

mod assemble;
mod explain;
mod fields;
mod line;
mod node;
mod pack;
mod show;

pub use assemble::{assemble, numbered};
pub use line::{Fault, quoted};
