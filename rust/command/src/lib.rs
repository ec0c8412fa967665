//! What the command `vierskof` does: sheets and records in a text form, and the proved calls on them.

#![allow(
    clippy::missing_errors_doc,
    clippy::missing_panics_doc,
    clippy::must_use_candidate,
    reason = "the command is its only caller"
)]

pub mod arguments;
pub mod batch;
pub mod document;
pub mod facts;
pub mod form;
pub mod given;
pub mod guide;
pub mod levels;
pub mod numbers;
pub mod register;
pub mod text;
pub mod tight;
pub mod windows;
pub mod work;
