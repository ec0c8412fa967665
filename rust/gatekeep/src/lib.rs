//! The original evaluation core of gatekeep, built from its published files as they are.
//!
//! `build.rs` finds the files. The rest of the original's crate isn't published with them, so some
//! of what they offer has no user here.

#![allow(dead_code)]

include!(concat!(env!("OUT_DIR"), "/modules.rs"));
