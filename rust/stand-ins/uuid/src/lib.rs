//! A stand-in for the crate of this name, with the one item that the original names.
//!
//! Only `DecisionAuditId::generate` calls it, which no evaluation does.

use std::fmt;

/// An identifier that nothing makes.
#[derive(Clone, Copy, Debug)]
pub struct Uuid(());

impl Uuid {
    /// Makes no identifier.
    ///
    /// # Panics
    ///
    /// Always: audit identities are outside of what is compared.
    #[must_use]
    pub fn now_v7() -> Self {
        unimplemented!("audit identities are outside of what is compared")
    }
}

impl fmt::Display for Uuid {
    fn fmt(&self, f: &mut fmt::Formatter<'_>) -> fmt::Result {
        f.write_str("stand-in")
    }
}
