//! A stand-in for the crate of this name, with the two items that the original names.
//!
//! Only `Policy::hash` calls it, which no evaluation does. It refuses, so that no wrong hash can
//! come of it.

use serde::Serialize;

/// The only answer that the stand-in gives.
#[derive(Clone, Copy, Debug, PartialEq, Eq)]
pub struct Error;

/// Refuses to serialize.
///
/// # Errors
///
/// Always.
pub const fn to_allocvec<T: Serialize + ?Sized>(_value: &T) -> Result<Vec<u8>, Error> {
    Err(Error)
}
