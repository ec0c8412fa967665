//! How a deny is shown.

use core::fmt;

/// How a deny is to be shown to whoever asked.
#[derive(Clone, Copy, Debug, Default, PartialEq, Eq, Hash)]
pub enum Shape {
    /// As a deny.
    #[default]
    Forbidden,
    /// As if there were nothing to ask for.
    Hidden,
}

/// `forbidden` or `hidden`, as in listings.
impl fmt::Display for Shape {
    fn fmt(&self, f: &mut fmt::Formatter<'_>) -> fmt::Result {
        f.pad(match self {
            Self::Forbidden => "forbidden",
            Self::Hidden => "hidden",
        })
    }
}
