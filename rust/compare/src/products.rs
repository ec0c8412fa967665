//! The outcome type of the comparison: a set of sixteen products, or within [`by_levels`](crate::levels::by_levels) a level.

use gatekeep::Lattice;

use crate::levels::{self, Table};

/// A set of products, one bit each; or, where an outcome table is given, the number of a level.
#[derive(Clone, Copy, Debug, PartialEq, Eq)]
pub struct Products(pub u16);

impl Products {
    /// No product.
    pub const NONE: Self = Self(0);
    /// All sixteen.
    pub const ALL: Self = Self(0xFFFF);
}

/// Meet and join by the table that is given. The calls of the comparison ask for neither end, of which a table names none.
impl Lattice for Products {
    fn meet(&self, other: &Self) -> Self {
        let of = |table: &Table| table.meet(self.0, other.0);
        Self(levels::given(of).unwrap_or(self.0 & other.0))
    }

    fn join(&self, other: &Self) -> Self {
        let of = |table: &Table| table.join(self.0, other.0);
        Self(levels::given(of).unwrap_or(self.0 | other.0))
    }

    fn top() -> Self {
        assert_eq!(levels::given(|_| ()), None, "no call asks for the greatest");
        Self::ALL
    }

    fn bottom() -> Self {
        assert_eq!(levels::given(|_| ()), None, "no call asks for the least");
        Self::NONE
    }
}
