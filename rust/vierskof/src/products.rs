//! Sets of products.

use core::fmt;
use core::ops::{BitAnd, BitOr};

/// A set of the sixteen products, one bit each, product 0 the lowest: what a policy permits.
///
/// In what is decided by [`Levels`](crate::Levels) the same sixteen bits are the number of a level: [`from_bits`](Self::from_bits) and
/// [`bits`](Self::bits) take and give it. Meet, join, `&` and `|` of this type are those of sets and say nothing of levels: ask
/// [`Levels::meet`](crate::Levels::meet) and [`Levels::join`](crate::Levels::join).
///
/// ```
/// use vierskof::Products;
///
/// let some = Products::from_bits(0x0003);
/// let others = Products::from_bits(0x0006);
/// assert_eq!((some & others).bits(), 0x0002);
/// assert_eq!((some | others).bits(), 0x0007);
/// assert!(some.contains(0) && !some.contains(2));
/// assert_eq!(some.to_string(), "0003");
/// assert_eq!(Products::only(1), Some(some & others));
/// ```
#[derive(Clone, Copy, Debug, Default, PartialEq, Eq, Hash)]
pub struct Products(u16);

impl Products {
    /// No product: the unit of [`join`](Self::join).
    pub const NONE: Self = Self(0);
    /// All sixteen: the unit of [`meet`](Self::meet).
    pub const ALL: Self = Self(0xFFFF);

    /// The set whose bits are these.
    #[must_use]
    pub const fn from_bits(bits: u16) -> Self {
        Self(bits)
    }

    /// The set of this product alone; there are products 0 to 15.
    #[must_use]
    pub const fn only(product: u8) -> Option<Self> {
        if product < 16 {
            Some(Self(1 << product))
        } else {
            None
        }
    }

    /// The bits.
    #[must_use]
    pub const fn bits(self) -> u16 {
        self.0
    }

    /// The products in both.
    #[must_use]
    pub const fn meet(self, other: Self) -> Self {
        Self(self.0 & other.0)
    }

    /// The products in either.
    #[must_use]
    pub const fn join(self, other: Self) -> Self {
        Self(self.0 | other.0)
    }

    /// Whether there is no product in it.
    #[must_use]
    pub const fn is_empty(self) -> bool {
        self.0 == 0
    }

    /// Whether the product is in it; one past 15 is in no set.
    #[must_use]
    pub const fn contains(self, product: u8) -> bool {
        product < 16 && self.0 >> product & 1 == 1
    }
}

impl BitAnd for Products {
    type Output = Self;

    fn bitand(self, other: Self) -> Self {
        self.meet(other)
    }
}

impl BitOr for Products {
    type Output = Self;

    fn bitor(self, other: Self) -> Self {
        self.join(other)
    }
}

/// The join of all.
impl FromIterator<Products> for Products {
    fn from_iter<I: IntoIterator<Item = Self>>(sets: I) -> Self {
        sets.into_iter().fold(Self::NONE, Self::join)
    }
}

/// Four hexadecimal digits, as in listings.
impl fmt::Display for Products {
    fn fmt(&self, f: &mut fmt::Formatter<'_>) -> fmt::Result {
        write!(f, "{:04X}", self.0)
    }
}
