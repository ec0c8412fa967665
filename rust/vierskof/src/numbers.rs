//! Numbers that can't be out of their range.

use core::error::Error;
use core::fmt;

/// A number that is out of the range of the type it was to become.
#[derive(Clone, Copy, Debug, PartialEq, Eq, Hash)]
pub struct OutOfRange {
    range: &'static str,
}

impl OutOfRange {
    pub(crate) const fn new(range: &'static str) -> Self {
        Self { range }
    }
}

impl fmt::Display for OutOfRange {
    fn fmt(&self, f: &mut fmt::Formatter<'_>) -> fmt::Result {
        f.pad(self.range)
    }
}

impl Error for OutOfRange {}

macro_rules! number {
    ($(#[$doc:meta])* $name:ident($kind:ident), $most:literal, $range:literal) => {
        $(#[$doc])*
        #[derive(Clone, Copy, Debug, PartialEq, Eq, PartialOrd, Ord, Hash)]
        pub struct $name($kind);

        impl $name {
            /// The highest there is.
            pub const MAX: Self = Self($most);

            /// The one with this number, if there is one.
            #[must_use]
            pub const fn new(number: $kind) -> Option<Self> {
                if number <= $most { Some(Self(number)) } else { None }
            }

            /// The one in the low bits of a field.
            pub(crate) const fn of_field(field: u32) -> Self {
                Self((field & $most) as $kind)
            }

            /// Its number.
            #[must_use]
            pub const fn number(self) -> $kind {
                self.0
            }
        }

        impl fmt::Display for $name {
            fn fmt(&self, f: &mut fmt::Formatter<'_>) -> fmt::Result {
                self.0.fmt(f)
            }
        }

        impl From<$name> for $kind {
            fn from(number: $name) -> Self {
                number.0
            }
        }

        impl TryFrom<$kind> for $name {
            type Error = OutOfRange;

            fn try_from(number: $kind) -> Result<Self, OutOfRange> {
                Self::new(number).ok_or(OutOfRange::new($range))
            }
        }
    };
}

number! {
    /// A fact, 0 to 1,023: what a condition asks for.
    ///
    /// ```
    /// use vierskof::Fact;
    ///
    /// const MEMBER: Fact = Fact::new(5).unwrap();
    /// assert_eq!(MEMBER.number(), 5);
    /// assert_eq!(MEMBER.to_string(), "5");
    /// assert_eq!(Fact::new(1_024), None);
    /// let error = Fact::try_from(1_024).unwrap_err();
    /// assert_eq!(error.to_string(), "a fact is a number from 0 to 1023");
    /// ```
    Fact(u16), 1_023, "a fact is a number from 0 to 1023"
}
number! {
    /// An obligation, 0 to 63: what whoever is permitted has to do.
    ///
    /// ```
    /// use vierskof::Obligation;
    ///
    /// assert_eq!(Obligation::new(63), Some(Obligation::MAX));
    /// assert_eq!(Obligation::new(64), None);
    /// ```
    Obligation(u8), 63, "an obligation is a number from 0 to 63"
}
number! {
    /// A label, 0 to 32,767: the name of a grant's clause.
    ///
    /// ```
    /// use vierskof::Label;
    ///
    /// assert_eq!(Label::new(32_767), Some(Label::MAX));
    /// assert_eq!(Label::new(32_768), None);
    /// ```
    Label(u16), 32_767, "a label is a number from 0 to 32767"
}
number! {
    /// A reason, 0 to 32,767: what a grant's deny gives as its cause.
    ///
    /// ```
    /// use vierskof::Reason;
    ///
    /// assert_eq!(Reason::new(32_767), Some(Reason::MAX));
    /// assert_eq!(Reason::new(32_768), None);
    /// ```
    Reason(u16), 32_767, "a reason is a number from 0 to 32767"
}
