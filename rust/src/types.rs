//! The identifiers. A TEID is never given where an SEID is wanted.

use core::fmt;
use core::ops::Deref;

/// A session endpoint identifier, 64 bits.
#[derive(Debug, Clone, Copy, PartialEq, Eq, Hash, Default)]
pub struct Seid(pub u64);

/// A tunnel endpoint identifier, 32 bits.
#[derive(Debug, Clone, Copy, PartialEq, Eq, Hash, Default)]
pub struct Teid(pub u32);

/// What both identifiers have. `$shown` is the width of the printed form, `0x` and all digits.
macro_rules! identifier {
    ($name:ident, $number:ty, $shown:literal) => {
        impl $name {
            /// The identifier of this number.
            pub const fn new(value: $number) -> Self {
                Self(value)
            }

            /// Its number.
            pub const fn value(&self) -> $number {
                self.0
            }
        }

        impl From<$number> for $name {
            fn from(value: $number) -> Self {
                Self(value)
            }
        }

        impl From<$name> for $number {
            fn from(identifier: $name) -> Self {
                identifier.0
            }
        }

        impl Deref for $name {
            type Target = $number;

            fn deref(&self) -> &$number {
                &self.0
            }
        }

        impl fmt::Display for $name {
            fn fmt(&self, f: &mut fmt::Formatter<'_>) -> fmt::Result {
                write!(f, "{:#0width$X}", self.0, width = $shown)
            }
        }

        impl fmt::LowerHex for $name {
            fn fmt(&self, f: &mut fmt::Formatter<'_>) -> fmt::Result {
                fmt::LowerHex::fmt(&self.0, f)
            }
        }

        impl fmt::UpperHex for $name {
            fn fmt(&self, f: &mut fmt::Formatter<'_>) -> fmt::Result {
                fmt::UpperHex::fmt(&self.0, f)
            }
        }
    };
}

identifier!(Seid, u64, 18);
identifier!(Teid, u32, 10);
