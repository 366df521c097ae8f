//! The four kinds of number, kept apart by type.

use std::fmt;

macro_rules! number {
    ($(#[$doc:meta])* $name:ident, $word:literal) => {
        $(#[$doc])*
        #[derive(Clone, Copy, Debug, PartialEq, Eq, PartialOrd, Ord, Hash)]
        pub struct $name(pub u32);

        impl fmt::Display for $name {
            fn fmt(&self, f: &mut fmt::Formatter<'_>) -> fmt::Result {
                write!(f, concat!($word, " {}"), self.0)
            }
        }
    };
}

number!(
    /// A depot: 0 to D − 1.
    Depot,
    "depot"
);
number!(
    /// A shelf of a depot: 0 to P − 1.
    Shelf,
    "shelf"
);
number!(
    /// A bearing: 0 to K − 1. It lies on shelf `k mod P` of every depot.
    Bearing,
    "bearing"
);
number!(
    /// A crew: 0 to C − 1.
    Crew,
    "crew"
);
