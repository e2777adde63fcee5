//! Enumerations with the header's numbers behind them.

/// An enumeration from its variants in the order of their numbers, each with
/// its number and the words it is shown by.
macro_rules! numbered {
    (
        $(#[$about:meta])*
        pub enum $name:ident {
            $($(#[$told:meta])* $variant:ident = $number:literal, $words:literal;)*
        }
    ) => {
        $(#[$about])*
        #[derive(Clone, Copy, Debug, PartialEq, Eq, PartialOrd, Ord, Hash)]
        #[repr(u32)]
        pub enum $name {
            $($(#[$told])* $variant = $number,)*
        }

        impl $name {
            /// All, in the order of their numbers.
            pub const ALL: [$name; [$($number),*].len()] = [$($name::$variant),*];

            /// The header's number.
            #[must_use]
            pub const fn number(self) -> u32 {
                self as u32
            }

            /// The one with this number, if there is one.
            #[must_use]
            pub fn from_number(number: u32) -> Option<$name> {
                $name::ALL.into_iter().find(|one| one.number() == number)
            }
        }

        impl core::fmt::Display for $name {
            fn fmt(&self, out: &mut core::fmt::Formatter<'_>) -> core::fmt::Result {
                out.pad(match self {
                    $($name::$variant => $words,)*
                })
            }
        }
    };
}

pub(crate) use numbered;
