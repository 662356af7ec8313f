use std::fmt;
use std::num::NonZeroU32;

macro_rules! number {
    ($(#[$says:meta])* $name:ident) => {
        $(#[$says])*
        #[derive(Clone, Copy, Debug, PartialEq, Eq, PartialOrd, Ord, Hash)]
        #[repr(transparent)]
        pub struct $name(NonZeroU32);

        impl $name {
            /// By its number; 0 is none.
            pub const fn new(number: u32) -> Option<Self> {
                match NonZeroU32::new(number) {
                    Some(number) => Some(Self(number)),
                    None => None,
                }
            }

            /// Its number.
            pub const fn get(self) -> u32 {
                self.0.get()
            }
        }

        impl From<NonZeroU32> for $name {
            fn from(number: NonZeroU32) -> Self {
                Self(number)
            }
        }

        impl From<$name> for u32 {
            fn from(it: $name) -> u32 {
                it.get()
            }
        }

        impl fmt::Display for $name {
            fn fmt(&self, f: &mut fmt::Formatter<'_>) -> fmt::Result {
                self.0.fmt(f)
            }
        }
    };
}

number! {
    /// A selector: the number of a message's name, from 1, which the caller gives.
    ///
    /// It is a type of its own, so that it isn't given in an implementation's place:
    ///
    /// ```compile_fail
    /// # use yeldrost::{ClassRef, Imp, Locked, Selector};
    /// fn add(now: &mut Locked, of: ClassRef, selector: Selector, imp: Imp) {
    ///     now.add(of, imp, selector).unwrap();
    /// }
    /// ```
    Selector
}

number! {
    /// An implementation: the number of a method's body, from 1, which the caller gives. That there is none is
    /// forwarding.
    Imp
}
