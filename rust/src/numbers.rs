//! The numbers of a duty policy. Each list has its own type, so that a role passed for a user, or
//! an operation for a target, does not build.

use crate::text::{self, pad};
use crate::{ParseError, Privilege};
use std::fmt;
use std::str::FromStr;

/// A number that its list does not have: zero, or past the end.
///
/// ```
/// use hastovimen::Role;
///
/// let error = Role::try_from(33).unwrap_err();
/// assert_eq!((error.number(), error.last()), (33, 32));
/// assert_eq!(error.to_string(), "33 is no role: they run from 1 to 32");
/// ```
#[derive(Clone, Copy, PartialEq, Eq, Debug)]
pub struct OutOfRange {
    what: &'static str,
    number: u64,
    last: u32,
}

impl OutOfRange {
    /// The number.
    pub fn number(&self) -> u64 {
        self.number
    }

    /// The last number of the list.
    pub fn last(&self) -> u32 {
        self.last
    }
}

impl fmt::Display for OutOfRange {
    fn fmt(&self, f: &mut fmt::Formatter) -> fmt::Result {
        let OutOfRange { what, number, last } = self;
        let text = format_args!("{number} is no {what}: they run from 1 to {last}");
        pad(f, text)
    }
}

impl std::error::Error for OutOfRange {}

macro_rules! number {
    ($(#[$doc:meta])* $name:ident($inner:ty) is a $what:literal to $last:expr) => {
        $(#[$doc])*
        ///
        /// It is shown and read as the bare number.
        #[derive(Clone, Copy, PartialEq, Eq, PartialOrd, Ord, Hash, Debug)]
        pub struct $name($inner);

        impl $name {
            /// The last number of the list; the first is 1.
            pub const LAST: $name = $name($last);

            /// The number, if the list has it.
            pub const fn new(number: $inner) -> Option<Self> {
                if number >= 1 && number <= $last {
                    Some($name(number))
                } else {
                    None
                }
            }

            /// The number, for constants: one that the list does not have fails to build there.
            ///
            /// # Panics
            ///
            /// Elsewhere it panics.
            pub const fn of(number: $inner) -> Self {
                match Self::new(number) {
                    Some(number) => number,
                    None => panic!("the number is 0 or past the end of its list"),
                }
            }

            /// The number itself.
            pub const fn get(self) -> $inner {
                self.0
            }

            fn out_of_range(number: u64) -> OutOfRange {
                OutOfRange {
                    what: $what,
                    number,
                    last: $last as u32,
                }
            }
        }

        impl TryFrom<$inner> for $name {
            type Error = OutOfRange;

            fn try_from(number: $inner) -> Result<Self, OutOfRange> {
                Self::new(number).ok_or(Self::out_of_range(number.into()))
            }
        }

        impl FromStr for $name {
            type Err = ParseError;

            fn from_str(text: &str) -> Result<Self, ParseError> {
                let number = text::number(text, $what)?;
                let small = <$inner>::try_from(number).ok();
                Ok(small.and_then(Self::new).ok_or(Self::out_of_range(number))?)
            }
        }

        impl fmt::Display for $name {
            fn fmt(&self, f: &mut fmt::Formatter) -> fmt::Result {
                self.0.fmt(f)
            }
        }
    };
}

number! {
    /// One person.
    User(u32) is a "user" to u32::MAX
}
number! {
    /// A role that may be active in a request.
    Role(u8) is a "role" to 32
}
number! {
    /// Something that is done, such as adjusting or checking.
    Operation(u16) is a "operation" to u16::MAX
}
number! {
    /// Something that it is done to.
    Target(u16) is a "target" to u16::MAX
}
number! {
    /// What a context level is about, such as the depot or the job.
    ContextType(u16) is a "context type" to u16::MAX
}
number! {
    /// Which one of its type: this depot, that job.
    ContextValue(u16) is a "context value" to u16::MAX
}

impl Operation {
    /// The privilege of doing this to a target.
    pub const fn on(self, target: Target) -> Privilege {
        Privilege {
            operation: self,
            target,
        }
    }
}
