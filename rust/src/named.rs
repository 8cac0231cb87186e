//! What names stand for.

use crate::text::pad;
use crate::{ContextType, ContextValue, Operation, Role, Target};
use std::fmt;

/// The lists of numbers that have names in a text. The same name may stand in several of them.
#[derive(Clone, Copy, PartialEq, Eq, PartialOrd, Ord, Hash, Debug)]
pub enum NameKind {
    /// What a context level is about, such as the depot or the job.
    ContextType = 1,
    /// Which one of its type: this depot, that job.
    ContextValue = 2,
    /// A role.
    Role = 3,
    /// Something that is done.
    Operation = 4,
    /// Something that it is done to.
    Target = 5,
}

impl NameKind {
    /// All of them, in the order of their numbers.
    pub const ALL: [NameKind; 5] = [
        NameKind::ContextType,
        NameKind::ContextValue,
        NameKind::Role,
        NameKind::Operation,
        NameKind::Target,
    ];

    pub(crate) fn of(number: u8) -> Option<NameKind> {
        NameKind::ALL.into_iter().find(|&kind| kind as u8 == number)
    }
}

impl fmt::Display for NameKind {
    fn fmt(&self, f: &mut fmt::Formatter) -> fmt::Result {
        f.pad(match self {
            NameKind::ContextType => "context type",
            NameKind::ContextValue => "context value",
            NameKind::Role => "role",
            NameKind::Operation => "operation",
            NameKind::Target => "target",
        })
    }
}

/// A number together with the list that it is of: what a name stands for.
///
/// ```
/// use hastovimen::{NameKind, Named, Role};
///
/// let checker = Named::from(Role::of(2));
/// assert_eq!((checker.kind(), checker.number()), (NameKind::Role, 2));
/// assert_eq!(checker.to_string(), "role 2");
/// ```
#[derive(Clone, Copy, PartialEq, Eq, PartialOrd, Ord, Hash, Debug)]
pub struct Named {
    kind: NameKind,
    number: u16,
}

impl Named {
    /// The list.
    pub const fn kind(self) -> NameKind {
        self.kind
    }

    /// The number itself, from 1. In a list of names that was lent a role can have a number above 32,
    /// which no policy has.
    pub const fn number(self) -> u16 {
        self.number
    }

    pub(crate) const fn new(kind: NameKind, number: u16) -> Named {
        Named { kind, number }
    }
}

impl fmt::Display for Named {
    fn fmt(&self, f: &mut fmt::Formatter) -> fmt::Result {
        pad(f, format_args!("{} {}", self.kind, self.number))
    }
}

macro_rules! named_from {
    ($($name:ident)*) => {$(
        impl From<$name> for Named {
            fn from(number: $name) -> Named {
                Named::new(NameKind::$name, number.get().into())
            }
        }
    )*};
}

named_from! { ContextType ContextValue Role Operation Target }
