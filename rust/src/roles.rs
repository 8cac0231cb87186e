//! Sets of roles.

use crate::text::{exactly, list, pad, List};
use crate::{ParseError, Role};
use std::fmt;
use std::str::FromStr;

/// The active roles of a request: one role or more.
///
/// ```
/// use hastovimen::{Role, Roles};
///
/// let both = Roles::from(Role::of(1)).and(Role::of(32));
/// assert_eq!(both.to_string(), "1, 32");
/// assert_eq!("1, 32".parse(), Ok(both));
/// assert!(both.has(Role::of(32)) && !both.has(Role::of(2)));
/// assert_eq!(Roles::new(&[]), None);
/// ```
#[derive(Clone, Copy, PartialEq, Eq, Hash, Debug)]
pub struct Roles(u32);

impl Roles {
    /// These roles, if there is one at least.
    pub fn new(roles: &[Role]) -> Option<Roles> {
        let (&first, others) = roles.split_first()?;
        Some(others.iter().fold(first.into(), |all, &role| all.and(role)))
    }

    /// The roles of a word in which role k is bit k - 1; none if it is zero.
    pub const fn from_bits(bits: u32) -> Option<Roles> {
        if bits == 0 {
            None
        } else {
            Some(Roles(bits))
        }
    }

    /// The word in which role k is bit k - 1.
    pub const fn bits(self) -> u32 {
        self.0
    }

    /// These roles and one more.
    #[must_use]
    pub const fn and(self, role: Role) -> Roles {
        Roles(self.0 | 1 << (role.get() - 1))
    }

    /// Whether a role is among them.
    pub const fn has(self, role: Role) -> bool {
        self.0 >> (role.get() - 1) & 1 == 1
    }

    /// The roles in order.
    pub fn iter(self) -> impl Iterator<Item = Role> + Clone {
        (1..=Role::LAST.get())
            .filter_map(Role::new)
            .filter(move |&role| self.has(role))
    }
}

impl From<Role> for Roles {
    fn from(role: Role) -> Roles {
        Roles(1 << (role.get() - 1))
    }
}

impl fmt::Display for Roles {
    fn fmt(&self, f: &mut fmt::Formatter) -> fmt::Result {
        pad(f, format_args!("{}", List(self.iter())))
    }
}

impl FromStr for Roles {
    type Err = ParseError;

    fn from_str(text: &str) -> Result<Roles, ParseError> {
        let roles = Roles::new(&list(text)?);
        let roles = roles.ok_or_else(|| ParseError::form("set of roles", text))?;
        exactly(roles, text, "set of roles")
    }
}
