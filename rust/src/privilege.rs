//! An operation and the target that it is done to.

use crate::bytes::{put_u16, u16_at};
use crate::text::{exactly, pad, Cut};
use crate::{Operation, ParseError, Target};
use std::fmt;
use std::str::FromStr;

/// An operation on a target: what a request asks for, what a role is permitted, what an exclusion
/// lists, a rule's first or last step.
///
/// ```
/// use hastovimen::{Operation, Target};
///
/// let check = Operation::of(2).on(Target::of(1));
/// assert_eq!(check.to_string(), "2 on 1");
/// assert_eq!("2 on 1".parse(), Ok(check));
/// assert_eq!(format!("{check:>8}|{check:<8}|"), "  2 on 1|2 on 1  |");
/// ```
#[derive(Clone, Copy, PartialEq, Eq, PartialOrd, Ord, Hash, Debug)]
pub struct Privilege {
    /// What is done.
    pub operation: Operation,
    /// What it is done to.
    pub target: Target,
}

impl Privilege {
    pub(crate) fn read(bytes: &[u8]) -> Option<Privilege> {
        let operation = Operation::new(u16_at(bytes, 0))?;
        Some(operation.on(Target::new(u16_at(bytes, 2))?))
    }

    pub(crate) fn write(self, bytes: &mut [u8]) {
        put_u16(bytes, 0, self.operation.get());
        put_u16(bytes, 2, self.target.get());
    }
}

impl fmt::Display for Privilege {
    fn fmt(&self, f: &mut fmt::Formatter) -> fmt::Result {
        pad(f, format_args!("{} on {}", self.operation, self.target))
    }
}

impl FromStr for Privilege {
    type Err = ParseError;

    fn from_str(text: &str) -> Result<Privilege, ParseError> {
        let (operation, target) = text.cut(" on ", "privilege")?;
        let operation: Operation = operation.parse()?;
        exactly(operation.on(target.parse()?), text, "privilege")
    }
}
