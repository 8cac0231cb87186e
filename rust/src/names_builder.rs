//! Writing a list of names.

use crate::bytes::put_u16;
use crate::names::is_name;
use crate::{Named, Names, NamesBuf, NamesError};
use crate::{MOST_NAMES, NAME};

/// Collects names, and writes them down as a list.
///
/// ```
/// use hastovimen::*;
///
/// let names = NamesBuilder::new()
///     .name(ContextType::of(1), "Branch")
///     .name(ContextValue::of(1), "York")
///     .name(Role::of(1), "Teller")
///     .name(Operation::of(1), "CommitAudit")
///     .name(Target::of(1), "http://audit.location.com/audit")
///     .build()?;
/// assert_eq!(names.len(), 5);
///
/// let twice = NamesBuilder::new().name(Role::of(1), "Teller").name(Role::of(1), "Cashier");
/// assert_eq!(twice.build(), Err(NamesError::NumberTwice(Role::of(1).into())));
/// # Ok::<(), NamesError>(())
/// ```
///
/// Only the numbers of the five lists have names:
///
/// ```compile_fail
/// use hastovimen::{NamesBuilder, User};
///
/// let names = NamesBuilder::new().name(User::of(7), "Ada");
/// ```
#[must_use = "a builder does nothing until `build` is called"]
#[derive(Clone, PartialEq, Eq, Debug, Default)]
pub struct NamesBuilder {
    entries: Vec<(Named, String)>,
}

impl NamesBuilder {
    /// A list of no names, with which only policies without rules are read and written.
    pub fn new() -> NamesBuilder {
        NamesBuilder::default()
    }

    /// One more name, behind the others.
    pub fn name(mut self, number: impl Into<Named>, name: impl Into<String>) -> NamesBuilder {
        self.entries.push((number.into(), name.into()));
        self
    }

    /// The list.
    pub fn build(&self) -> Result<NamesBuf, NamesError> {
        if self.entries.len() > MOST_NAMES {
            return Err(NamesError::TooMany(self.entries.len()));
        }
        let mut image = vec![0; self.entries.len() * NAME];
        for (entry, (named, name)) in image.chunks_exact_mut(NAME).zip(&self.entries) {
            if !is_name(name) {
                return Err(NamesError::Name(name.clone()));
            }
            entry[0] = named.kind() as u8;
            entry[1] = name.len() as u8;
            put_u16(entry, 2, named.number());
            entry[4..4 + name.len()].copy_from_slice(name.as_bytes());
        }
        Names::own(image)
    }
}
