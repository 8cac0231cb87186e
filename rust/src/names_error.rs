//! What is no list of names.

use crate::text::pad;
use crate::{NameKind, Named};
use std::fmt;

/// What is no list of names.
///
/// ```
/// use hastovimen::{NamesBuilder, NamesError, Role};
///
/// let error = NamesBuilder::new().name(Role::of(1), "bank teller").build().unwrap_err();
/// assert_eq!(error, NamesError::Name("bank teller".to_owned()));
/// assert_eq!(
///     error.to_string(),
///     "`bank teller` is no name: one has 1 to 60 ASCII characters, without white space and \" & < > = , * !"
/// );
/// ```
#[non_exhaustive]
#[derive(Clone, PartialEq, Eq, Debug)]
pub enum NamesError {
    /// The length in bytes is not 64 times 0 to 1,024.
    Length(usize),
    /// More than 1,024 names.
    TooMany(usize),
    /// An entry has not the form of one: its kind, length, number, name or the zeros behind it.
    Entry(usize),
    /// A name has another form.
    Name(String),
    /// A name stands for two numbers of one kind.
    NameTwice {
        /// The kind.
        kind: NameKind,
        /// The name.
        name: String,
    },
    /// A number has two names.
    NumberTwice(Named),
}

impl fmt::Display for NamesError {
    fn fmt(&self, f: &mut fmt::Formatter) -> fmt::Result {
        use NamesError::*;
        match self {
            Length(length) => pad(
                f,
                format_args!("a list of {length} bytes: 0 to 1024 entries of 64 bytes are asked"),
            ),
            TooMany(number) => pad(
                f,
                format_args!("{number} names: at most 1024 are allowed"),
            ),
            Entry(entry) => pad(
                f,
                format_args!("entry {entry}: kind, length, number, name or a byte behind it is wrong"),
            ),
            Name(name) => pad(
                f,
                format_args!(
                    "`{name}` is no name: one has 1 to 60 ASCII characters, without white space and \
                     \" & < > = , * !"
                ),
            ),
            NameTwice { kind, name } => pad(
                f,
                format_args!("the name `{name}` stands for more than one {kind}"),
            ),
            NumberTwice(named) => pad(f, format_args!("{named} has more than one name")),
        }
    }
}

impl std::error::Error for NamesError {}
