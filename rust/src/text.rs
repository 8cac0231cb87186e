//! Values as text: shown with the width and alignment that a format string asks for, and read back.
//!
//! Reading takes just what showing writes. Each `from_str` may be easy about the details, for at its
//! end [`exactly`] shows the value again and asks for the same text.

use crate::{BuildError, OutOfRange};
use std::fmt::{self, Display, Formatter, Write};
use std::str::FromStr;

/// A text that does not show what was asked for.
///
/// Numbers, privileges, contexts, requests, records, rules, whole policies (by
/// [`PolicyBuilder`](crate::PolicyBuilder)), grants, previews and refusals are read from the text
/// that shows them, and from no other.
///
/// ```
/// use hastovimen::{BuildError, Exclusion, ParseError, Role};
///
/// assert_eq!("32".parse(), Ok(Role::LAST));
/// let error = "33".parse::<Role>().unwrap_err();
/// assert!(matches!(error, ParseError::OutOfRange(_)));
/// assert_eq!(error.to_string(), "33 is no role: they run from 1 to 32");
/// let error = "+3".parse::<Role>().unwrap_err();
/// assert_eq!(error.to_string(), "`+3` is no role");
/// let error = "3 of roles 1, 2".parse::<Exclusion>().unwrap_err();
/// assert_eq!(error, ParseError::Build(BuildError::ForbiddenNumber { m: 3, n: 2 }));
/// ```
#[non_exhaustive]
#[derive(Clone, PartialEq, Eq, Debug)]
pub enum ParseError {
    /// The text has another form.
    Form {
        /// What was asked for.
        expected: &'static str,
        /// What was there.
        found: String,
    },
    /// A number that its list does not have.
    OutOfRange(OutOfRange),
    /// Numbers that do not go together.
    Build(BuildError),
}

impl ParseError {
    pub(crate) fn form(expected: &'static str, found: &str) -> ParseError {
        let found = found.to_owned();
        ParseError::Form { expected, found }
    }
}

impl From<OutOfRange> for ParseError {
    fn from(error: OutOfRange) -> ParseError {
        ParseError::OutOfRange(error)
    }
}

impl From<BuildError> for ParseError {
    fn from(error: BuildError) -> ParseError {
        ParseError::Build(error)
    }
}

impl Display for ParseError {
    fn fmt(&self, f: &mut Formatter) -> fmt::Result {
        match self {
            ParseError::Form { expected, found } => {
                pad(f, format_args!("`{found}` is no {expected}"))
            }
            ParseError::OutOfRange(error) => error.fmt(f),
            ParseError::Build(error) => error.fmt(f),
        }
    }
}

impl std::error::Error for ParseError {}

/// Writes a text of several parts, so that width, alignment and precision go by the whole of it.
pub(crate) fn pad(f: &mut Formatter, parts: fmt::Arguments) -> fmt::Result {
    if f.width().is_none() && f.precision().is_none() {
        f.write_fmt(parts)
    } else {
        f.pad(&parts.to_string())
    }
}

/// Shows a list with commas.
pub(crate) struct List<I>(pub(crate) I);

impl<I: Iterator<Item: Display> + Clone> Display for List<I> {
    fn fmt(&self, f: &mut Formatter) -> fmt::Result {
        for (i, item) in self.0.clone().enumerate() {
            let comma = if i > 0 { ", " } else { "" };
            write!(f, "{comma}{item}")?;
        }
        Ok(())
    }
}

/// The value, if it is shown by just this text.
pub(crate) fn exactly<T: Display>(
    value: T,
    text: &str,
    expected: &'static str,
) -> Result<T, ParseError> {
    if shows(&value, text) {
        Ok(value)
    } else {
        Err(ParseError::form(expected, text))
    }
}

pub(crate) fn shows(value: &impl Display, text: &str) -> bool {
    let mut rest = Rest(text);
    write!(rest, "{value}").is_ok() && rest.0.is_empty()
}

/// What is left of a text once what was written is taken off; an error where it goes on otherwise.
struct Rest<'a>(&'a str);

impl Write for Rest<'_> {
    fn write_str(&mut self, written: &str) -> fmt::Result {
        self.0 = self.0.strip_prefix(written).ok_or(fmt::Error)?;
        Ok(())
    }
}

/// A number without sign and without zeros before it.
pub(crate) fn number(text: &str, expected: &'static str) -> Result<u64, ParseError> {
    let form = || ParseError::form(expected, text);
    exactly(text.parse().map_err(|_| form())?, text, expected)
}

/// A number of 32 bits.
pub(crate) fn number_u32(text: &str, expected: &'static str) -> Result<u32, ParseError> {
    let number = number(text, expected)?;
    u32::try_from(number).map_err(|_| ParseError::form(expected, text))
}

/// Three numbers behind a word.
pub(crate) fn three(
    text: &str,
    word: &str,
    expected: &'static str,
) -> Result<[u32; 3], ParseError> {
    let numbers = text.behind(word, expected)?.split(' ');
    let numbers: Result<Vec<u32>, _> = numbers.map(|one| number_u32(one, expected)).collect();
    let numbers = numbers.ok().and_then(|numbers| numbers.try_into().ok());
    numbers.ok_or_else(|| ParseError::form(expected, text))
}

/// A list with commas.
pub(crate) fn list<T: FromStr<Err = ParseError>>(text: &str) -> Result<Vec<T>, ParseError> {
    text.split(", ").map(str::parse).collect()
}

/// The text behind a word that it begins with, or in front of and behind a word in it.
pub(crate) trait Cut {
    fn behind(&self, word: &str, expected: &'static str) -> Result<&str, ParseError>;
    fn cut(&self, word: &str, expected: &'static str) -> Result<(&str, &str), ParseError>;
}

impl Cut for str {
    fn behind(&self, word: &str, expected: &'static str) -> Result<&str, ParseError> {
        self.strip_prefix(word)
            .ok_or_else(|| ParseError::form(expected, self))
    }

    fn cut(&self, word: &str, expected: &'static str) -> Result<(&str, &str), ParseError> {
        self.split_once(word)
            .ok_or_else(|| ParseError::form(expected, self))
    }
}
