//! Why no policy was read from a text, and where.

use crate::expected::{expected, last_tag, Expected};
use crate::text::pad;
use crate::Refusal;
use std::fmt;

/// A place in a text.
///
/// A line ends with a line feed, with a carriage return, or with the two together, as in XML. All that
/// stands in front of a place is ASCII, so that a column is a byte; a tab is one too.
#[derive(Clone, Copy, PartialEq, Eq, PartialOrd, Ord, Hash, Debug)]
pub struct Place {
    /// The byte, from 0.
    pub byte: usize,
    /// The line, from 1.
    pub line: usize,
    /// The column, from 1.
    pub column: usize,
}

impl Place {
    /// The place behind some text.
    fn behind(before: &[u8]) -> Place {
        let mut line = 1;
        let mut start = 0;
        for (i, &byte) in before.iter().enumerate() {
            let joined = byte == b'\n' && i > 0 && before[i - 1] == b'\r';
            if byte == b'\n' || byte == b'\r' {
                line += usize::from(!joined);
                start = i + 1;
            }
        }
        Place {
            byte: before.len(),
            line,
            column: before.len() - start + 1,
        }
    }
}

impl fmt::Display for Place {
    fn fmt(&self, f: &mut fmt::Formatter) -> fmt::Result {
        pad(
            f,
            format_args!("line {}, column {}", self.line, self.column),
        )
    }
}

/// Why no policy was read from a text, and where in it.
///
/// ```
/// use hastovimen::*;
///
/// let names = NamesBuilder::new()
///     .name(Role::of(1), "Teller")
///     .name(Role::of(2), "Auditor")
///     .build()?;
/// let permissions = Policy::own(PolicyBuilder::new().build()?)?;
/// let read = |text: &str| Policy::from_xml(text, &names, &permissions);
///
/// // A comment is not of the form.
/// let error = read("<MSoDPolicySet>\n  <!-- the bank -->\n</MSoDPolicySet>").unwrap_err();
/// assert_eq!(
///     error.to_string(),
///     "41: line 2, column 4: `!` stands where `<MSoDPolicy` or `</MSoDPolicySet` is expected"
/// );
/// let XmlError::Form { at, found, expected } = &error else { panic!("{error}") };
/// assert_eq!((at.byte, at.line, at.column), (19, 2, 4));
/// assert_eq!(*found, Some('!'));
/// assert_eq!(expected[0], Expected::Word { word: "<MSoDPolicy", there: 1 });
///
/// // The list has no cashier.
/// let error = read(r#"<MSoDPolicySet>
///   <MSoDPolicy BusinessContext="">
///     <MMER ForbiddenCardinality="3">
///       <Role type="employee" value="Teller"/>
///       <Role type="employee" value="Cashier"/>
///     </MMER>
///   </MSoDPolicy>
/// </MSoDPolicySet>"#).unwrap_err();
/// assert_eq!(error.to_string(), "42: line 5, column 7: a name of this Role is not listed");
/// # Ok::<(), Box<dyn std::error::Error>>(())
/// ```
#[non_exhaustive]
#[derive(Clone, PartialEq, Eq, Debug)]
pub enum XmlError {
    /// 41: the text has not the form.
    Form {
        /// The first place that no text of the form goes on from as this one does. In a text of more
        /// than 4 GiB it may lie further on: the engine counts to byte 4294967295.
        at: Place,
        /// The character that stands there; none if the text ends. A byte that is no UTF-8 is shown as
        /// U+FFFD.
        found: Option<char>,
        /// All that may stand there.
        expected: Vec<Expected>,
    },
    /// 42: a name of an element is not in the list of names.
    NotListed {
        /// Where the tag begins that ends the element.
        at: Place,
        /// The element. In an `MSoDPolicy` it is a name of the context: those of steps and members are
        /// tested before.
        element: &'static str,
    },
    /// 43: an element breaks a limit.
    Limit {
        /// Where the tag begins that ends the element.
        at: Place,
        /// The element.
        element: &'static str,
    },
    /// Anything else. The engine is proved to give nothing else for a policy and a list of names that
    /// were checked.
    Refused(Refusal),
}

impl XmlError {
    /// The engine's own answer.
    pub fn refusal(&self) -> Refusal {
        match self {
            XmlError::Form { at, .. } => Refusal::TextForm {
                byte: at.byte.try_into().unwrap_or(u32::MAX),
            },
            XmlError::NotListed { .. } => Refusal::Names,
            XmlError::Limit { .. } => Refusal::TextLimit,
            XmlError::Refused(refusal) => *refusal,
        }
    }

    /// The place in the text.
    pub fn place(&self) -> Option<Place> {
        match self {
            XmlError::Form { at, .. }
            | XmlError::NotListed { at, .. }
            | XmlError::Limit { at, .. } => Some(*at),
            XmlError::Refused(_) => None,
        }
    }

    /// Of a text that leaves the form at a byte.
    pub(crate) fn form(text: &[u8], byte: usize) -> XmlError {
        let (before, behind) = text.split_at(byte.min(text.len()));
        XmlError::Form {
            at: Place::behind(before),
            found: first_char(behind),
            expected: expected(ascii(before)),
        }
    }

    /// Of a text with a fault that shows as soon as the tag is there that this beginning ends with.
    pub(crate) fn of_element(before: &[u8], refusal: Refusal) -> XmlError {
        let Some((from, element)) = last_tag(ascii(before)) else {
            return XmlError::Refused(refusal);
        };
        let at = Place::behind(&before[..from]);
        match refusal {
            Refusal::Names => XmlError::NotListed { at, element },
            Refusal::TextLimit => XmlError::Limit { at, element },
            other => XmlError::Refused(other),
        }
    }
}

/// A beginning that has the form: then it is ASCII.
fn ascii(before: &[u8]) -> &str {
    std::str::from_utf8(before).unwrap_or_default()
}

fn first_char(text: &[u8]) -> Option<char> {
    let some = &text[..text.len().min(4)];
    String::from_utf8_lossy(some).chars().next()
}

impl fmt::Display for XmlError {
    fn fmt(&self, f: &mut fmt::Formatter) -> fmt::Result {
        match self {
            XmlError::Form {
                at,
                found,
                expected,
            } => {
                let (found, expected) = (Found(*found), Either(expected));
                pad(
                    f,
                    format_args!("41: {at}: {found} where {expected} is expected"),
                )
            }
            XmlError::NotListed { at, element } => {
                let of = of_names(element);
                pad(
                    f,
                    format_args!("42: {at}: a name {of} this {element} is not listed"),
                )
            }
            XmlError::Limit { at, element } => {
                let limits = limits(element);
                pad(
                    f,
                    format_args!("43: {at}: this {element} breaks a limit: {limits}"),
                )
            }
            XmlError::Refused(refusal) => refusal.fmt(f),
        }
    }
}

/// Where in an element the names stand that are tested where it ends.
fn of_names(element: &str) -> &'static str {
    match element {
        "MSoDPolicy" => "in the context of",
        _ => "of",
    }
}

/// The limits that are tested where an element ends.
fn limits(element: &str) -> &'static str {
    match element {
        "MMER" => "2 <= m <= n <= 8 is asked, and no role twice",
        "MMEP" => "2 <= m <= n <= 8 is asked",
        "MSoDPolicy" => {
            "at most 4 levels, 1 to 8 exclusions, and a first step other than the last are asked"
        }
        "MSoDPolicySet" => "at most 32 rules, and 1 to 64 blocks with the permissions, are asked",
        _ => "roles are 1 to 32",
    }
}

/// What stands at the place.
struct Found(Option<char>);

impl fmt::Display for Found {
    fn fmt(&self, f: &mut fmt::Formatter) -> fmt::Result {
        match self.0 {
            Some(found @ ('"' | '\'' | '\\')) => write!(f, "`{found}` stands"),
            Some(found) => write!(f, "`{}` stands", found.escape_debug()),
            None => f.write_str("the text ends"),
        }
    }
}

/// Several things, of which one may stand there.
struct Either<'a>(&'a [Expected]);

impl fmt::Display for Either<'_> {
    fn fmt(&self, f: &mut fmt::Formatter) -> fmt::Result {
        for (i, one) in self.0.iter().enumerate() {
            let between = match self.0.len() - i {
                _ if i == 0 => "",
                1 => " or ",
                _ => ", ",
            };
            write!(f, "{between}{one}")?;
        }
        Ok(())
    }
}

impl std::error::Error for XmlError {}

#[cfg(test)]
mod tests {
    use super::*;

    #[test]
    fn places() {
        for (before, line, column) in [
            ("", 1, 1),
            ("ab", 1, 3),
            ("\t\t", 1, 3),
            ("a\n", 2, 1),
            ("a\r\n", 2, 1),
            ("a\r", 2, 1),
            ("\n\nab", 3, 3),
            ("\r\n\r\nab", 3, 3),
            ("\r\rab", 3, 3),
            ("\n\r", 3, 1),
        ] {
            let place = Place::behind(before.as_bytes());
            assert_eq!((place.line, place.column), (line, column), "{before:?}");
            assert_eq!(place.byte, before.len());
        }
    }

    #[test]
    fn what_was_found() {
        for (text, shown) in [
            (&b""[..], "the text ends"),
            (b"!-", "`!` stands"),
            (b"\"", "`\"` stands"),
            (b"\\", "`\\` stands"),
            (b"\n", "`\\n` stands"),
            (b"\0", "`\\0` stands"),
            ("é!".as_bytes(), "`é` stands"),
            ("😀!".as_bytes(), "`😀` stands"),
            (b"\xE9!", "`\u{FFFD}` stands"),
        ] {
            assert_eq!(Found(first_char(text)).to_string(), shown);
        }
    }

    #[test]
    fn lists() {
        let all = [Expected::Name, Expected::Digit, Expected::End];
        assert_eq!(Either(&all[..1]).to_string(), "a character of a name");
        assert_eq!(
            Either(&all[1..]).to_string(),
            "a digit or the end of the text"
        );
        assert_eq!(
            Either(&all).to_string(),
            "a character of a name, a digit or the end of the text"
        );
    }
}
