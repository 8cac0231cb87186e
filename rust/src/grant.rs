//! Grants, and decisions as the trial program prints them.

use crate::text::{exactly, pad, three};
use crate::{ParseError, Refusal};
use std::fmt;
use std::str::FromStr;

/// The step may be taken, once the table has been stored.
///
/// It is shown as the trial program prints it: `grant`, then recorded, removed, held.
///
/// ```
/// use hastovimen::Grant;
///
/// let grant = Grant { recorded: true, removed: 0, held: 1 };
/// assert_eq!(grant.to_string(), "grant 1 0 1");
/// assert_eq!("grant 1 0 1".parse(), Ok(grant));
/// ```
#[derive(Clone, Copy, PartialEq, Eq, Hash, Debug)]
pub struct Grant {
    /// Whether it was put on record: some rule will count it.
    pub recorded: bool,
    /// How many earlier records went, as no rule counts them any more.
    pub removed: u32,
    /// How many records the table has now.
    pub held: u32,
}

impl fmt::Display for Grant {
    fn fmt(&self, f: &mut fmt::Formatter) -> fmt::Result {
        let Grant { removed, held, .. } = self;
        let recorded = u8::from(self.recorded);
        pad(f, format_args!("grant {recorded} {removed} {held}"))
    }
}

impl FromStr for Grant {
    type Err = ParseError;

    fn from_str(text: &str) -> Result<Grant, ParseError> {
        let [recorded, removed, held] = three(text, "grant ", "grant")?;
        let recorded = recorded != 0;
        let grant = Grant {
            recorded,
            removed,
            held,
        };
        exactly(grant, text, "grant")
    }
}

/// What a decision came to, as a line of the trial program without its ordinal: a grant, or
/// `refuse` with the refusal's number and its two places. A [`Refusal`] alone is shown in words.
///
/// ```
/// use hastovimen::{Line, Refusal};
///
/// let refused = Line(Err(Refusal::ExclusivePrivileges { rule: 1, exclusion: 1 }));
/// assert_eq!(refused.to_string(), "refuse 33 1 1");
/// assert_eq!("refuse 33 1 1".parse(), Ok(refused));
/// let Line(granted) = "grant 1 0 1".parse()?;
/// assert!(granted.is_ok());
/// # Ok::<(), hastovimen::ParseError>(())
/// ```
#[must_use]
#[derive(Clone, Copy, PartialEq, Eq, Hash, Debug)]
pub struct Line(pub Result<Grant, Refusal>);

impl fmt::Display for Line {
    fn fmt(&self, f: &mut fmt::Formatter) -> fmt::Result {
        match &self.0 {
            Ok(grant) => grant.fmt(f),
            Err(refusal) => {
                let (first, second) = refusal.places();
                let number = refusal.number();
                pad(f, format_args!("refuse {number} {first} {second}"))
            }
        }
    }
}

impl FromStr for Line {
    type Err = ParseError;

    fn from_str(text: &str) -> Result<Line, ParseError> {
        const EXPECTED: &str = "grant or refusal";
        if text.starts_with("grant ") {
            return Ok(Line(Ok(text.parse()?)));
        }
        let [number, first, second] = three(text, "refuse ", EXPECTED)?;
        let refusal = Refusal::of(number, first, second);
        let refusal = refusal.ok_or_else(|| ParseError::form(EXPECTED, text))?;
        exactly(Line(Err(refusal)), text, EXPECTED)
    }
}
