//! What a table holds.

use crate::bytes::u32_at;
use crate::text::{exactly, number_u32, pad, Cut, List};
use crate::{ParseError, Request, MOST_RULES};
use std::fmt;
use std::str::FromStr;

/// The rules that still count a record: one at least.
///
/// ```
/// use hastovimen::Marks;
///
/// let marks: Marks = "1, 32".parse()?;
/// assert_eq!(marks.bits(), 0x8000_0001);
/// assert!(marks.has(32) && !marks.has(2));
/// assert_eq!(marks.to_string(), "1, 32");
/// # Ok::<(), hastovimen::ParseError>(())
/// ```
#[derive(Clone, Copy, PartialEq, Eq, Hash, Debug)]
pub struct Marks(u32);

impl Marks {
    /// The word in which rule r is bit r - 1.
    pub const fn bits(self) -> u32 {
        self.0
    }

    /// Whether a rule, from 1, is among them.
    pub fn has(self, rule: u32) -> bool {
        self.rules().any(|one| one == rule)
    }

    /// The rules, from 1, in order.
    pub fn rules(self) -> impl Iterator<Item = u32> + Clone {
        (1..=MOST_RULES as u32).filter(move |rule| self.0 >> (rule - 1) & 1 == 1)
    }
}

impl fmt::Display for Marks {
    fn fmt(&self, f: &mut fmt::Formatter) -> fmt::Result {
        pad(f, format_args!("{}", List(self.rules())))
    }
}

impl FromStr for Marks {
    type Err = ParseError;

    fn from_str(text: &str) -> Result<Marks, ParseError> {
        let mut marks = Marks(0);
        for rule in text.split(", ") {
            let rule = number_u32(rule, "set of rules")?;
            // A rule past 32 leaves no bit, and is not shown again.
            let bit = rule.checked_sub(1).and_then(|bit| 1u32.checked_shl(bit));
            marks.0 |= bit.unwrap_or(0);
        }
        exactly(marks, text, "set of rules")
    }
}

/// An earlier grant and the rules that still count it.
///
/// ```
/// use hastovimen::Record;
///
/// let text = "user 7 in role 2: 2 on 1 at 1=5, 2=90 (rules 1)";
/// let record: Record = text.parse()?;
/// assert_eq!((record.request.user.get(), record.marks.bits()), (7, 1));
/// assert_eq!(record.to_string(), text);
/// # Ok::<(), hastovimen::ParseError>(())
/// ```
#[derive(Clone, Copy, PartialEq, Eq, Hash, Debug)]
pub struct Record {
    /// What was granted.
    pub request: Request,
    /// Who still counts it.
    pub marks: Marks,
}

impl Record {
    /// The length of a record's image.
    pub const LENGTH: usize = Request::LENGTH + 4;

    pub(crate) fn read(bytes: &[u8]) -> Option<Record> {
        let (request, marks) = bytes.split_at(Request::LENGTH);
        Some(Record {
            request: Request::read(request).ok()?,
            marks: Marks(u32_at(marks, 0)),
        })
    }
}

impl fmt::Display for Record {
    fn fmt(&self, f: &mut fmt::Formatter) -> fmt::Result {
        pad(f, format_args!("{} (rules {})", self.request, self.marks))
    }
}

impl FromStr for Record {
    type Err = ParseError;

    fn from_str(text: &str) -> Result<Record, ParseError> {
        let (request, marks) = text.cut(" (rules ", "record")?;
        let record = Record {
            request: request.parse()?,
            marks: marks.trim_end_matches(')').parse()?,
        };
        exactly(record, text, "record")
    }
}
