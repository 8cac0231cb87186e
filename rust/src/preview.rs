//! What a decision would come to.

use crate::text::{exactly, pad, three};
use crate::ParseError;
use std::fmt;
use std::str::FromStr;

/// What would be granted, were it decided now ([`Table::preview`](crate::Table::preview)).
///
/// It is no [`Grant`](crate::Grant), and nothing turns it into one. Nothing was recorded, nothing is
/// reserved, and another request may be granted first. Decide before the step is taken.
///
/// It is shown as a grant is, behind the word `would`:
///
/// ```
/// use hastovimen::Preview;
///
/// let preview = Preview { recorded: true, removed: 0, held: 1 };
/// assert_eq!(preview.to_string(), "would grant 1 0 1");
/// assert_eq!("would grant 1 0 1".parse(), Ok(preview));
/// ```
#[must_use = "a preview does nothing but tell"]
#[derive(Clone, Copy, PartialEq, Eq, Hash, Debug)]
pub struct Preview {
    /// Whether it would be put on record: some rule would count it.
    pub recorded: bool,
    /// How many earlier records would go, as no rule would count them any more.
    pub removed: u32,
    /// How many records the table would have then.
    pub held: u32,
}

impl fmt::Display for Preview {
    fn fmt(&self, f: &mut fmt::Formatter) -> fmt::Result {
        let Preview { removed, held, .. } = self;
        let recorded = u8::from(self.recorded);
        pad(f, format_args!("would grant {recorded} {removed} {held}"))
    }
}

impl FromStr for Preview {
    type Err = ParseError;

    fn from_str(text: &str) -> Result<Preview, ParseError> {
        let [recorded, removed, held] = three(text, "would grant ", "preview")?;
        let recorded = recorded != 0;
        let preview = Preview {
            recorded,
            removed,
            held,
        };
        exactly(preview, text, "preview")
    }
}
