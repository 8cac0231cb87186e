//! Refusals in words.

use crate::text::{pad, shows, Cut};
use crate::{ParseError, Refusal};
use std::fmt;
use std::str::FromStr;

impl fmt::Display for Refusal {
    fn fmt(&self, f: &mut fmt::Formatter) -> fmt::Result {
        let number = self.number();
        pad(f, format_args!("{number}: {}{}", At(self), fault(self)))
    }
}

/// Where the fault is, as the beginning of a sentence.
struct At<'a>(&'a Refusal);

impl fmt::Display for At<'_> {
    fn fmt(&self, f: &mut fmt::Formatter) -> fmt::Result {
        let (first, second) = self.0.places();
        // Rule r is block r - 1.
        let rule = u64::from(first) + 1;
        match self.0 {
            Refusal::PolicyCheck { .. } | Refusal::PolicyHeader { .. } => {
                write!(f, "policy block {first}: ")
            }
            Refusal::Rule { .. } => write!(f, "policy block {first} (rule {rule}): "),
            Refusal::Exclusion { .. } => {
                write!(f, "policy block {first} (rule {rule}): exclusion {second} ")
            }
            Refusal::Permission { entry: 0, .. } => {
                write!(f, "policy block {first} (permissions): ")
            }
            Refusal::Permission { .. } => {
                write!(f, "policy block {first} (permissions): entry {second} ")
            }
            Refusal::TableCheck { .. }
            | Refusal::TableHeader { .. }
            | Refusal::TableStamp { .. } => write!(f, "table block {first}: "),
            Refusal::Record { .. } => write!(f, "table block {first}: record {second} "),
            Refusal::ExclusiveRoles { .. } | Refusal::ExclusivePrivileges { .. } => {
                write!(f, "rule {first}, exclusion {second}: ")
            }
            Refusal::TextForm { .. } => write!(f, "byte {first} of the text: "),
            Refusal::Other { .. } => write!(f, "with places {first} and {second}: "),
            Refusal::PolicyLength
            | Refusal::TableLength
            | Refusal::RequestLength
            | Refusal::RequestField
            | Refusal::ContextLength
            | Refusal::ContextField
            | Refusal::NotPermitted
            | Refusal::TableFull
            | Refusal::Names
            | Refusal::TextLimit => Ok(()),
        }
    }
}

/// What is wrong there.
fn fault(refusal: &Refusal) -> &'static str {
    match refusal {
        Refusal::PolicyLength => "the policy is not 1 to 64 blocks of 512 bytes",
        Refusal::TableLength => "the table is not 1 to 128 blocks of 512 bytes",
        Refusal::PolicyCheck { .. } | Refusal::TableCheck { .. } => "the check is wrong",
        Refusal::PolicyHeader { .. } => {
            "kind, number or total is wrong, or no rule may stand here"
        }
        Refusal::Rule { .. } => {
            "depth, number of exclusions, a flag, a level, a step or a byte that is not named is wrong"
        }
        Refusal::Permission { entry: 0, .. } => {
            "the number of entries or a byte that is not named is wrong"
        }
        Refusal::Exclusion { .. } | Refusal::Permission { .. } | Refusal::Record { .. } => {
            "is wrong"
        }
        Refusal::TableHeader { .. } => {
            "kind, number, total, count or a spare byte is wrong, or records stand after a gap"
        }
        Refusal::TableStamp { .. } => "the table is of another policy",
        Refusal::RequestLength => "the request is not 28 bytes",
        Refusal::RequestField => "a field of the request is wrong",
        Refusal::ContextLength => "the context is not 16 bytes",
        Refusal::ContextField => "a level of the context is wrong, or follows one that is not used",
        Refusal::NotPermitted => "no active role has the permission",
        Refusal::ExclusiveRoles { .. } => {
            "the user would have been active in too many exclusive roles"
        }
        Refusal::ExclusivePrivileges { .. } => {
            "the user would have done too many exclusive privileges"
        }
        Refusal::TableFull => "the table has no place for the record",
        Refusal::TextForm { .. } => "no text of the form goes on like this",
        Refusal::Names => "the list of names is wrong, or lacks a name or a number",
        Refusal::TextLimit => "a limit is broken, the output is too short, or a level is a range",
        Refusal::Other { .. } => "refused",
    }
}

impl FromStr for Refusal {
    type Err = ParseError;

    /// Tries the numbers in the words for places, and takes the refusal that they show.
    fn from_str(text: &str) -> Result<Refusal, ParseError> {
        let (number, words) = text.cut(": ", "refusal")?;
        let number = number.parse().unwrap_or(0);
        let found = words.split(|c: char| !c.is_ascii_digit());
        let mut found = found.filter_map(|word| word.parse().ok());
        let [a, b, c] = [(); 3].map(|()| found.next().unwrap_or(0));
        [(0, 0), (a, 0), (a, b), (a, c)]
            .into_iter()
            .filter_map(|(first, second)| Refusal::of(number, first, second))
            .flat_map(|refusal| [refusal, refusal.of_context()])
            .find(|refusal| shows(refusal, text))
            .ok_or_else(|| ParseError::form("refusal", text))
    }
}

#[cfg(test)]
mod tests {
    use super::*;

    /// Every number of document 01 comes back with its places and has words of its own; 21 and 22 have
    /// others where they are a closing's.
    #[test]
    fn numbers_places_and_words() {
        let with_two = [5, 6, 15, 32, 33];
        let with_one = [2, 3, 4, 12, 13, 14, 41];
        let with_none = [1, 11, 21, 22, 31, 34, 42, 43];
        let mut words = vec![];
        for (numbers, (first, second)) in [
            (&with_two[..], (7, 3)),
            (&with_one[..], (u32::MAX, 0)),
            (&with_none[..], (0, 0)),
        ] {
            for &number in numbers {
                let refusal = Refusal::of(number, first, second).unwrap();
                assert_eq!(refusal.number(), number);
                assert_eq!(refusal.places(), (first, second));
                assert!(!matches!(refusal, Refusal::Other { .. }));
                assert_eq!(refusal.to_string().parse(), Ok(refusal));
                words.push(refusal.to_string());
            }
        }
        for refusal in [Refusal::ContextLength, Refusal::ContextField] {
            assert_eq!(refusal.places(), (0, 0));
            assert_eq!(refusal.to_string().parse(), Ok(refusal));
            words.push(refusal.to_string());
        }
        assert_eq!(words.len(), 22);
        words.sort();
        words.dedup();
        assert_eq!(words.len(), 22);
    }

    /// What document 01 does not have is kept as it came, and is shown and read too.
    #[test]
    fn numbers_and_places_of_no_meaning() {
        assert_eq!(Refusal::of(0, 1, 1), None);
        let strange = [(7, 1, 2), (1, 0, 1), (4, 3, 1), (34, 9, 0), (99, 0, 0)];
        let of_texts = [(41, 3, 1), (42, 1, 0), (43, 0, 1), (40, 0, 0), (44, 0, 0)];
        for (number, first, second) in strange.into_iter().chain(of_texts) {
            let refusal = Refusal::of(number, first, second).unwrap();
            assert!(matches!(refusal, Refusal::Other { .. }));
            assert_eq!(refusal.number(), number);
            assert_eq!(refusal.places(), (first, second));
            assert_eq!(refusal.to_string().parse(), Ok(refusal));
        }
    }

    /// Where 6 has no entry, and where it has.
    #[test]
    fn entries() {
        for entry in [0, 1, 61] {
            let refusal = Refusal::Permission { block: 2, entry };
            assert_eq!(refusal.to_string().parse(), Ok(refusal));
        }
        let other = "6: policy block 2 (permissions): entry 0 is wrong";
        assert!(other.parse::<Refusal>().is_err());
    }
}
