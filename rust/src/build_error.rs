//! What cannot be written down as an image.

use crate::text::pad;
use crate::{ContextValue, Role};
use std::fmt;

/// What cannot be written down as an image.
///
/// ```
/// use hastovimen::{BuildError, Exclusion, Role};
///
/// let error = Exclusion::of_roles(2, &[Role::of(1), Role::of(1)]).unwrap_err();
/// assert_eq!(error, BuildError::RoleTwice(Role::of(1)));
/// assert_eq!(error.to_string(), "role 1 stands twice in an exclusion");
/// ```
#[non_exhaustive]
#[derive(Clone, Copy, PartialEq, Eq, Debug)]
pub enum BuildError {
    /// A range of context values needs low <= high. Otherwise no value is in it.
    EmptyRange {
        /// Where it was to begin.
        low: ContextValue,
        /// Where it was to end.
        high: ContextValue,
    },
    /// An exclusion needs 2 <= m <= n <= 8.
    ForbiddenNumber {
        /// How many are forbidden.
        m: u8,
        /// Of how many members.
        n: usize,
    },
    /// A role stands twice in one exclusion.
    RoleTwice(Role),
    /// A rule has 1 to 8 exclusions; this one has another number.
    Exclusions {
        /// The rule, from 1.
        rule: usize,
        /// The number of its exclusions.
        number: usize,
    },
    /// First and last step of a rule are equal.
    EqualSteps {
        /// The rule, from 1.
        rule: usize,
    },
    /// A policy has at most 32 rules.
    Rules(usize),
    /// A policy has at most 64 blocks: one a rule, one for every 61 permissions.
    PolicyBlocks(usize),
    /// A table has 1 to 128 blocks.
    TableBlocks(usize),
    /// A table grows, and never shrinks.
    FewerBlocks {
        /// The blocks that it has.
        has: usize,
        /// The blocks that were asked for.
        asked: usize,
    },
    /// A table of so many blocks has not so many places.
    Records(usize),
    /// A record is marked for no rule.
    NoMark {
        /// The record, from 1.
        record: usize,
    },
    /// A record is marked for a rule number that is not from 1 to 32.
    RuleNumber {
        /// The record, from 1.
        record: usize,
        /// The rule number.
        rule: u32,
    },
    /// A record is marked for a rule that the policy does not have.
    NoSuchRule {
        /// The record, from 1.
        record: usize,
        /// The rule, from 1.
        rule: u32,
    },
    /// A record is marked for a rule that its context does not fit.
    DoesNotFit {
        /// The record, from 1.
        record: usize,
        /// The rule, from 1.
        rule: u32,
    },
}

impl fmt::Display for BuildError {
    fn fmt(&self, f: &mut fmt::Formatter) -> fmt::Result {
        pad(f, format_args!("{}", Words(self)))
    }
}

struct Words<'a>(&'a BuildError);

impl fmt::Display for Words<'_> {
    fn fmt(&self, f: &mut fmt::Formatter) -> fmt::Result {
        use BuildError::*;
        match self.0 {
            EmptyRange { low, high } => {
                write!(f, "{low} to {high} is an empty range: low <= high is asked")
            }
            ForbiddenNumber { m, n } => {
                write!(f, "{m} of {n} is no exclusion: 2 <= m <= n <= 8 is asked")
            }
            RoleTwice(role) => write!(f, "role {role} stands twice in an exclusion"),
            Exclusions { rule, number } => {
                write!(f, "rule {rule} has {number} exclusions: 1 to 8 are asked")
            }
            EqualSteps { rule } => {
                write!(f, "the first and the last step of rule {rule} are equal")
            }
            Rules(number) => write!(f, "{number} rules: at most 32 are allowed"),
            PolicyBlocks(number) => {
                write!(f, "a policy of {number} blocks: at most 64 are allowed")
            }
            TableBlocks(number) => write!(f, "a table of {number} blocks: 1 to 128 are asked"),
            FewerBlocks { has, asked } => {
                write!(f, "a table of {has} blocks cannot be made one of {asked}")
            }
            Records(number) => write!(f, "the table has no place for {number} records"),
            NoMark { record } => write!(f, "record {record} is marked for no rule"),
            RuleNumber { record, rule } => {
                write!(f, "record {record} is marked for {rule}: rules are 1 to 32")
            }
            NoSuchRule { record, rule } => write!(
                f,
                "record {record} is marked for rule {rule}, which the policy does not have"
            ),
            DoesNotFit { record, rule } => {
                write!(f, "the context of record {record} does not fit rule {rule}")
            }
        }
    }
}

impl std::error::Error for BuildError {}
