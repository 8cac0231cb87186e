//! Rules that cannot be written as text.

use crate::text::pad;
use crate::{Level, Mark, Members, Named, Names, Policy, Privilege, Refusal, Rule};
use std::fmt;

/// Why a policy's rules cannot be written as text: the first rule that stands in the way, and what in
/// it.
///
/// ```
/// use hastovimen::*;
///
/// let rule = "over 1=100 to 199\n  exclusion 1: 2 of roles 1, 2".parse::<Rule>()?;
/// let policy = Policy::own(PolicyBuilder::new().rule(rule).build()?)?;
/// let names = NamesBuilder::new()
///     .name(ContextType::of(1), "Depot")
///     .name(Role::of(1), "Adjuster");
///
/// let error = policy.to_xml(&names.build()?).unwrap_err();
/// assert_eq!(error, Unwritable::NotListed { rule: 1, number: Role::of(2).into() });
/// assert_eq!(error.to_string(), "42: rule 1: role 2 has no name");
///
/// let names = names.name(Role::of(2), "Checker").build()?;
/// let error = policy.to_xml(&names).unwrap_err();
/// assert_eq!(error.to_string(), "43: rule 1: the range 1=100 to 199 cannot be written as text");
/// assert_eq!(error.refusal(), Refusal::TextLimit);
/// # Ok::<(), Box<dyn std::error::Error>>(())
/// ```
#[non_exhaustive]
#[derive(Clone, Copy, PartialEq, Eq, Debug)]
pub enum Unwritable {
    /// 42: the list of names has none for a number of the rule.
    NotListed {
        /// The rule, from 1.
        rule: usize,
        /// The first such number, in the order of the text.
        number: Named,
    },
    /// 43: a level is a range, for which the text has no spelling.
    Range {
        /// The rule, from 1.
        rule: usize,
        /// The first such level.
        level: Level,
    },
    /// Anything else. The engine is proved to give nothing else for a policy and a list of names that
    /// were checked.
    Refused(Refusal),
}

impl Unwritable {
    /// The engine's own answer.
    pub fn refusal(&self) -> Refusal {
        match self {
            Unwritable::NotListed { .. } => Refusal::Names,
            Unwritable::Range { .. } => Refusal::TextLimit,
            Unwritable::Refused(refusal) => *refusal,
        }
    }

    /// What stands in the way, if that is what the engine refuses for: it gives no place.
    pub(crate) fn find(policy: &Policy, names: &Names, refusal: Refusal) -> Unwritable {
        let mut rules = (1..).zip(policy.rules());
        let found = rules.find_map(|(number, rule)| in_rule(number, &rule, names));
        let same = found.filter(|found| found.refusal() == refusal);
        same.unwrap_or(Unwritable::Refused(refusal))
    }
}

/// Of a rule's own faults names come first.
fn in_rule(rule: usize, one: &Rule, names: &Names) -> Option<Unwritable> {
    let mut missing = numbers(one).into_iter();
    if let Some(number) = missing.find(|&number| names.name_of(number).is_none()) {
        return Some(Unwritable::NotListed { rule, number });
    }
    let levels = one.levels();
    let range = levels
        .iter()
        .find(|level| matches!(level.mark(), Mark::Range { .. }));
    range.map(|level| Unwritable::Range { rule, level })
}

/// The numbers of a rule that its text has names for, in the order of the text.
fn numbers(rule: &Rule) -> Vec<Named> {
    let mut numbers = vec![];
    for level in rule.levels().iter() {
        numbers.push(level.context_type().into());
        numbers.extend(level.value().map(Named::from));
    }
    for step in [rule.first_step(), rule.last_step()].into_iter().flatten() {
        numbers.extend(of_privilege(step));
    }
    for exclusion in rule.exclusions() {
        match exclusion.members() {
            Members::Roles(roles) => numbers.extend(roles.iter().map(|&role| Named::from(role))),
            Members::Privileges(privileges) => {
                numbers.extend(privileges.iter().flat_map(|&one| of_privilege(one)))
            }
        }
    }
    numbers
}

fn of_privilege(privilege: Privilege) -> [Named; 2] {
    [privilege.operation.into(), privilege.target.into()]
}

impl fmt::Display for Unwritable {
    fn fmt(&self, f: &mut fmt::Formatter) -> fmt::Result {
        match self {
            Unwritable::NotListed { rule, number } => {
                pad(f, format_args!("42: rule {rule}: {number} has no name"))
            }
            Unwritable::Range { rule, level } => pad(
                f,
                format_args!("43: rule {rule}: the range {level} cannot be written as text"),
            ),
            Unwritable::Refused(refusal) => refusal.fmt(f),
        }
    }
}

impl std::error::Error for Unwritable {}
