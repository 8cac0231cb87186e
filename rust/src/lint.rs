//! Policies that are good for the engine, but that may not be what their author meant.

use crate::text::pad;
use crate::{Members, Policy, Privilege, Role, Rule};
use std::fmt;

/// What [`Policy::lint`] warns of. Rules and exclusions count from 1.
///
/// Each warning says what is tested of the policy's image, and nothing is tested beyond that: a
/// policy without warnings may be wrong, and one with warnings may be right.
///
/// ```
/// use hastovimen::*;
///
/// let [begin, end, step] = [5, 6, 1].map(|o| Operation::of(o).on(Target::of(1)));
/// let apart = Exclusion::of_privileges(2, &[step, begin])?;
/// let image = PolicyBuilder::new()
///     .rule(Rule::over([]).first(begin).last(end).exclude(apart))
///     .permit(Role::of(1), step)
///     .permit(Role::of(1), end)
///     .build()?;
/// let warnings = Policy::check(&image)?.lint();
/// assert_eq!(warnings.iter().map(|w| w.to_string()).collect::<Vec<_>>(), [
///     "rule 1: nobody is permitted its first step 5 on 1: it stays silent",
///     "rule 1, exclusion 1: nobody can reach 2: of what is permitted 1 counts",
/// ]);
/// # Ok::<(), Box<dyn std::error::Error>>(())
/// ```
#[non_exhaustive]
#[derive(Clone, Copy, PartialEq, Eq, Hash, Debug)]
pub enum Warning {
    /// The rule has a first step, and no permission of any role is for it. Such a step is always
    /// refused by 31, so that no run of the rule begins: from a fresh table on it is silent.
    FirstStepNotPermitted {
        /// The rule.
        rule: u32,
        /// Its first step.
        step: Privilege,
    },
    /// The rule has a last step, and no permission of any role is for it. Such a step is always
    /// refused by 31, so that no run of the rule ends: what it has recorded stays.
    LastStepNotPermitted {
        /// The rule.
        rule: u32,
        /// Its last step.
        step: Privilege,
    },
    /// The rule has no last step. What it has recorded stays for good, until the table is full.
    NoLastStep {
        /// The rule.
        rule: u32,
    },
    /// The exclusion is of privileges, and the most that it can count from a fresh table on is below
    /// its m, so that it never refuses. Of its different members those count that a permission of
    /// any role is for: each as often as it is listed, but the rule's own last step once, for with
    /// it the run ends.
    OutOfReach {
        /// The rule.
        rule: u32,
        /// Its exclusion.
        exclusion: u32,
        /// The most that it can count.
        most: u32,
        /// The number that it forbids.
        m: u8,
    },
    /// The exclusion is of roles, and no permission is for this member. The role does count where
    /// it is active beside another one that has the permission, but never by itself.
    RoleWithoutPermission {
        /// The rule.
        rule: u32,
        /// Its exclusion.
        exclusion: u32,
        /// The role.
        role: Role,
    },
    /// The rule has levels; no other rule with levels has the same types in the same order, as far
    /// as the shorter of the two goes; and another rule, the first such one is named, has one of its
    /// types at another level. A context fits a rule only if its levels come in the rule's order, so
    /// that one with the other rule's order is not watched by this rule.
    LevelOrder {
        /// The rule.
        rule: u32,
        /// The other rule.
        other: u32,
    },
}

impl Warning {
    /// The rule that it is about.
    pub fn rule(&self) -> u32 {
        match *self {
            Warning::FirstStepNotPermitted { rule, .. }
            | Warning::LastStepNotPermitted { rule, .. }
            | Warning::NoLastStep { rule }
            | Warning::OutOfReach { rule, .. }
            | Warning::RoleWithoutPermission { rule, .. }
            | Warning::LevelOrder { rule, .. } => rule,
        }
    }

    /// The exclusion that it is about, if it is about one.
    pub fn exclusion(&self) -> Option<u32> {
        match *self {
            Warning::OutOfReach { exclusion, .. }
            | Warning::RoleWithoutPermission { exclusion, .. } => Some(exclusion),
            _ => None,
        }
    }
}

impl fmt::Display for Warning {
    fn fmt(&self, f: &mut fmt::Formatter) -> fmt::Result {
        let (rule, what) = (self.rule(), What(self));
        match self.exclusion() {
            Some(exclusion) => pad(
                f,
                format_args!("rule {rule}, exclusion {exclusion}: {what}"),
            ),
            None => pad(f, format_args!("rule {rule}: {what}")),
        }
    }
}

struct What<'a>(&'a Warning);

impl fmt::Display for What<'_> {
    fn fmt(&self, f: &mut fmt::Formatter) -> fmt::Result {
        match self.0 {
            Warning::FirstStepNotPermitted { step, .. } => write!(
                f,
                "nobody is permitted its first step {step}: it stays silent"
            ),
            Warning::LastStepNotPermitted { step, .. } => {
                write!(f, "nobody is permitted its last step {step}: no run ends")
            }
            Warning::NoLastStep { .. } => {
                write!(f, "it has no last step: what it records stays for good")
            }
            Warning::OutOfReach { most, m, .. } => {
                write!(
                    f,
                    "nobody can reach {m}: of what is permitted {most} counts"
                )
            }
            Warning::RoleWithoutPermission { role, .. } => {
                write!(
                    f,
                    "role {role} has no permission, and counts only beside another one"
                )
            }
            Warning::LevelOrder { other, .. } => write!(
                f,
                "no other rule has its levels in this order, \
                 but rule {other} has one of their types at another level"
            ),
        }
    }
}

pub(crate) fn lint(policy: &Policy) -> Vec<Warning> {
    let rules: Vec<Rule> = policy.rules().collect();
    let permissions: Vec<(Role, Privilege)> = policy.permissions().collect();
    let mut warnings = vec![];
    for (r, rule) in rules.iter().enumerate() {
        let number = r as u32 + 1;
        steps(number, rule, &permissions, &mut warnings);
        exclusions(number, rule, &permissions, &mut warnings);
        if let Some(other) = order(r, &rules) {
            let other = other as u32 + 1;
            let rule = number;
            warnings.push(Warning::LevelOrder { rule, other });
        }
    }
    warnings
}

fn permitted(permissions: &[(Role, Privilege)], step: Privilege) -> bool {
    permissions.iter().any(|&(_, privilege)| privilege == step)
}

fn steps(rule: u32, its: &Rule, permissions: &[(Role, Privilege)], warnings: &mut Vec<Warning>) {
    let missing = |step: &Privilege| !permitted(permissions, *step);
    if let Some(step) = its.first_step().filter(missing) {
        warnings.push(Warning::FirstStepNotPermitted { rule, step });
    }
    if let Some(step) = its.last_step().filter(missing) {
        warnings.push(Warning::LastStepNotPermitted { rule, step });
    }
    if its.last_step().is_none() {
        warnings.push(Warning::NoLastStep { rule });
    }
}

fn exclusions(
    rule: u32,
    its: &Rule,
    permissions: &[(Role, Privilege)],
    warnings: &mut Vec<Warning>,
) {
    for (exclusion, one) in (1..).zip(its.exclusions()) {
        match one.members() {
            Members::Roles(roles) => {
                let has_one = |role: Role| permissions.iter().any(|&(other, _)| other == role);
                let without = roles.iter().filter(|&&role| !has_one(role));
                warnings.extend(without.map(|&role| Warning::RoleWithoutPermission {
                    rule,
                    exclusion,
                    role,
                }));
            }
            Members::Privileges(privileges) => {
                let (most, m) = (most(privileges, its.last_step(), permissions), one.m());
                if most < m.into() {
                    warnings.push(Warning::OutOfReach {
                        rule,
                        exclusion,
                        most,
                        m,
                    });
                }
            }
        }
    }
}

/// The most that members of an exclusion can count for one user.
fn most(members: &[Privilege], last: Option<Privilege>, permissions: &[(Role, Privilege)]) -> u32 {
    let counts = members.iter().enumerate().filter(|&(i, &member)| {
        let repeats = members[..i].contains(&member);
        permitted(permissions, member) && !(repeats && last == Some(member))
    });
    counts.count() as u32
}

/// The first rule that has a type of this one's at another level, where no rule goes along with it.
fn order(r: usize, rules: &[Rule]) -> Option<usize> {
    let types = |rule: &Rule| -> Vec<_> {
        let levels = rule.levels();
        levels.iter().map(|level| level.context_type()).collect()
    };
    let mine = types(&rules[r]);
    let others: Vec<_> = (rules.iter().map(types).enumerate())
        .filter(|(other, types)| *other != r && !types.is_empty())
        .collect();
    let same = |theirs: &[_]| mine.iter().zip(theirs).all(|(one, other)| one == other);
    let elsewhere = |theirs: &[_]| {
        (mine.iter().enumerate()).any(|(i, kind)| {
            let mut places = theirs.iter().enumerate();
            places.any(|(j, other)| other == kind && i != j)
        })
    };
    if others.iter().any(|(_, theirs)| same(theirs)) {
        return None;
    }
    others
        .iter()
        .find(|(_, theirs)| elsewhere(theirs))
        .map(|(other, _)| *other)
}
