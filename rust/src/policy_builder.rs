//! Writing a policy's image.

use crate::bytes::{put_header, put_u16, seal};
use crate::policy::{write_text, PERMISSIONS, RULE};
use crate::text::{exactly, Cut};
use crate::{BuildError, ParseError, Privilege, Role, Rule};
use crate::{BLOCK, MOST_POLICY_BLOCKS, MOST_RULES};
use std::fmt;
use std::str::FromStr;

const ENTRIES_PER_BLOCK: usize = 61;

/// Collects rules and permissions, and writes them down as an image.
///
/// It is shown as the policy that it builds, and is read from the text of any policy. The image has
/// the permissions in as few blocks as they take; one that has them otherwise is another image of
/// the same rules, with a stamp of its own.
///
/// ```
/// use hastovimen::*;
///
/// let text = "\
/// rule 1: over 2=!
///   exclusion 1: 2 of privileges 1 on 1, 2 on 1
/// role 1 may do 1 on 1
/// role 2 may do 2 on 1
/// ";
/// let policy = Policy::own(text.parse::<PolicyBuilder>()?.build()?)?;
/// assert_eq!(policy.to_string(), text);
/// # Ok::<(), Box<dyn std::error::Error>>(())
/// ```
#[must_use = "a builder does nothing until `build` is called"]
#[derive(Clone, PartialEq, Eq, Debug, Default)]
pub struct PolicyBuilder {
    rules: Vec<Rule>,
    permissions: Vec<(Role, Privilege)>,
}

impl PolicyBuilder {
    /// A policy of no rules and no permissions, under which every request gets 31.
    pub fn new() -> PolicyBuilder {
        PolicyBuilder::default()
    }

    /// One more rule, behind the others.
    pub fn rule(mut self, rule: Rule) -> PolicyBuilder {
        self.rules.push(rule);
        self
    }

    /// One more permission: who is active in the role may do this.
    pub fn permit(mut self, role: Role, privilege: Privilege) -> PolicyBuilder {
        self.permissions.push((role, privilege));
        self
    }

    /// The image.
    pub fn build(&self) -> Result<Vec<u8>, BuildError> {
        self.limits()?;
        let total = self.blocks();
        let mut image = vec![0; total * BLOCK];
        let (rules, permissions) = image.split_at_mut(self.rules.len() * BLOCK);
        let rules = rules.chunks_exact_mut(BLOCK);
        for (r, (rule, block)) in self.rules.iter().zip(rules).enumerate() {
            put_header(block, RULE, r, total);
            rule.write(block);
        }
        let mut entries = self.permissions.chunks(ENTRIES_PER_BLOCK);
        for (i, block) in permissions.chunks_exact_mut(BLOCK).enumerate() {
            put_header(block, PERMISSIONS, self.rules.len() + i, total);
            write_permissions(block, entries.next().unwrap_or_default());
        }
        seal(&mut image);
        Ok(image)
    }

    /// A block a rule, then as many as the permissions take, but one at least in all.
    fn blocks(&self) -> usize {
        let blocks = self.rules.len() + self.permissions.len().div_ceil(ENTRIES_PER_BLOCK);
        blocks.max(1)
    }

    fn limits(&self) -> Result<(), BuildError> {
        for (rule, built) in (1..).zip(&self.rules) {
            let number = built.exclusions().len();
            if !(1..=8).contains(&number) {
                return Err(BuildError::Exclusions { rule, number });
            }
            if built.first_step().is_some() && built.first_step() == built.last_step() {
                return Err(BuildError::EqualSteps { rule });
            }
        }
        if self.rules.len() > MOST_RULES {
            return Err(BuildError::Rules(self.rules.len()));
        }
        if self.blocks() > MOST_POLICY_BLOCKS {
            return Err(BuildError::PolicyBlocks(self.blocks()));
        }
        Ok(())
    }
}

fn write_permissions(block: &mut [u8], entries: &[(Role, Privilege)]) {
    put_u16(block, 8, entries.len() as u16);
    for (e, (role, privilege)) in entries.iter().enumerate() {
        let at = 16 + 8 * e;
        put_u16(block, at, role.get().into());
        privilege.write(&mut block[at + 2..]);
    }
}

impl fmt::Display for PolicyBuilder {
    fn fmt(&self, f: &mut fmt::Formatter) -> fmt::Result {
        write_text(f, self.rules.iter(), self.permissions.iter().copied())
    }
}

impl FromStr for PolicyBuilder {
    type Err = ParseError;

    fn from_str(text: &str) -> Result<PolicyBuilder, ParseError> {
        let mut policy = PolicyBuilder::new();
        let mut rest = text;
        while rest.starts_with("rule ") {
            // A rule goes on over the lines of its exclusions.
            let end = rest.match_indices('\n').map(|(at, _)| at);
            let end = end.into_iter().find(|at| !rest[at + 1..].starts_with("  "));
            let (lines, behind) = rest.split_at(end.unwrap_or(rest.len()));
            let (_, rule) = lines.cut(": ", "rule of a policy")?;
            policy = policy.rule(rule.parse()?);
            rest = behind.strip_prefix('\n').unwrap_or(behind);
        }
        for line in rest.lines() {
            let permission = line.behind("role ", "permission")?;
            let (role, privilege) = permission.cut(" may do ", "permission")?;
            policy = policy.permit(role.parse()?, privilege.parse()?);
        }
        exactly(policy, text, "policy")
    }
}
