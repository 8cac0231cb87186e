//! The rules of a policy.

use crate::text::{exactly, Cut};
use crate::{Context, Exclusion, Level, Levels, ParseError, Privilege};
use std::fmt;
use std::str::FromStr;

/// A rule: over which contexts, from which first to which last step, what is kept apart.
///
/// ```
/// use hastovimen::*;
///
/// const JOB: ContextType = ContextType::of(2);
/// let [adjust, check, close] = [1, 2, 4].map(|o| Operation::of(o).on(Target::of(1)));
/// let apart = Exclusion::of_privileges(2, &[adjust, check])?;
/// let rule = Rule::over([Level::each(JOB)]).last(close).exclude(apart.clone());
///
/// assert_eq!((rule.depth(), rule.levels()), (1, Levels::from([Level::each(JOB)])));
/// assert_eq!((rule.first_step(), rule.last_step()), (None, Some(close)));
/// assert_eq!(rule.exclusions(), [apart]);
/// let text = "over 2=!; last step 4 on 1\n  exclusion 1: 2 of privileges 1 on 1, 2 on 1";
/// assert_eq!(rule.to_string(), text);
/// assert_eq!(text.parse(), Ok(rule));
/// # Ok::<(), BuildError>(())
/// ```
#[must_use = "a rule does nothing until a policy has it"]
#[derive(Clone, PartialEq, Eq, Hash, Debug)]
pub struct Rule {
    levels: Levels,
    first: Option<Privilege>,
    last: Option<Privilege>,
    exclusions: Vec<Exclusion>,
}

impl Rule {
    /// A rule over the contexts that begin with these levels. It still needs an exclusion.
    pub fn over(levels: impl Into<Levels>) -> Rule {
        Rule {
            levels: levels.into(),
            first: None,
            last: None,
            exclusions: vec![],
        }
    }

    /// The rule is silent until this step is granted.
    pub fn first(mut self, step: Privilege) -> Rule {
        self.first = Some(step);
        self
    }

    /// With this step what was done before is forgotten by the rule.
    pub fn last(mut self, step: Privilege) -> Rule {
        self.last = Some(step);
        self
    }

    /// One more exclusion, behind the others.
    pub fn exclude(mut self, exclusion: Exclusion) -> Rule {
        self.exclusions.push(exclusion);
        self
    }

    /// The levels of its context.
    pub fn levels(&self) -> Levels {
        self.levels
    }

    /// How many levels its context has.
    pub fn depth(&self) -> usize {
        self.levels.depth()
    }

    /// Whether a context fits it.
    pub fn fits(&self, context: &Context) -> bool {
        self.levels.fit(context)
    }

    /// The step until which it is silent, if there is one.
    pub fn first_step(&self) -> Option<Privilege> {
        self.first
    }

    /// The step that ends a run of it, if there is one.
    pub fn last_step(&self) -> Option<Privilege> {
        self.last
    }

    /// Its exclusions, in order.
    pub fn exclusions(&self) -> &[Exclusion] {
        &self.exclusions
    }

    pub(crate) fn read(block: &[u8]) -> Option<Rule> {
        let depth = usize::from(block[8]);
        let levels: Option<Vec<Level>> = (0..depth)
            .map(|i| Level::read(&block[16 + 8 * i..]))
            .collect();
        let exclusions: Option<Vec<Exclusion>> = (0..usize::from(block[9]))
            .map(|x| Exclusion::read(&block[56 + 36 * x..][..36]))
            .collect();
        Some(Rule {
            levels: Levels::new(&levels?)?,
            first: Privilege::read(&block[48..52]),
            last: Privilege::read(&block[52..56]),
            exclusions: exclusions?,
        })
    }

    pub(crate) fn write(&self, block: &mut [u8]) {
        block[8] = self.depth() as u8;
        block[9] = self.exclusions.len() as u8;
        block[10] = self.first.is_some().into();
        block[11] = self.last.is_some().into();
        for (i, level) in self.levels.iter().enumerate() {
            level.write(&mut block[16 + 8 * i..]);
        }
        for (at, step) in [(48, self.first), (52, self.last)] {
            if let Some(step) = step {
                step.write(&mut block[at..]);
            }
        }
        for (x, exclusion) in self.exclusions.iter().enumerate() {
            exclusion.write(&mut block[56 + 36 * x..][..36]);
        }
    }
}

/// A line for the context and the steps, and one for each exclusion.
impl fmt::Display for Rule {
    fn fmt(&self, f: &mut fmt::Formatter) -> fmt::Result {
        write!(f, "over {}", self.levels)?;
        if let Some(first) = self.first {
            write!(f, "; first step {first}")?;
        }
        if let Some(last) = self.last {
            write!(f, "; last step {last}")?;
        }
        for (x, exclusion) in self.exclusions.iter().enumerate() {
            write!(f, "\n  exclusion {}: {exclusion}", x + 1)?;
        }
        Ok(())
    }
}

impl FromStr for Rule {
    type Err = ParseError;

    fn from_str(text: &str) -> Result<Rule, ParseError> {
        let mut lines = text.split('\n');
        let heading = lines.next().unwrap_or_default();
        let mut parts = heading.behind("over ", "rule")?.split("; ");
        let levels: Levels = parts.next().unwrap_or_default().parse()?;
        let mut rule = Rule::over(levels);
        for part in parts {
            rule = match part.strip_prefix("first step ") {
                Some(step) => rule.first(step.parse()?),
                None => rule.last(part.behind("last step ", "step of a rule")?.parse()?),
            };
        }
        for line in lines {
            let (_, exclusion) = line.cut(": ", "line of an exclusion")?;
            rule = rule.exclude(exclusion.parse()?);
        }
        exactly(rule, text, "rule")
    }
}
