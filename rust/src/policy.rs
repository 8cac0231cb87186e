//! Policies that were checked.

use crate::bytes::{u16_at, u32_at};
use crate::image::ReadImage;
use crate::lint::{lint, Warning};
use crate::{raw, Privilege, Refusal, Role, Rule, BLOCK};
use std::borrow::Borrow;
use std::fmt;
use std::hash::{Hash, Hasher};

pub(crate) const RULE: u32 = 1;
pub(crate) const PERMISSIONS: u32 = 3;

/// A policy that was checked. Tables are made and opened under it.
///
/// Its image is lent ([`Policy::check`]) or its own ([`Policy::own`], [`PolicyBuf`]). To clone it is
/// cheap: clones share the image.
///
/// Shown as text it is its rules and permissions:
///
/// ```
/// use hastovimen::*;
///
/// const JOB: ContextType = ContextType::of(2);
/// let [adjust, check] = [1, 2].map(|o| Operation::of(o).on(Target::of(1)));
/// let image = PolicyBuilder::new()
///     .rule(Rule::over([Level::each(JOB)]).exclude(Exclusion::of_privileges(2, &[adjust, check])?))
///     .permit(Role::of(1), adjust)
///     .permit(Role::of(2), check)
///     .build()?;
/// let policy = Policy::check(&image)?;
/// assert_eq!(policy.to_string(), "\
/// rule 1: over 2=!
///   exclusion 1: 2 of privileges 1 on 1, 2 on 1
/// role 1 may do 1 on 1
/// role 2 may do 2 on 1
/// ");
/// # Ok::<(), Box<dyn std::error::Error>>(())
/// ```
#[must_use = "a policy does nothing until a table is made or opened under it"]
#[derive(Clone)]
pub struct Policy<'p> {
    image: ReadImage<'p>,
}

/// A policy with an image of its own, which can be kept anywhere.
///
/// ```
/// use hastovimen::*;
///
/// struct Depot {
///     policy: PolicyBuf,
///     tables: Vec<TableBuf>,
/// }
///
/// let policy = Policy::own(PolicyBuilder::new().build()?)?;
/// let tables = vec![policy.new_table(1)?, policy.new_table(128)?];
/// let depot = Depot { policy, tables };
/// assert_eq!(*depot.tables[0].policy(), depot.policy);
/// # Ok::<(), Box<dyn std::error::Error>>(())
/// ```
pub type PolicyBuf = Policy<'static>;

impl PolicyBuf {
    /// Lets the engine check an image, and keeps it.
    pub fn own(image: Vec<u8>) -> Result<PolicyBuf, Refusal> {
        raw::check_policy(&image)?;
        let image = ReadImage::Shared(image.into());
        Ok(Policy { image })
    }
}

impl<'p> Policy<'p> {
    /// Lets the engine check a lent image.
    pub fn check(image: &'p [u8]) -> Result<Policy<'p>, Refusal> {
        raw::check_policy(image)?;
        let image = ReadImage::Lent(image);
        Ok(Policy { image })
    }

    /// The same policy with an image of its own; a lent one is copied.
    pub fn into_owned(self) -> PolicyBuf {
        let image = self.image.into_owned();
        Policy { image }
    }

    /// The image.
    pub fn image(&self) -> &[u8] {
        &self.image
    }

    /// How many rules it has.
    pub fn rule_count(&self) -> usize {
        self.blocks(RULE).count()
    }

    /// Its rules in order.
    pub fn rules(&self) -> impl Iterator<Item = Rule> + '_ {
        self.blocks(RULE)
            .map(|block| Rule::read(block).expect("the policy was checked"))
    }

    /// Its permissions in order.
    pub fn permissions(&self) -> impl Iterator<Item = (Role, Privilege)> + '_ {
        let entries = self.blocks(PERMISSIONS).flat_map(|block| {
            let number = usize::from(u16_at(block, 8));
            block[16..16 + 8 * number].as_chunks::<8>().0
        });
        entries.map(|entry| {
            let privilege = Privilege::read(&entry[2..6]).expect("the policy was checked");
            (Role::of(entry[0]), privilege)
        })
    }

    /// What in this policy is good for the engine, but may not be what its author meant: see
    /// [`Warning`] for what is tested. The warnings come rule by rule.
    ///
    /// ```
    /// use hastovimen::*;
    ///
    /// let step = Operation::of(1).on(Target::of(1));
    /// let apart = Exclusion::of_privileges(2, &[step, step])?;
    /// let image = PolicyBuilder::new()
    ///     .rule(Rule::over([]).exclude(apart))
    ///     .permit(Role::of(1), step)
    ///     .build()?;
    /// let warnings = Policy::check(&image)?.lint();
    /// assert_eq!(warnings, [Warning::NoLastStep { rule: 1 }]);
    /// # Ok::<(), Box<dyn std::error::Error>>(())
    /// ```
    #[must_use]
    pub fn lint(&self) -> Vec<Warning> {
        lint(self)
    }

    fn blocks(&self, kind: u32) -> impl Iterator<Item = &[u8]> {
        self.image
            .chunks_exact(BLOCK)
            .filter(move |block| u32_at(block, 0) == kind)
    }
}

/// Two policies are equal if their images are; so are their stamps then, and each one's tables
/// belong to the other as well.
impl PartialEq for Policy<'_> {
    fn eq(&self, other: &Policy) -> bool {
        self.image() == other.image()
    }
}

impl Eq for Policy<'_> {}

impl Hash for Policy<'_> {
    fn hash<H: Hasher>(&self, state: &mut H) {
        self.image().hash(state);
    }
}

impl fmt::Debug for Policy<'_> {
    fn fmt(&self, f: &mut fmt::Formatter) -> fmt::Result {
        f.debug_struct("Policy")
            .field("rules", &self.rules().collect::<Vec<_>>())
            .field("permissions", &self.permissions().collect::<Vec<_>>())
            .finish()
    }
}

impl fmt::Display for Policy<'_> {
    fn fmt(&self, f: &mut fmt::Formatter) -> fmt::Result {
        write_text(f, self.rules(), self.permissions())
    }
}

/// Rules and permissions, each on a line or more of its own.
pub(crate) fn write_text(
    f: &mut fmt::Formatter,
    rules: impl Iterator<Item: Borrow<Rule>>,
    permissions: impl Iterator<Item = (Role, Privilege)>,
) -> fmt::Result {
    for (r, rule) in rules.enumerate() {
        writeln!(f, "rule {}: {}", r + 1, rule.borrow())?;
    }
    for (role, privilege) in permissions {
        writeln!(f, "role {role} may do {privilege}")?;
    }
    Ok(())
}
