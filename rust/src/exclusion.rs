//! What a rule keeps apart.

use crate::text::{exactly, list, number, pad, Cut, List};
use crate::{BuildError, ParseError, Privilege, Role};
use std::fmt;
use std::str::FromStr;

/// What an exclusion keeps apart.
#[derive(Clone, PartialEq, Eq, Hash, Debug)]
pub enum Members {
    /// Kind 1: roles, none twice.
    Roles(Vec<Role>),
    /// Kind 2: privileges; one that is listed twice may be done once.
    Privileges(Vec<Privilege>),
}

/// Whether an exclusion counts roles or privileges.
#[derive(Clone, Copy, PartialEq, Eq, Hash, Debug)]
pub enum ExclusionKind {
    /// Kind 1; its refusal is 32.
    Roles,
    /// Kind 2; its refusal is 33.
    Privileges,
}

/// Of these members, one user may not reach m.
///
/// ```
/// use hastovimen::{Exclusion, ExclusionKind, Members, Role};
///
/// let [adjuster, checker] = [1, 2].map(Role::of);
/// let exclusion = Exclusion::of_roles(2, &[adjuster, checker])?;
/// assert_eq!((exclusion.m(), exclusion.n()), (2, 2));
/// assert_eq!(exclusion.kind(), ExclusionKind::Roles);
/// assert_eq!(*exclusion.members(), Members::Roles(vec![adjuster, checker]));
/// assert_eq!(exclusion.to_string(), "2 of roles 1, 2");
/// assert_eq!("2 of roles 1, 2".parse(), Ok(exclusion));
/// # Ok::<(), hastovimen::BuildError>(())
/// ```
#[must_use = "an exclusion does nothing until a rule has it"]
#[derive(Clone, PartialEq, Eq, Hash, Debug)]
pub struct Exclusion {
    m: u8,
    members: Members,
}

impl Exclusion {
    /// Nobody may be active in `m` of these roles.
    pub fn of_roles(m: u8, roles: &[Role]) -> Result<Exclusion, BuildError> {
        let twice = (1..roles.len()).find(|&i| roles[..i].contains(&roles[i]));
        if let Some(i) = twice {
            return Err(BuildError::RoleTwice(roles[i]));
        }
        Exclusion::new(m, Members::Roles(roles.to_vec()))
    }

    /// Nobody may do `m` of these privileges. One that is listed once counts once, however often it
    /// is done; one that may be done once, but not twice, is listed twice.
    pub fn of_privileges(m: u8, privileges: &[Privilege]) -> Result<Exclusion, BuildError> {
        Exclusion::new(m, Members::Privileges(privileges.to_vec()))
    }

    fn new(m: u8, members: Members) -> Result<Exclusion, BuildError> {
        let exclusion = Exclusion { m, members };
        let n = exclusion.n();
        if 2 <= m && usize::from(m) <= n && n <= 8 {
            Ok(exclusion)
        } else {
            Err(BuildError::ForbiddenNumber { m, n })
        }
    }

    /// The number that nobody may reach.
    pub fn m(&self) -> u8 {
        self.m
    }

    /// How many members are listed.
    pub fn n(&self) -> usize {
        match &self.members {
            Members::Roles(roles) => roles.len(),
            Members::Privileges(privileges) => privileges.len(),
        }
    }

    /// Whether it counts roles or privileges.
    pub fn kind(&self) -> ExclusionKind {
        match self.members {
            Members::Roles(_) => ExclusionKind::Roles,
            Members::Privileges(_) => ExclusionKind::Privileges,
        }
    }

    /// What it lists, in order.
    pub fn members(&self) -> &Members {
        &self.members
    }

    pub(crate) fn read(bytes: &[u8]) -> Option<Exclusion> {
        let n = usize::from(bytes[2]);
        let listed = bytes.get(4..4 + 4 * n)?.as_chunks::<4>().0.iter();
        let members = match bytes[0] {
            1 => Members::Roles(listed.map(|m| Role::new(m[0])).collect::<Option<_>>()?),
            _ => Members::Privileges(listed.map(|m| Privilege::read(m)).collect::<Option<_>>()?),
        };
        let m = bytes[1];
        Some(Exclusion { m, members })
    }

    pub(crate) fn write(&self, bytes: &mut [u8]) {
        bytes[0] = match self.kind() {
            ExclusionKind::Roles => 1,
            ExclusionKind::Privileges => 2,
        };
        bytes[1] = self.m;
        bytes[2] = self.n() as u8;
        let places = bytes[4..].as_chunks_mut::<4>().0.iter_mut();
        match &self.members {
            Members::Roles(roles) => {
                for (place, role) in places.zip(roles) {
                    place[0] = role.get();
                }
            }
            Members::Privileges(privileges) => {
                for (place, privilege) in places.zip(privileges) {
                    privilege.write(place);
                }
            }
        }
    }
}

impl fmt::Display for Exclusion {
    fn fmt(&self, f: &mut fmt::Formatter) -> fmt::Result {
        let m = self.m;
        match &self.members {
            Members::Roles(roles) => pad(f, format_args!("{m} of roles {}", List(roles.iter()))),
            Members::Privileges(privileges) => {
                let privileges = List(privileges.iter());
                pad(f, format_args!("{m} of privileges {privileges}"))
            }
        }
    }
}

impl FromStr for Exclusion {
    type Err = ParseError;

    fn from_str(text: &str) -> Result<Exclusion, ParseError> {
        let (m, members) = text.cut(" of ", "exclusion")?;
        let m = number(m, "exclusion")?.try_into();
        let m = m.map_err(|_| ParseError::form("exclusion", text))?;
        let exclusion = match members.strip_prefix("roles ") {
            Some(roles) => Exclusion::of_roles(m, &list(roles)?)?,
            None => {
                let privileges = members.behind("privileges ", "exclusion")?;
                Exclusion::of_privileges(m, &list(privileges)?)?
            }
        };
        exactly(exclusion, text, "exclusion")
    }
}
