//! Requests.

use crate::bytes::{put_u32, u32_at};
use crate::text::{exactly, pad, Cut};
use crate::{Context, ParseError, Privilege, Refusal, Roles, User};
use std::fmt;
use std::str::FromStr;

const REQUEST: &str = "request";

/// What a user wants to do, in which roles and where.
#[must_use = "a request does nothing until it is decided"]
#[derive(Clone, Copy, PartialEq, Eq, Hash, Debug)]
pub struct Request {
    /// Who asks.
    pub user: User,
    /// The roles that are active.
    pub roles: Roles,
    /// What is to be done to what.
    pub privilege: Privilege,
    /// Where in the business.
    pub context: Context,
}

impl Request {
    /// The length of a request's image.
    pub const LENGTH: usize = 28;

    /// A request, from whatever makes roles and a context.
    ///
    /// ```
    /// use hastovimen::*;
    ///
    /// let adjust = Operation::of(1).on(Target::of(1));
    /// let depot = (ContextType::of(1), ContextValue::of(5));
    /// let request = Request::new(User::of(7), Role::of(1), adjust, [depot]);
    /// assert_eq!(request.to_string(), "user 7 in role 1: 1 on 1 at 1=5");
    /// assert_eq!("user 7 in role 1: 1 on 1 at 1=5".parse(), Ok(request));
    /// assert_eq!(Request::read(&request.to_bytes()), Ok(request));
    /// ```
    ///
    /// Numbers of different lists cannot be mixed up:
    ///
    /// ```compile_fail
    /// use hastovimen::*;
    ///
    /// let adjust = Operation::of(1).on(Target::of(1));
    /// let request = Request::new(Role::of(1), User::of(7), adjust, []);
    /// ```
    pub fn new(
        user: User,
        roles: impl Into<Roles>,
        privilege: Privilege,
        context: impl Into<Context>,
    ) -> Request {
        Request {
            user,
            roles: roles.into(),
            privilege,
            context: context.into(),
        }
    }

    /// The request that some bytes are, or the refusal that a decision would give them.
    pub fn read(bytes: &[u8]) -> Result<Request, Refusal> {
        let bytes = bytes.try_into().map_err(|_| Refusal::RequestLength)?;
        Request::read_fields(bytes).ok_or(Refusal::RequestField)
    }

    fn read_fields(bytes: &[u8; Request::LENGTH]) -> Option<Request> {
        Some(Request {
            user: User::new(u32_at(bytes, 0))?,
            roles: Roles::from_bits(u32_at(bytes, 4))?,
            privilege: Privilege::read(&bytes[8..12])?,
            context: Context::read(&bytes[12..]).ok()?,
        })
    }

    /// The request's image.
    #[must_use]
    pub fn to_bytes(&self) -> [u8; Request::LENGTH] {
        let mut bytes = [0; Request::LENGTH];
        put_u32(&mut bytes, 0, self.user.get());
        put_u32(&mut bytes, 4, self.roles.bits());
        self.privilege.write(&mut bytes[8..12]);
        self.context.write(&mut bytes[12..]);
        bytes
    }
}

impl fmt::Display for Request {
    fn fmt(&self, f: &mut fmt::Formatter) -> fmt::Result {
        let Request {
            user,
            roles,
            privilege,
            context,
        } = self;
        let s = if roles.bits().count_ones() == 1 {
            ""
        } else {
            "s"
        };
        let text = format_args!("user {user} in role{s} {roles}: {privilege} at {context}");
        pad(f, text)
    }
}

impl FromStr for Request {
    type Err = ParseError;

    fn from_str(text: &str) -> Result<Request, ParseError> {
        let (user, rest) = text.behind("user ", REQUEST)?.cut(" in role", REQUEST)?;
        let (roles, rest) = rest.cut(": ", REQUEST)?;
        let (privilege, context) = rest.cut(" at ", REQUEST)?;
        let request = Request {
            user: user.parse()?,
            roles: roles.trim_start_matches('s').trim_start().parse()?,
            privilege: privilege.parse()?,
            context: context.parse()?,
        };
        exactly(request, text, REQUEST)
    }
}
