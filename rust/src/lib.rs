//! A decision engine for multi-session separation of duties: one person adjusts an instrument,
//! another checks it, however many visits lie between the two.
//!
//! The engine itself is proved (crates/ in this repository) and linked as target/staticlib/libsod.a,
//! or from the folder that the variable SOD_LIB_DIR names, by an absolute path, when this crate is
//! built. This crate makes it pleasant to call from Rust, and hard to call wrongly:
//!
//! * a [`Policy`] is an image that the engine has checked; [`Policy::lint`] warns of what may not
//!   be meant;
//! * a [`Table`] was made fresh or checked under its policy, and nobody else can touch its buffer;
//! * both lie in lent bytes or, as [`PolicyBuf`] and [`TableBuf`], in their own;
//! * a [`Request`] has numbers of the right lists, and none that no list has;
//! * a decision is a [`Grant`] or a [`Refusal`], which can be shown in words;
//! * [`Table::preview`] tells what a decision would be, and gives no grant, but a [`Preview`];
//! * [`Table::close`] removes the records of a [`Context`], such as a depot that shuts;
//! * [`PolicyBuilder`] and [`TableBuilder`] write images;
//! * [`Policy::from_xml`] reads a policy's rules from the published XML, and [`Policy::to_xml`] writes
//!   them; [`Names`], made by [`NamesBuilder`], says which name stands for which number; an [`XmlError`]
//!   has line and column, and what was expected there;
//! * requests, policies, grants, previews and refusals can be read from the text that shows them
//!   ([`ParseError`]);
//! * [`raw`] has the eight calls on any bytes.
//!
//! A call allocates nothing and takes at most 24 KiB of stack, [`STACK`]. Where tables are kept in
//! files, examples/keep.rs shows how to store them safely.
//!
//! # The sample session
//!
//! Rule 1 keeps apart, within each job, whatever the depot: adjusting, checking, and checking again;
//! and the roles of adjuster and checker. It ends when the job is closed. Rule 2 keeps apart the
//! roles of adjuster and counter in a depot while stock is counted there.
//!
//! ```
//! use hastovimen::*;
//!
//! const DEPOT: ContextType = ContextType::of(1);
//! const JOB: ContextType = ContextType::of(2);
//!
//! const ADJUSTER: Role = Role::of(1);
//! const CHECKER: Role = Role::of(2);
//! const COUNTER: Role = Role::of(3);
//!
//! const BENCH: Target = Target::of(1);
//! const ADJUST: Privilege = Operation::of(1).on(BENCH);
//! const CHECK: Privilege = Operation::of(2).on(BENCH);
//! const CLOSE: Privilege = Operation::of(4).on(BENCH);
//! const BEGIN_COUNT: Privilege = Operation::of(5).on(BENCH);
//! const END_COUNT: Privilege = Operation::of(6).on(BENCH);
//!
//! let image = PolicyBuilder::new()
//!     .rule(
//!         Rule::over([Level::every(DEPOT), Level::each(JOB)])
//!             .last(CLOSE)
//!             .exclude(Exclusion::of_privileges(2, &[ADJUST, CHECK, CHECK])?)
//!             .exclude(Exclusion::of_roles(2, &[ADJUSTER, CHECKER])?),
//!     )
//!     .rule(
//!         Rule::over([Level::each(DEPOT)])
//!             .first(BEGIN_COUNT)
//!             .last(END_COUNT)
//!             .exclude(Exclusion::of_roles(2, &[ADJUSTER, COUNTER])?),
//!     )
//!     .permit(ADJUSTER, ADJUST)
//!     .permit(CHECKER, CHECK)
//!     .permit(CHECKER, CLOSE)
//!     .permit(COUNTER, BEGIN_COUNT)
//!     .build()?;
//! let policy = Policy::check(&image)?;
//!
//! let depot = |depot| Context::from([(DEPOT, ContextValue::of(depot))]);
//! let job = |depot, job| {
//!     Context::from([(DEPOT, ContextValue::of(depot)), (JOB, ContextValue::of(job))])
//! };
//! let both = Roles::from(ADJUSTER).and(CHECKER);
//! let ask = |user, roles, privilege, context| {
//!     Request::new(User::of(user), roles, privilege, context)
//! };
//! let [adjuster, checker, counter] = [ADJUSTER, CHECKER, COUNTER].map(Roles::from);
//!
//! let session = [
//!     (ask(7, adjuster, ADJUST, job(5, 90)), "grant 1 0 1"),
//!     (ask(7, checker, CHECK, job(5, 90)), "refuse 33 1 1"),
//!     (ask(7, checker, CHECK, job(6, 90)), "refuse 33 1 1"),
//!     (ask(7, checker, CHECK, job(5, 91)), "grant 1 0 2"),
//!     (ask(8, checker, CHECK, job(5, 90)), "grant 1 0 3"),
//!     (ask(8, checker, CHECK, job(5, 90)), "refuse 33 1 1"),
//!     (ask(8, adjuster, CHECK, job(5, 90)), "refuse 31 0 0"),
//!     (ask(9, both, ADJUST, job(5, 90)), "refuse 32 1 2"),
//!     (ask(8, checker, CLOSE, job(5, 90)), "grant 0 2 1"),
//!     (ask(7, checker, CHECK, job(5, 90)), "grant 1 0 2"),
//!     (ask(7, checker, CHECK, depot(5)), "grant 0 0 2"),
//!     (ask(10, counter, BEGIN_COUNT, depot(5)), "grant 1 0 3"),
//!     (ask(10, adjuster, ADJUST, job(5, 92)), "refuse 32 2 1"),
//!     (ask(11, adjuster, ADJUST, job(5, 92)), "grant 1 0 4"),
//!     (ask(12, checker, CLOSE, job(5, 92)), "grant 1 0 5"),
//! ];
//!
//! let mut buffer = [0; 512];
//! let mut table = policy.fresh_table(&mut buffer)?;
//! for (request, answer) in &session {
//!     assert_eq!(Line(table.decide(request)).to_string(), *answer, "{request}");
//! }
//!
//! // The adjustment of job 92 was closed under rule 1, but the count of depot 5 still needs it.
//! assert_eq!(table.to_string(), "\
//! 5 of 15 places
//! 1: user 7 in role 2: 2 on 1 at 1=5, 2=91 (rules 1)
//! 2: user 7 in role 2: 2 on 1 at 1=5, 2=90 (rules 1)
//! 3: user 10 in role 3: 5 on 1 at 1=5 (rules 2)
//! 4: user 11 in role 1: 1 on 1 at 1=5, 2=92 (rules 2)
//! 5: user 12 in role 2: 4 on 1 at 1=5, 2=92 (rules 2)
//! ");
//!
//! // Depot 5 shuts, and with it the count: nothing that was done there counts any more.
//! assert_eq!(table.close(&depot(6)), Ok(0));
//! assert_eq!(table.close(&job(5, 92)), Ok(2));
//! assert_eq!(table.close(&depot(5)), Ok(3));
//! let (request, _) = &session[12];
//! assert_eq!(Line(table.decide(request)).to_string(), "grant 1 0 1");
//!
//! // A stored table is checked before it is used again.
//! let stored = table.image().to_vec();
//! let mut restored = stored.clone();
//! assert!(policy.open_table(&mut restored).is_ok());
//! let mut damaged = stored;
//! damaged[24] ^= 1;
//! let refusal = policy.open_table(&mut damaged).unwrap_err();
//! assert_eq!(refusal, Refusal::TableCheck { block: 0 });
//! assert_eq!(refusal.to_string(), "12: table block 0: the check is wrong");
//! # Ok::<(), Box<dyn std::error::Error>>(())
//! ```

#![deny(unsafe_code)]
#![warn(missing_docs)]

mod build_error;
mod bytes;
mod context;
mod exclusion;
mod expected;
mod grant;
mod image;
mod level;
mod limits;
mod lint;
mod named;
mod names;
mod names_builder;
mod names_error;
mod numbers;
mod policy;
mod policy_builder;
mod preview;
mod privilege;
pub mod raw;
mod record;
mod refusal;
mod request;
mod roles;
mod rule;
mod table;
mod table_builder;
mod text;
mod unwritable;
mod words;
mod xml;
mod xml_error;

pub use build_error::BuildError;
pub use context::Context;
pub use exclusion::{Exclusion, ExclusionKind, Members};
pub use expected::Expected;
pub use grant::{Grant, Line};
pub use level::{Level, Levels, Mark};
pub use limits::{
    BLOCK, MOST_NAMES, MOST_POLICY_BLOCKS, MOST_RULES, MOST_TABLE_BLOCKS, MOST_TEXT, NAME,
    RECORDS_PER_BLOCK, STACK, VERSION,
};
pub use lint::Warning;
pub use named::{NameKind, Named};
pub use names::{Names, NamesBuf};
pub use names_builder::NamesBuilder;
pub use names_error::NamesError;
pub use numbers::{ContextType, ContextValue, Operation, OutOfRange, Role, Target, User};
pub use policy::{Policy, PolicyBuf};
pub use policy_builder::PolicyBuilder;
pub use preview::Preview;
pub use privilege::Privilege;
pub use record::{Marks, Record};
pub use refusal::Refusal;
pub use request::Request;
pub use roles::Roles;
pub use rule::Rule;
pub use table::{Table, TableBuf};
pub use table_builder::TableBuilder;
pub use text::ParseError;
pub use unwritable::Unwritable;
pub use xml_error::{Place, XmlError};
