//! The sample session of document 01: fifteen requests, fifteen lines, from the engine, from both
//! independent judges and from the register; and from the preview just before each request. Then
//! closings of what it leaves.

mod independent;
mod support;

use independent::images::*;
use independent::register::Register;
use independent::Reply;
use support::compare::Comparing;
use support::plain;

const LINES: &str = include_str!("../../examples/session.expected");

/// Every target is 1.
fn privilege(operation: u16) -> Privilege {
    Privilege {
        operation,
        target: 1,
    }
}

fn level(kind: u16, mark: Mark) -> Level {
    Level { kind, mark }
}

/// Types: 1 depot, 2 job. Operations: 1 adjust, 2 check, 4 close, 5 begin count, 6 end count.
fn policy() -> Policy {
    let roles = |m, roles: &[u16]| Exclusion {
        m,
        members: Members::Roles(roles.to_vec()),
    };
    let privileges = |m, operations: &[u16]| Exclusion {
        m,
        members: Members::Privileges(operations.iter().map(|&o| privilege(o)).collect()),
    };
    let permission = |role, operation| Permission {
        role,
        privilege: privilege(operation),
    };
    Policy {
        rules: vec![
            Rule {
                levels: vec![level(1, Mark::Every), level(2, Mark::Each)],
                first: None,
                last: Some(privilege(4)),
                exclusions: vec![privileges(2, &[1, 2, 2]), roles(2, &[1, 2])],
            },
            Rule {
                levels: vec![level(1, Mark::Each)],
                first: Some(privilege(5)),
                last: Some(privilege(6)),
                exclusions: vec![roles(2, &[1, 3])],
            },
        ],
        permissions: vec![vec![
            permission(1, 1),
            permission(2, 2),
            permission(2, 4),
            permission(3, 5),
        ]],
    }
}

/// User, roles, operation, depot and job.
type Asked = (u32, &'static [u16], u16, &'static [u16]);

const SESSION: [Asked; 15] = [
    (7, &[1], 1, &[5, 90]),
    (7, &[2], 2, &[5, 90]),
    (7, &[2], 2, &[6, 90]),
    (7, &[2], 2, &[5, 91]),
    (8, &[2], 2, &[5, 90]),
    (8, &[2], 2, &[5, 90]),
    (8, &[1], 2, &[5, 90]),
    (9, &[1, 2], 1, &[5, 90]),
    (8, &[2], 4, &[5, 90]),
    (7, &[2], 2, &[5, 90]),
    (7, &[2], 2, &[5]),
    (10, &[3], 5, &[5]),
    (10, &[1], 1, &[5, 92]),
    (11, &[1], 1, &[5, 92]),
    (12, &[2], 4, &[5, 92]),
];

fn request(asked: &Asked) -> [u8; REQUEST] {
    let &(user, roles, operation, values) = asked;
    write_request(&Request {
        user,
        roles: roles.iter().fold(0, |set, role| set | 1 << (role - 1)),
        privilege: privilege(operation),
        context: values
            .iter()
            .enumerate()
            .map(|(i, &value)| (i as u16 + 1, value))
            .collect(),
    })
}

/// A line of the trial program.
fn line(ordinal: usize, reply: Reply) -> String {
    format!("{ordinal} {}", plain::line(reply))
}

/// The session while it goes on.
struct Session {
    comparing: Comparing,
    policy: Vec<u8>,
    table: Vec<u8>,
    register: Register,
}

impl Session {
    fn new() -> Session {
        let policy = write_policy(&policy());
        let mut comparing = Comparing::new();
        assert_eq!(comparing.check_policy(&policy), Reply::accept(2));
        let mut table = vec![0xEE; 512];
        let fresh = comparing.fresh_table(&policy, &mut table);
        assert_eq!(fresh, Reply::accept(15));
        let register = Register::new(&policy, 1);
        assert_eq!(table, register.image());
        Session {
            comparing,
            policy,
            table,
            register,
        }
    }

    /// After the fifteen lines.
    fn ended() -> Session {
        let mut session = Session::new();
        for asked in &SESSION {
            session.asks(asked);
        }
        session
    }

    /// The answer to a request, and to its preview just before.
    fn asks(&mut self, asked: &Asked) -> Reply {
        let request = request(asked);
        let previewed = (self.comparing).preview(&self.policy, &self.table, &request);
        let decided = (self.comparing).decide(&self.policy, &mut self.table, &request);
        let registered = self.register.answer(&request);
        assert_eq!([previewed, registered], [decided; 2]);
        self.is_registered();
        decided
    }

    /// A closing removes so many.
    fn closes(&mut self, values: &[u16], removed: usize) {
        let levels: Context = (1..).zip(values.iter().copied()).collect();
        let context = write_context(&levels);
        let closed = (self.comparing).close(&self.policy, &mut self.table, &context);
        let registered = self.register.close(&context);
        assert_eq!([closed, registered], [Reply::accept(removed); 2]);
        self.is_registered();
    }

    fn is_registered(&self) {
        assert_eq!(self.table, self.register.image());
        assert!(self.register.nobody_has_reached_m());
        assert_ne!(self.register.is_document_01s(), Some(false));
    }
}

#[test]
fn fifteen_lines() {
    let mut session = Session::new();
    let mut lines = LINES.lines();
    for (i, asked) in SESSION.iter().enumerate() {
        assert_eq!(line(i + 1, session.asks(asked)), lines.next().unwrap());
    }
    assert_eq!(lines.next(), None);
    let held = (session.comparing).check_table(&session.policy, &session.table);
    assert_eq!(held, Reply::accept(5));
}

/// The fifteen requests leave five records: checking in jobs 91 and 90, the beginning of the count, and
/// adjusting and closing in job 92, which only the count has kept. All are of depot 5.
#[test]
fn closings_after_them() {
    Session::ended().closes(&[], 5);
    Session::ended().closes(&[5], 5);
    Session::ended().closes(&[6], 0);
    Session::ended().closes(&[5, 90], 1);
    Session::ended().closes(&[5, 91], 1);
    Session::ended().closes(&[5, 90, 1], 0);
    let mut session = Session::ended();
    session.closes(&[5, 92], 2);
    // The count goes on: who has begun it may not adjust in any job of the depot.
    let (adjusts, checks) = (
        (10, &[1][..], 1, &[5, 92][..]),
        (7, &[2][..], 2, &[5, 90][..]),
    );
    assert_eq!(session.asks(&adjusts), Reply::refuse(32, 2, 1));
    assert_eq!(session.asks(&checks), Reply::refuse(33, 1, 1));
    session.closes(&[5], 3);
    // Now it is over, and nobody has checked anything.
    assert_eq!(session.asks(&adjusts), Reply::grant(1, 0, 1));
    assert_eq!(session.asks(&checks), Reply::grant(1, 0, 2));
}
