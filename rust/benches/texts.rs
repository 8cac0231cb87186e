//! Rules read from a text and written as one: document 02, W5.
//!
//! The largest policy has 32 rules of four levels, both steps and 8 exclusions of 8 members. Its list has
//! 1,024 names, and those that it uses stand at the end. Long names have 60 bytes and differ in the last
//! few, so that none is told from another early; short ones have 5; mixed ones have 5 to 60, so that most
//! are told from another by their length.

use super::*;
use independent::xml::{write_names, Entry, OPERATION, ROLE, TARGET, TYPE, VALUE};
use std::ops::RangeInclusive;

/// How many names a full list has.
const LISTED: usize = 1_024;

/// The length of the name of a number.
type Length = fn(u16) -> usize;
const LONG: Length = |_| 60;
const SHORT: Length = |_| 5;
const MIXED: Length = |number| 5 + usize::from(number) % 56;

/// A policy, the list of its names, and its rules as text.
pub struct Written {
    name: &'static str,
    policy: Vec<u8>,
    names: Vec<u8>,
    /// What is read, and what is written: the same but for section 3, which has white space.
    text: Vec<u8>,
    spelled: Vec<u8>,
}

pub struct Texts {
    pub privileges: Written,
    roles: Written,
    short: Written,
    mixed: Written,
    pub section_3: Written,
}

impl Texts {
    pub fn new() -> Texts {
        let by_privileges = write_policy(&largest(eight_privileges));
        let by_roles = write_policy(&largest(eight_roles));
        let largest = |name, policy: &[u8], names: Vec<u8>| {
            let text = spelling(policy, &names);
            Written::of(name, policy.to_vec(), names, text)
        };
        Texts {
            privileges: largest(
                "largest, privileges, long names",
                &by_privileges,
                names_of_privileges(LONG),
            ),
            roles: largest("largest, roles, long names", &by_roles, names_of_roles()),
            short: largest(
                "largest, privileges, short names",
                &by_privileges,
                names_of_privileges(SHORT),
            ),
            mixed: largest(
                "largest, privileges, mixed names",
                &by_privileges,
                names_of_privileges(MIXED),
            ),
            section_3: section_3(),
        }
    }

    pub fn workloads(&self) -> Vec<Workload> {
        let mut workloads = vec![];
        for one in [
            &self.privileges,
            &self.roles,
            &self.short,
            &self.mixed,
            &self.section_3,
        ] {
            workloads.push(one.read());
            workloads.push(one.write());
        }
        workloads.push(self.privileges.refused_at_its_last_byte());
        let lists = [
            (&self.privileges, "1,024 long names, two kinds"),
            (&self.roles, "1,024 long names, one kind"),
            (&self.short, "1,024 short names, two kinds"),
            (&self.mixed, "1,024 mixed names, two kinds"),
        ];
        workloads.extend(lists.map(|(one, list)| one.refused_at_once(list)));
        workloads
    }
}

impl Written {
    fn of(name: &'static str, policy: Vec<u8>, names: Vec<u8>, text: Vec<u8>) -> Written {
        let spelled = spelling(&policy, &names);
        Written {
            name,
            policy,
            names,
            text,
            spelled,
        }
    }

    /// The policy is the second image too, so that just the policy comes of its text.
    pub fn read(&self) -> Workload {
        let mut image = vec![0; self.policy.len()];
        let expected = Reply::accept(image.len());
        let workload = self.reading(&self.text, expected);
        workload.by_rust(&mut image);
        assert!(image == self.policy, "{}: another policy", self.name);
        Workload {
            name: format!("text: read, {}", self.name),
            table: vec![0; image.len()],
            ..workload
        }
    }

    /// Any text, with this list and this second image.
    pub fn reading(&self, text: &[u8], expected: Reply) -> Workload {
        let room = if expected.is_refusal() {
            0
        } else {
            expected.first as usize
        };
        Workload {
            name: String::new(),
            call: Call::ReadRules,
            policy: self.policy.clone(),
            table: vec![0; room],
            request: text.to_vec(),
            names: self.names.clone(),
            expected,
            written: None,
        }
    }

    fn write(&self) -> Workload {
        Workload {
            name: format!("text: written, {}", self.name),
            call: Call::WriteRules,
            table: vec![0; self.spelled.len()],
            request: vec![],
            expected: Reply::accept(self.spelled.len()),
            ..self.read()
        }
    }

    /// All is read, and all names are looked up, before the byte that the form does not have.
    fn refused_at_its_last_byte(&self) -> Workload {
        let mut text = self.text.clone();
        *text.last_mut().expect("a text") = b'!';
        Workload {
            name: "text: 41 at the last byte, largest, long names".into(),
            ..self.reading(&text, Reply::refuse(41, text.len() - 1, 0))
        }
    }

    /// No name is looked up: what is measured is the check of the list.
    fn refused_at_once(&self, list: &str) -> Workload {
        Workload {
            name: format!("text: 41 at once, {list}"),
            ..self.reading(b"!", Reply::refuse(41, 0, 0))
        }
    }
}

fn spelling(policy: &[u8], names: &[u8]) -> Vec<u8> {
    let mut text = vec![0; 1 << 20];
    let reply = quick_xml::write_rules(policy, names, &mut text);
    assert!(!reply.is_refusal(), "the rules cannot be written");
    text.truncate(reply.first as usize);
    text
}

// ---------------------------------------------------------------------------------------------
// The largest policies and their lists

/// 32 rules and 32 blocks of permissions; the exclusions of a rule by ordinal, from 0.
fn largest(exclusion: fn(u16) -> Exclusion) -> Policy {
    let rule = Rule {
        levels: (1..=4).map(|at| level(at, Mark::Fixed(at))).collect(),
        first: Some(pair(63)),
        last: Some(pair(64)),
        exclusions: (0..8).map(exclusion).collect(),
    };
    let permission = Permission {
        role: 1,
        privilege: pair(1),
    };
    Policy {
        rules: vec![rule; 32],
        permissions: vec![vec![permission; 61]; 32],
    }
}

fn pair(number: u16) -> Privilege {
    Privilege {
        operation: number,
        target: number,
    }
}

/// 64 privileges in all.
fn eight_privileges(x: u16) -> Exclusion {
    let members = Members::Privileges((1..=8).map(|i| pair(8 * x + i)).collect());
    Exclusion { m: 8, members }
}

/// All 32 roles, twice.
fn eight_roles(x: u16) -> Exclusion {
    let listed: Vec<u16> = (1..=8).map(|i| x % 4 * 8 + i).collect();
    roles(8, &listed)
}

/// Operations and targets by turns.
fn names_of_privileges(length: Length) -> Vec<u8> {
    let used = [(OPERATION, 1..=64), (TARGET, 1..=64)];
    full_list(&[OPERATION, TARGET], &used, length)
}

/// Roles, most of them with a number that no rule can have.
fn names_of_roles() -> Vec<u8> {
    let used = [(OPERATION, 63..=64), (TARGET, 63..=64), (ROLE, 1..=32)];
    full_list(&[ROLE], &used, LONG)
}

/// Names of these kinds by turns that no rule uses, and behind them those that the rules use.
fn full_list(kinds: &[u8], used: &[(u8, RangeInclusive<u16>)], length: Length) -> Vec<u8> {
    let levels = [(TYPE, 1..=4), (VALUE, 1..=4)];
    let used = used.iter().chain(&levels);
    let behind: Vec<(u8, u16)> = used
        .flat_map(|(kind, numbers)| numbers.clone().map(|number| (*kind, number)))
        .collect();
    let in_front = (0..LISTED - behind.len()).map(|i| (kinds[i % kinds.len()], 1_000 + i as u16));
    let entries: Vec<Entry> = (in_front.chain(behind.iter().copied()))
        .map(|(kind, number)| entry(kind, number, &format!("{number:a>0$}", length(number))))
        .collect();
    write_names(&entries)
}

fn entry(kind: u8, number: u16, name: &str) -> Entry {
    Entry {
        kind,
        number,
        name: name.into(),
    }
}

// ---------------------------------------------------------------------------------------------
// The two policies of section 3

const SAMPLE: &str = include_str!("../tests/xml/section_3.txt");

/// Read from its text, which is mended to the form: no comments, and the second policy ends in an end tag.
fn section_3() -> Written {
    let mut text = SAMPLE.replace("taxRefundProcess=!\"/>", "taxRefundProcess=!\">");
    while let (Some(from), Some(end)) = (text.find("<!--"), text.find("-->")) {
        text.replace_range(from..end + 3, "");
    }
    let permissions = Policy {
        rules: vec![],
        permissions: vec![vec![]],
    };
    let names = section_3_names();
    let mut policy = vec![0; 3 * BLOCK];
    let reply = quick_xml::read_rules(
        text.as_bytes(),
        &names,
        &write_policy(&permissions),
        &mut policy,
    );
    assert_eq!(reply, Reply::accept(policy.len()));
    Written::of("section 3, 20 names", policy, names, text.into_bytes())
}

/// Its own 15 names behind five values that it does not use.
fn section_3_names() -> Vec<u8> {
    let values = (1..=5).map(|number| entry(VALUE, number, &format!("Branch-{number}")));
    let own = [
        entry(TYPE, 1, "Branch"),
        entry(TYPE, 2, "Period"),
        entry(TYPE, 3, "TaxOffice"),
        entry(TYPE, 4, "taxRefundProcess"),
        entry(ROLE, 1, "Teller"),
        entry(ROLE, 2, "Auditor"),
        entry(OPERATION, 1, "CommitAudit"),
        entry(OPERATION, 2, "prepareCheck"),
        entry(OPERATION, 3, "confirmCheck"),
        entry(OPERATION, 4, "approve/disapproveCheck"),
        entry(OPERATION, 5, "combineResults"),
        entry(TARGET, 1, "http://audit.location.com/audit"),
        entry(TARGET, 2, "http://www.myTaxOffice.com/Check"),
        entry(TARGET, 3, "http://secret.location.com/audit"),
        entry(TARGET, 4, "http://secret.location.com/results"),
    ];
    let entries: Vec<Entry> = values.chain(own).collect();
    assert_eq!(entries.len(), 20);
    write_names(&entries)
}
