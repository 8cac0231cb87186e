//! What the edges have in common: one list of names, one text that reads, and the ways to ask.

use crate::independent::images::*;
use crate::independent::xml::*;
use crate::independent::Reply;
use crate::support::texts::Texts;

/// Every name that the edges use. `both` is a name of every kind; `outsider` is a role above 32.
const NAMES: [(u8, u16, &str); 22] = [
    (TYPE, 1, "Branch"),
    (TYPE, 2, "Period"),
    (TYPE, 3, "Desk"),
    (TYPE, 4, "Day"),
    (TYPE, 65535, "Hour"),
    (TYPE, 6, "both"),
    (VALUE, 1, "York"),
    (VALUE, 65535, "Leeds"),
    (VALUE, 7, "both"),
    (ROLE, 1, "Teller"),
    (ROLE, 2, "Auditor"),
    (ROLE, 32, "Clerk"),
    (ROLE, 33, "outsider"),
    (ROLE, 8, "both"),
    (OPERATION, 1, "prepare"),
    (OPERATION, 2, "approve/disapprove"),
    (OPERATION, 65535, "commit"),
    (OPERATION, 9, "both"),
    (TARGET, 1, "http://audit.location.com/audit"),
    (TARGET, 2, "check"),
    (TARGET, 65535, "till"),
    (TARGET, 10, "both"),
];

pub fn entry(kind: u8, number: u16, name: &str) -> Entry {
    let name = name.as_bytes().to_vec();
    Entry { kind, number, name }
}

pub fn entries() -> Vec<Entry> {
    NAMES
        .map(|(kind, number, name)| entry(kind, number, name))
        .to_vec()
}

pub fn names() -> Vec<u8> {
    write_names(&entries())
}

pub fn refuse(number: usize, first: usize) -> Reply {
    Reply::refuse(number, first, 0)
}

pub fn privilege(operation: u16, target: u16) -> Privilege {
    Privilege { operation, target }
}

pub fn roles(m: usize, roles: &[u16]) -> Exclusion {
    let members = Members::Roles(roles.to_vec());
    Exclusion { m, members }
}

pub fn privileges(m: usize, all: &[Privilege]) -> Exclusion {
    let members = Members::Privileges(all.to_vec());
    Exclusion { m, members }
}

pub fn level(kind: u16, mark: Mark) -> Level {
    Level { kind, mark }
}

/// A rule without steps.
pub fn rule(levels: &[Level], exclusions: &[Exclusion]) -> Rule {
    Rule {
        levels: levels.to_vec(),
        first: None,
        last: None,
        exclusions: exclusions.to_vec(),
    }
}

/// Two permission blocks behind two rules, which a reading is to drop.
pub fn second() -> Policy {
    let rule = Rule {
        last: Some(privilege(3, 3)),
        ..rule(&[level(9, Mark::Range(1, 2))], &[roles(2, &[5, 6])])
    };
    let may = |role, operation| Permission {
        role,
        privilege: privilege(operation, 1),
    };
    Policy {
        rules: vec![rule.clone(), rule],
        permissions: vec![vec![may(1, 1), may(2, 2)], vec![may(32, 65535)]],
    }
}

/// The image of these rules before the permission blocks of [`second`].
pub fn image(rules: &[Rule]) -> Vec<u8> {
    write_policy(&Policy {
        rules: rules.to_vec(),
        ..second()
    })
}

/// A text that has one of everything. White space may stand at each `_`, and must at each `~`.
pub const SPACED: &str = concat!(
    r#"_<MSoDPolicySet_>_"#,
    r#"<MSoDPolicy~BusinessContext_=_"Branch_=_*_,_Period_=_!_,_Desk_=_York"_>_"#,
    r#"<FirstStep~operation_=_"prepare"~targetURI_=_"check"_/>_"#,
    r#"<LastStep~operation_=_"commit"~targetURI_=_"http://audit.location.com/audit"_/>_"#,
    r#"<MMER~ForbiddenCardinality_=_"2"_>_"#,
    r#"<Role~type_=_"employee"~value_=_"Teller"_/>_<Role~type_=_"x"~value_=_"Auditor"_/>_</MMER_>_"#,
    r#"<MMEP~ForbiddenCardinality_=_"2"_>_<Operation~value_=_"prepare"~target_=_"till"_/>_"#,
    r#"<Operation~value_=_"prepare"~target_=_"till"_/>_</MMEP_>_"#,
    r#"</MSoDPolicy_>_"#,
    r#"<MSoDPolicy~BusinessContext_=_""_>_<MMER~ForbiddenCardinality_=_"2"_>_"#,
    r#"<Role~type_=_"x"~value_=_"Clerk"_/>_<Role~type_=_"x"~value_=_"both"_/>_</MMER_>_</MSoDPolicy_>_"#,
    r#"</MSoDPolicySet_>_"#,
);

/// The same things with attributes the other way round, and with other contexts: the two together meet
/// every state of the form.
pub const TURNED: &str = concat!(
    r#"_<MSoDPolicySet_>_"#,
    r#"<MSoDPolicy~BusinessContext_=_"Desk_=_York_,_Branch_=_*"_>_"#,
    r#"<FirstStep~targetURI_=_"check"~operation_=_"prepare"_/>_"#,
    r#"<LastStep~targetURI_=_"till"~operation_=_"commit"_/>_"#,
    r#"<MMEP~ForbiddenCardinality_=_"02"_>_<Operation~target_=_"till"~value_=_"prepare"_/>_"#,
    r#"<Operation~target_=_"till"~value_=_"prepare"_/>_</MMEP_>_"#,
    r#"<MMER~ForbiddenCardinality_=_"2"_>_"#,
    r#"<Role~value_=_"Teller"~type_=_"employee"_/>_<Role~value_=_"Auditor"~type_=_"xy"_/>_</MMER_>_"#,
    r#"</MSoDPolicy_>_"#,
    r#"<MSoDPolicy~BusinessContext_=_"Period_=_!_,_Branch_=_!"_>_<MMER~ForbiddenCardinality_=_"2"_>_"#,
    r#"<Role~value_=_"Clerk"~type_=_"xy"_/>_<Role~value_=_"both"~type_=_"xy"_/>_</MMER_>_</MSoDPolicy_>_"#,
    r#"</MSoDPolicySet_>_"#,
);

/// The rules that [`SPACED`] says.
pub fn spaced_rules() -> Vec<Rule> {
    vec![
        Rule {
            levels: vec![
                level(1, Mark::Every),
                level(2, Mark::Each),
                level(3, Mark::Fixed(1)),
            ],
            first: Some(privilege(1, 2)),
            last: Some(privilege(65535, 1)),
            exclusions: vec![
                roles(2, &[1, 2]),
                privileges(2, &[privilege(1, 65535), privilege(1, 65535)]),
            ],
        },
        rule(&[], &[roles(2, &[32, 8])]),
    ]
}

/// The same text with this in each place of optional white space, and this where some must be.
pub fn spaced(may: &str, must: &str) -> String {
    SPACED.replace('_', may).replace('~', must)
}

pub fn in_set(inside: &str) -> String {
    format!("<MSoDPolicySet>{inside}</MSoDPolicySet>")
}

pub fn in_rule(context: &str, inside: &str) -> String {
    format!(r#"<MSoDPolicy BusinessContext="{context}">{inside}</MSoDPolicy>"#)
}

pub fn mmer(m: &str, values: &[&str]) -> String {
    let role = |value: &&str| format!(r#"<Role type="role" value="{value}"/>"#);
    let inside: String = values.iter().map(role).collect();
    format!(r#"<MMER ForbiddenCardinality="{m}">{inside}</MMER>"#)
}

pub fn mmep(m: &str, values: &[(&str, &str)]) -> String {
    let operation = |(value, target): &(&str, &str)| {
        format!(r#"<Operation value="{value}" target="{target}"/>"#)
    };
    let inside: String = values.iter().map(operation).collect();
    format!(r#"<MMEP ForbiddenCardinality="{m}">{inside}</MMEP>"#)
}

pub fn first(operation: &str, target: &str) -> String {
    format!(r#"<FirstStep operation="{operation}" targetURI="{target}"/>"#)
}

pub fn last(operation: &str, target: &str) -> String {
    format!(r#"<LastStep operation="{operation}" targetURI="{target}"/>"#)
}

/// An exclusion that is good.
pub fn good() -> String {
    mmer("2", &["Teller", "Auditor"])
}

/// A rule that is good, with this in front of its exclusion.
pub fn with_good(before: &str) -> String {
    in_rule("Branch=*", &format!("{before}{}", good()))
}

/// Room for anything that is read here.
pub const ROOM: usize = BLOCK * 66;

/// Reads with the common list and second image.
pub fn read(texts: &mut Texts, text: &str) -> Result<Vec<u8>, Reply> {
    texts.read(text.as_bytes(), &names(), &write_policy(&second()), ROOM)
}

pub fn reads(texts: &mut Texts, text: &str, rules: &[Rule]) {
    let expected = image(rules);
    assert!(read(texts, text) == Ok(expected), "{text}");
}

pub fn gives(texts: &mut Texts, text: &str, number: usize) {
    assert_eq!(read(texts, text), Err(refuse(number, 0)), "{text}");
}

/// The byte of 41 is the one behind `¦`, which is not a part of the text.
pub fn bad_at(texts: &mut Texts, marked: &str) {
    let at = marked.find('¦').expect("a mark");
    let text = marked.replace('¦', "");
    assert_eq!(read(texts, &text), Err(refuse(41, at)), "{marked}");
}
