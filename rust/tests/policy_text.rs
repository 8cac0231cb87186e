//! Policies read from text and written as such, through the wrapper; and the errors of both, with their
//! places.

mod independent;
mod spelt;
mod support;

use hastovimen::*;
use spelt::Spelt;
use std::collections::BTreeMap;
use support::chance::Chance;
use support::world::World;

/// Section 3 of source document 001, mended to the form: without comments, and with end tags.
const PUBLISHED: &str = include_str!("../../examples/published.xml");

/// A policy without rules and permissions.
fn bare() -> PolicyBuf {
    Policy::own(PolicyBuilder::new().build().unwrap()).unwrap()
}

fn published_names() -> NamesBuf {
    NamesBuilder::new()
        .name(ContextType::of(1), "Branch")
        .name(ContextType::of(2), "Period")
        .name(ContextType::of(3), "TaxOffice")
        .name(ContextType::of(4), "taxRefundProcess")
        .name(Role::of(1), "Teller")
        .name(Role::of(2), "Auditor")
        .name(Operation::of(1), "CommitAudit")
        .name(Operation::of(2), "prepareCheck")
        .name(Operation::of(3), "approve/disapproveCheck")
        .name(Operation::of(4), "combineResults")
        .name(Operation::of(5), "confirmCheck")
        .name(Target::of(1), "http://audit.location.com/audit")
        .name(Target::of(2), "http://www.myTaxOffice.com/Check")
        .name(Target::of(3), "http://secret.location.com/audit")
        .name(Target::of(4), "http://secret.location.com/results")
        .build()
        .unwrap()
}

#[test]
fn the_published_policies() {
    let names = published_names();
    let read = Policy::from_xml(PUBLISHED, &names, &bare()).unwrap();
    let rules = "\
rule 1: over 1=*, 2=!; last step 1 on 1
  exclusion 1: 2 of roles 1, 2
rule 2: over 3=!, 4=!; first step 2 on 2; last step 5 on 3
  exclusion 1: 2 of privileges 2 on 2, 5 on 3
  exclusion 2: 2 of privileges 3 on 2, 3 on 2, 4 on 4
";
    assert_eq!(read.to_string(), rules);
    // The second policy has one permission block, without entries.
    assert_eq!(read.image().len(), 3 * BLOCK);
    let written = read.to_xml(&names).unwrap();
    let first = "<MSoDPolicySet><MSoDPolicy BusinessContext=\"Branch=*,Period=!\">\
                 <LastStep operation=\"CommitAudit\" targetURI=\"http://audit.location.com/audit\"/>\
                 <MMER ForbiddenCardinality=\"2\"><Role type=\"role\" value=\"Teller\"/>\
                 <Role type=\"role\" value=\"Auditor\"/></MMER></MSoDPolicy>";
    assert!(written.starts_with(first), "{written}");
    assert_eq!(Policy::from_xml(written, &names, &read), Ok(read));
}

/// Whatever its spelling, a text of a policy's rules, with that policy for the permissions, is read as
/// that policy; and written again in one spelling.
#[test]
fn there_and_back() {
    let mut chance = Chance::new(71);
    let mut rules = 0;
    for _ in 0..2_000 {
        let Spelt {
            policy,
            names,
            text,
        } = Spelt::by_chance(&mut chance, 32);
        let read = Policy::from_xml(&text, &names, &policy);
        assert_eq!(read.as_ref(), Ok(&policy), "{text}");
        let written = policy.to_xml(&names).unwrap();
        assert_eq!(
            Policy::from_xml(&written, &names, &policy),
            Ok(policy.clone())
        );
        assert!(written.len() <= text.len() + 4 * text.matches("Role").count());
        rules += policy.rule_count();
    }
    assert!(rules > 4_000, "{rules} rules");
}

/// The rules of the text, and the permissions of the other policy, whose own rules are left out.
#[test]
fn permissions_of_another_policy() {
    let mut chance = Chance::new(72);
    let mut without = 0;
    for _ in 0..500 {
        let spelt = Spelt::by_chance(&mut chance, 32);
        let second = Policy::own(World::small(&mut chance).image).unwrap();
        let blocks = second.image().len() / BLOCK - second.rule_count();
        let read = Policy::from_xml(&spelt.text, &spelt.names, &second);
        if spelt.policy.rule_count() + blocks == 0 {
            assert!(matches!(read, Err(XmlError::Limit { .. })), "{read:?}");
            continue;
        }
        let read = read.unwrap();
        assert!(read.rules().eq(spelt.policy.rules()));
        assert!(read.permissions().eq(second.permissions()));
        assert_eq!(
            read.image().len() / BLOCK,
            spelt.policy.rule_count() + blocks
        );
        without += usize::from(blocks == 0);
    }
    assert!(without > 3, "{without} times without permissions");
}

/// A name of 60 bytes.
fn longest(letter: char) -> String {
    letter.to_string().repeat(60)
}

/// As much as a text can have of everything: it is as long as the header says.
#[test]
fn the_longest_text() {
    let (kind, value) = (ContextType::of(1), ContextValue::of(1));
    let [first, last] = [1, 2].map(|number| Operation::of(number).on(Target::of(1)));
    let names = NamesBuilder::new()
        .name(kind, longest('a'))
        .name(value, longest('a'))
        .name(first.operation, longest('a'))
        .name(last.operation, longest('b'))
        .name(first.target, longest('a'))
        .build()
        .unwrap();
    let apart = Exclusion::of_privileges(8, &[first; 8]).unwrap();
    let rule = Rule::over([Level::fixed(kind, value); 4])
        .first(first)
        .last(last);
    let rule = (0..8).fold(rule, |rule, _| rule.exclude(apart.clone()));
    let policy = (0..32).fold(PolicyBuilder::new(), |policy, _| policy.rule(rule.clone()));
    let policy = Policy::own(policy.build().unwrap()).unwrap();
    let text = policy.to_xml(&names).unwrap();
    assert_eq!(text.len(), MOST_TEXT);
    assert_eq!(Policy::from_xml(text, &names, &policy), Ok(policy.clone()));
    let mut output = vec![0xEE; MOST_TEXT - 1];
    let short = raw::write_rules(policy.image(), names.image(), &mut output);
    assert_eq!(short, Err(Refusal::TextLimit));
    assert!(output.iter().all(|&byte| byte == 0xEE));
}

/// A rule over the whole business, with something in it.
fn rule_of(inside: &str) -> String {
    set_of(&format!(
        "<MSoDPolicy BusinessContext=\"\">{inside}</MSoDPolicy>\n"
    ))
}

fn set_of(rules: &str) -> String {
    format!("<MSoDPolicySet>\n{rules}</MSoDPolicySet>")
}

fn roles(m: &str, members: &[&str]) -> String {
    let role = |value: &&str| format!("\n  <Role type=\"a\" value=\"{value}\"/>");
    let members: String = members.iter().map(role).collect();
    format!("\n <MMER ForbiddenCardinality=\"{m}\">{members}\n </MMER>\n")
}

/// What an error of a text says, with the published names and one role above 32.
fn said(text: &str) -> String {
    let mut image = published_names().image().to_vec();
    image.extend([3, 4, 33, 0]);
    image.extend(b"high");
    image.resize(16 * NAME, 0);
    let names = Names::own(image).unwrap();
    let error = Policy::from_xml(text, &names, &bare()).unwrap_err();
    let number = error.refusal().number().to_string();
    assert!(error.to_string().starts_with(&number));
    error.to_string()
}

#[test]
fn names_that_are_not_listed() {
    let member = rule_of(&roles("2", &["Teller", "Cashier"]));
    let words = "42: line 5, column 3: a name of this Role is not listed";
    assert_eq!(said(&member), words);
    let privilege = "<MMEP ForbiddenCardinality=\"2\">\r\n\t<Operation value=\"confirmCheck\" target=\"Teller\"/></MMEP>";
    let words = "42: line 3, column 2: a name of this Operation is not listed";
    assert_eq!(said(&rule_of(privilege)), words);
    let step = "<FirstStep operation=\"CommitAudit\" targetURI=\"nowhere\"/>";
    let words = "42: line 2, column 32: a name of this FirstStep is not listed";
    assert_eq!(said(&rule_of(step)), words);
    // The context's names are tested at the end of its rule, behind all else in it.
    let apart = roles("2", &["Teller", "Auditor"]);
    let context = set_of(&format!(
        "<MSoDPolicy BusinessContext=\"Branch=York\">{apart}</MSoDPolicy>"
    ));
    let words = "42: line 7, column 1: a name in the context of this MSoDPolicy is not listed";
    assert_eq!(said(&context), words);
}

#[test]
fn limits_that_are_broken() {
    let breaks = |place: &str, element: &str, limits: &str| {
        format!("43: {place}: this {element} breaks a limit: {limits}")
    };
    let role = rule_of(&roles("2", &["Teller", "high"]));
    assert_eq!(
        said(&role),
        breaks("line 5, column 3", "Role", "roles are 1 to 32")
    );

    let apart = "2 <= m <= n <= 8 is asked, and no role twice";
    let words = breaks("line 6, column 2", "MMER", apart);
    for (m, members) in [("1", ["Teller", "Auditor"]), ("3", ["Teller", "Auditor"])] {
        assert_eq!(said(&rule_of(&roles(m, &members))), words);
    }
    assert_eq!(
        said(&rule_of(&roles(
            "99999999999999999999",
            &["Teller", "Auditor"]
        ))),
        words
    );
    assert_eq!(said(&rule_of(&roles("2", &["Teller", "Teller"]))), words);
    let empty = "<MMEP ForbiddenCardinality=\"0\"></MMEP>";
    let words = breaks("line 2, column 63", "MMEP", "2 <= m <= n <= 8 is asked");
    assert_eq!(said(&rule_of(empty)), words);

    let limits =
        "at most 4 levels, 1 to 8 exclusions, and a first step other than the last are asked";
    assert_eq!(
        said(&rule_of("")),
        breaks("line 2, column 32", "MSoDPolicy", limits)
    );
    let limits = "at most 32 rules, and 1 to 64 blocks with the permissions, are asked";
    let apart = roles("2", &["Teller", "Auditor"]);
    let rules = format!("<MSoDPolicy BusinessContext=\"\">{apart}</MSoDPolicy>").repeat(33);
    let words = breaks("line 167, column 14", "MSoDPolicySet", limits);
    assert_eq!(said(&set_of(&rules)), words);
}

#[test]
fn texts_that_have_not_the_form() {
    for (text, words) in [
        (
            "",
            "line 1, column 1: the text ends where `<MSoDPolicySet` or white space is expected",
        ),
        (
            "<?xml version=\"1.0\"?>",
            "line 1, column 2: `?` stands where `<MSoDPolicySet` is expected",
        ),
        (
            "<MSoDPolicySet>\r\n\t</MSoDPolicySet>\r\n.",
            "line 3, column 1: `.` stands where the end of the text or white space is expected",
        ),
        (
            "<MSoDPolicySet><MSoDPolicy BusinessContext=\" Branch=*\">",
            "line 1, column 45: ` ` stands where a character of a name or `\"` is expected",
        ),
        (
            "<MSoDPolicySet><MSoDPolicy BusinessContext=\"Branch=*\n\">",
            "line 2, column 1: `\"` stands where `,` or white space is expected",
        ),
        (
            "<MSoDPolicySet><MSoDPolicy BusinessContext=\"Straße",
            "line 1, column 49: `ß` stands where a character of a name, `=` or white space is \
             expected",
        ),
    ] {
        assert_eq!(said(text), format!("41: {words}"));
    }
}

/// A text of any bytes is read, and its error shown; padded as its text is.
#[test]
fn bytes_that_are_no_text() {
    let error = Policy::from_xml([0xFF, 0xFE], &published_names(), &bare()).unwrap_err();
    let words = "41: line 1, column 1: `\u{FFFD}` stands where `<MSoDPolicySet` or white space is \
                 expected";
    assert_eq!(error.to_string(), words);
    assert_eq!(format!("{error:>120}"), format!("{words:>120}"));
    assert_eq!(format!("{error:.20}"), format!("{words:.20}"));
    assert_eq!(error.refusal(), Refusal::TextForm { byte: 0 });
}

/// Where 42 and 43 stand: cut anywhere before the end of the tag that is named, the text just stops too
/// early.
#[test]
fn places_of_names_and_limits() {
    let mut chance = Chance::new(73);
    let mut seen: BTreeMap<(u32, &str), usize> = BTreeMap::new();
    for _ in 0..6_000 {
        let spelt = Spelt::by_chance(&mut chance, 3);
        let text = broken(&mut chance, &spelt.text);
        let read = |text: &str| Policy::from_xml(text, &spelt.names, &spelt.policy);
        let Err(error) = read(&text) else { continue };
        let element = match error {
            XmlError::NotListed { element, .. } | XmlError::Limit { element, .. } => element,
            _ => continue,
        };
        let at = error.place().unwrap().byte;
        let end = at + text[at..].find('>').unwrap() + 1;
        let tag = text[at..end].trim_start_matches(['<', '/']);
        assert!(tag.starts_with(element), "{error}: {tag}");
        let early = read(&text[..end - 1]).unwrap_err();
        let byte = (end - 1) as u32;
        assert_eq!(early.refusal(), Refusal::TextForm { byte }, "{text}");
        assert_eq!(read(&text[..end]).as_ref(), Err(&error), "{text}");
        *seen.entry((error.refusal().number(), element)).or_default() += 1;
    }
    let leaves = ["FirstStep", "LastStep", "Role", "Operation"];
    let names = leaves
        .into_iter()
        .chain(["MSoDPolicy"])
        .map(|one| (42, one));
    let limits = ["MMER", "MMEP", "MSoDPolicy"].map(|one| (43, one));
    for key in names.chain(limits) {
        let times = seen.get(&key).copied().unwrap_or(0);
        assert!(times > 20, "{key:?}: {times} times of {seen:?}");
    }
}

/// The text with something in it that is not listed, or breaks a limit: a value altered, or an element
/// twice or gone.
fn broken(chance: &mut Chance, text: &str) -> String {
    let quoted: Vec<usize> = text.match_indices('"').map(|(at, _)| at).collect();
    if quoted.is_empty() {
        return text.to_owned();
    }
    let value = 2 * chance.below(quoted.len() / 2);
    let (from, to) = (quoted[value] + 1, quoted[value + 1]);
    match chance.below(5) {
        0 => format!("{}0{}", &text[..to], &text[to..]),
        1 => {
            let other = 2 * chance.below(quoted.len() / 2);
            let other = &text[quoted[other] + 1..quoted[other + 1]];
            format!("{}{other}{}", &text[..from], &text[to..])
        }
        2 => without(chance, text, &["<Role", "<Operation"], "/>"),
        // A name of the first context, or its only level.
        3 => format!("{}0{}", &text[..quoted[0] + 1], &text[quoted[0] + 1..]),
        _ => without(chance, text, &["<MMER", "<MMEP"], "</"),
    }
}

/// The text without one of the pieces that begin and end so, or with what stands before it repeated.
fn without(chance: &mut Chance, text: &str, begins: &[&str], ends: &str) -> String {
    let begins = chance.pick(begins);
    let places: Vec<usize> = text.match_indices(begins).map(|(at, _)| at).collect();
    if places.is_empty() {
        return text.to_owned();
    }
    let from = chance.pick(&places);
    let end = from + text[from..].find(ends).unwrap();
    let end = end + text[end..].find('>').unwrap() + 1;
    let piece = if chance.percent(50) {
        &text[from..end]
    } else {
        ""
    };
    format!("{}{piece}{piece}{}", &text[..from], &text[end..])
}

/// A list of the policy's names, in one case of four without one of them.
fn most_names(chance: &mut Chance, policy: &Policy) -> NamesBuf {
    let mut image = spelt::names(chance, policy).image().to_vec();
    let dropped = NAME * chance.below(4 * image.len() / NAME + 1);
    if dropped < image.len() {
        image.drain(dropped..dropped + NAME);
    }
    Names::own(image).unwrap()
}

/// What cannot be written: the rule and the number without a name, or the range.
#[test]
fn rules_that_cannot_be_written() {
    let mut chance = Chance::new(74);
    let mut seen: BTreeMap<String, usize> = BTreeMap::new();
    let mut output = vec![0; MOST_TEXT];
    for i in 0..4_000 {
        let world = World::small(&mut chance);
        let world = match i % 2 {
            0 => world.with_ranges(&mut chance),
            _ => world,
        };
        let policy = Policy::own(world.image).unwrap();
        let names = most_names(&mut chance, &policy);
        let raw = raw::write_rules(policy.image(), names.image(), &mut output);
        let kind = match policy.to_xml(&names) {
            Ok(text) => {
                assert_eq!(raw, Ok(text.len()));
                "written".to_owned()
            }
            Err(error) => {
                assert_eq!(raw, Err(error.refusal()));
                explained(&policy, &names, error)
            }
        };
        *seen.entry(kind).or_default() += 1;
    }
    let mut kinds = vec!["written".to_owned(), "range".to_owned()];
    kinds.extend(NameKind::ALL.map(|kind| kind.to_string()));
    for kind in &kinds {
        let times = seen.get(kind).copied().unwrap_or(0);
        assert!(times > 20, "{kind}: {times} times of {seen:?}");
    }
    assert_eq!(seen.len(), kinds.len());
}

/// What the error tells is so: the rules before it can be written, and this one not, for that reason.
fn explained(policy: &Policy, names: &Names, error: Unwritable) -> String {
    let rules: Vec<Rule> = policy.rules().collect();
    let written = |rules: &[Rule]| {
        let add = |policy: PolicyBuilder, rule: &Rule| policy.rule(rule.clone());
        let policy = rules
            .iter()
            .fold(PolicyBuilder::new(), add)
            .build()
            .unwrap();
        Policy::own(policy).unwrap().to_xml(names).is_ok()
    };
    let (rule, kind) = match error {
        Unwritable::NotListed { rule, number } => {
            assert_eq!(names.name_of(number), None);
            let alone = PolicyBuilder::new().rule(rules[rule - 1].clone());
            let alone = Policy::own(alone.build().unwrap()).unwrap();
            assert!(spelt::numbers(&alone).contains(&number));
            (rule, number.kind().to_string())
        }
        Unwritable::Range { rule, level } => {
            assert!(rules[rule - 1].levels().iter().any(|one| one == level));
            (rule, "range".to_owned())
        }
        other => panic!("{other}"),
    };
    assert!(written(&rules[..rule - 1]) && !written(&rules[..rule]));
    kind
}
