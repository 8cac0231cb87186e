//! Texts of rules by chance: the policies of worlds, with names by chance, their attributes in any order
//! and white space wherever the form has it.

// Each test takes in this module whole and uses a part of it.
#![allow(dead_code)]

use crate::support::chance::Chance;
use crate::support::world::World;
use hastovimen::*;
use std::collections::BTreeMap;

/// A policy, the names of its numbers, and its rules as text.
pub struct Spelt {
    pub policy: PolicyBuf,
    pub names: NamesBuf,
    pub text: String,
}

impl Spelt {
    /// Of a policy without ranges that has so many rules at the most.
    pub fn by_chance(chance: &mut Chance, most_rules: usize) -> Spelt {
        let policy = loop {
            let policy = Policy::own(World::small(chance).image).unwrap();
            if policy.rule_count() <= most_rules {
                break policy;
            }
        };
        let names = names(chance, &policy);
        let text = text(chance, &policy, &names);
        Spelt {
            policy,
            names,
            text,
        }
    }
}

/// The numbers of a policy's rules, each once.
pub fn numbers(policy: &Policy) -> Vec<Named> {
    let mut numbers = vec![];
    for rule in policy.rules() {
        for level in rule.levels().iter() {
            numbers.push(Named::from(level.context_type()));
            numbers.extend(level.value().map(Named::from));
        }
        let mut privileges = vec![];
        privileges.extend(rule.first_step());
        privileges.extend(rule.last_step());
        for exclusion in rule.exclusions() {
            match exclusion.members() {
                Members::Roles(roles) => {
                    numbers.extend(roles.iter().map(|&role| Named::from(role)))
                }
                Members::Privileges(members) => privileges.extend(members),
            }
        }
        for privilege in privileges {
            numbers.push(privilege.operation.into());
            numbers.push(privilege.target.into());
        }
    }
    numbers.sort();
    numbers.dedup();
    numbers
}

/// A list of names for all numbers of a policy's rules, in any order. Within a kind no name stands
/// twice, but different kinds share some.
pub fn names(chance: &mut Chance, policy: &Policy) -> NamesBuf {
    let mut given: BTreeMap<(NameKind, String), Named> = BTreeMap::new();
    for number in numbers(policy) {
        let mut one = name(chance);
        while given.contains_key(&(number.kind(), one.clone())) {
            one = name(chance);
        }
        given.insert((number.kind(), one), number);
    }
    let mut entries: Vec<_> = given.into_iter().collect();
    chance.shuffle(&mut entries);
    let builder = NamesBuilder::new();
    let add = |builder: NamesBuilder, ((_, name), number)| builder.name(number, name);
    entries.into_iter().fold(builder, add).build().unwrap()
}

/// A name: mostly a short one, at times one that looks like something else of the text.
pub fn name(chance: &mut Chance) -> String {
    const ALIKE: [&str; 12] = [
        "/",
        "'",
        "role",
        "type",
        "MMER",
        "/MMER",
        "0",
        "2",
        "--",
        "value",
        "?xml",
        "http://a/b",
    ];
    if chance.percent(20) {
        return chance.pick(&ALIKE).to_owned();
    }
    let of_names: Vec<char> = ('!'..='~').filter(|c| !"\"&<>=,*!".contains(*c)).collect();
    let length = if chance.percent(5) {
        60
    } else {
        chance.from(1, 8)
    };
    (0..length).map(|_| chance.pick(&of_names)).collect()
}

/// White space where it may stand, mostly none.
fn gap(chance: &mut Chance) -> String {
    if chance.percent(80) {
        return String::new();
    }
    white(chance)
}

fn white(chance: &mut Chance) -> String {
    if chance.percent(60) {
        return " ".to_owned();
    }
    let length = chance.from(1, 3);
    (0..length)
        .map(|_| chance.pick(&[' ', '\t', '\r', '\n']))
        .collect()
}

fn text(chance: &mut Chance, policy: &Policy, names: &Names) -> String {
    let rules: String = policy
        .rules()
        .map(|one| rule(chance, &one, names))
        .collect();
    gap(chance) + &element(chance, "MSoDPolicySet", &[], &rules)
}

fn rule(chance: &mut Chance, rule: &Rule, names: &Names) -> String {
    let mut inside = String::new();
    for (tag, step) in [
        ("FirstStep", rule.first_step()),
        ("LastStep", rule.last_step()),
    ] {
        if let Some(step) = step {
            inside += &privilege(chance, tag, ["operation", "targetURI"], step, names);
        }
    }
    for exclusion in rule.exclusions() {
        inside += &self::exclusion(chance, exclusion, names);
    }
    let context = context(chance, &rule.levels(), names);
    element(
        chance,
        "MSoDPolicy",
        &[("BusinessContext", &context)],
        &inside,
    )
}

fn context(chance: &mut Chance, levels: &Levels, names: &Names) -> String {
    let mut text = String::new();
    for (i, level) in levels.iter().enumerate() {
        if i > 0 {
            text += &(gap(chance) + "," + &gap(chance));
        }
        let value = match level.mark() {
            Mark::Fixed(value) => names.name_of(value).unwrap(),
            Mark::Every => "*",
            Mark::Each => "!",
            Mark::Range { .. } => panic!("a range has no spelling"),
        };
        let equals = gap(chance) + "=" + &gap(chance);
        text += &format!(
            "{}{equals}{value}",
            names.name_of(level.context_type()).unwrap()
        );
    }
    text
}

fn exclusion(chance: &mut Chance, exclusion: &Exclusion, names: &Names) -> String {
    let zeros = if chance.percent(10) { "00" } else { "" };
    let m = format!("{zeros}{}", exclusion.m());
    let mut inside = String::new();
    let tag = match exclusion.members() {
        Members::Roles(roles) => {
            for &role in roles {
                let kind = name(chance);
                let value = names.name_of(role).unwrap();
                inside += &leaf(chance, "Role", [("type", &kind), ("value", value)]);
            }
            "MMER"
        }
        Members::Privileges(privileges) => {
            for &one in privileges {
                inside += &privilege(chance, "Operation", ["value", "target"], one, names);
            }
            "MMEP"
        }
    };
    element(chance, tag, &[("ForbiddenCardinality", &m)], &inside)
}

fn privilege(
    chance: &mut Chance,
    tag: &str,
    attributes: [&str; 2],
    privilege: Privilege,
    names: &Names,
) -> String {
    let operation = names.name_of(privilege.operation).unwrap();
    let target = names.name_of(privilege.target).unwrap();
    let [first, second] = attributes;
    leaf(chance, tag, [(first, operation), (second, target)])
}

fn leaf(chance: &mut Chance, tag: &str, mut attributes: [(&str, &str); 2]) -> String {
    chance.shuffle(&mut attributes);
    let attributes = spell(chance, &attributes);
    format!("<{tag}{attributes}{}/>{}", gap(chance), gap(chance))
}

fn element(chance: &mut Chance, tag: &str, attributes: &[(&str, &str)], inside: &str) -> String {
    let attributes = spell(chance, attributes);
    let [before, within, after, behind] = [(); 4].map(|()| gap(chance));
    format!("<{tag}{attributes}{before}>{within}{inside}</{tag}{after}>{behind}")
}

fn spell(chance: &mut Chance, attributes: &[(&str, &str)]) -> String {
    let mut text = String::new();
    for (name, value) in attributes {
        let front = white(chance);
        let equals = gap(chance) + "=" + &gap(chance);
        text += &format!("{front}{name}{equals}\"{value}\"");
    }
    text
}
