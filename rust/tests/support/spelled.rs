//! Policies as text in any spelling that the form allows, and in many that it does not.

use super::chance::Chance;
use super::named::Listed;
use crate::independent::images::*;
use crate::independent::xml::*;

/// An element, as it is to be written.
#[derive(Clone)]
pub struct Element {
    pub name: String,
    pub attributes: Vec<(String, String)>,
    pub inside: Vec<Element>,
    /// Whether it ends in `/>`.
    pub short: bool,
}

fn element(name: &str, attributes: &[(&str, String)], inside: Vec<Element>) -> Element {
    let attributes = attributes
        .iter()
        .map(|(name, value)| (name.to_string(), value.clone()));
    Element {
        name: name.into(),
        attributes: attributes.collect(),
        inside,
        short: false,
    }
}

fn short(name: &str, attributes: &[(&str, String)]) -> Element {
    let mut element = element(name, attributes, vec![]);
    element.short = true;
    element
}

/// How white space is strewn in: in how many of a hundred places where there may be some.
#[derive(Clone, Copy)]
pub struct Style {
    pub white: usize,
}

impl Style {
    pub fn by_chance(chance: &mut Chance) -> Style {
        Style {
            white: chance.pick(&[0, 5, 20, 60]),
        }
    }

    fn white(self, chance: &mut Chance) -> String {
        if chance.percent(self.white) {
            self.some_white(chance)
        } else {
            String::new()
        }
    }

    fn some_white(self, chance: &mut Chance) -> String {
        let most = if self.white == 0 { 1 } else { 3 };
        let count = chance.from(1, most);
        (0..count)
            .map(|_| chance.pick(&[' ', ' ', '\t', '\r', '\n']))
            .collect()
    }
}

// ---------------------------------------------------------------------------------------------
// From a policy

/// The elements of a policy's rules. Limits may be broken; every number must have a name.
pub fn set(chance: &mut Chance, policy: &Policy, names: &Listed, style: Style) -> Element {
    let rules = policy
        .rules
        .iter()
        .map(|rule| rule_element(chance, rule, names, style));
    let rules = rules.collect();
    element("MSoDPolicySet", &[], rules)
}

fn rule_element(chance: &mut Chance, rule: &Rule, names: &Listed, style: Style) -> Element {
    let mut context = String::new();
    for (i, level) in rule.levels.iter().enumerate() {
        let value = match level.mark {
            Mark::Every => "*".into(),
            Mark::Each => "!".into(),
            Mark::Fixed(value) => names.name(VALUE, value),
            Mark::Range(..) => unreachable!("no text has a range"),
        };
        let mut parts = vec![names.name(TYPE, level.kind), "=".into(), value];
        if i > 0 {
            parts.insert(0, ",".into());
            context += &style.white(chance);
        }
        for (j, part) in parts.iter().enumerate() {
            if j > 0 {
                context += &style.white(chance);
            }
            context += part;
        }
    }
    let mut inside = vec![];
    for (name, step) in [("FirstStep", rule.first), ("LastStep", rule.last)] {
        inside.extend(step.map(|step| step_element(name, step, names)));
    }
    for exclusion in &rule.exclusions {
        inside.push(exclusion_element(chance, exclusion, names));
    }
    element("MSoDPolicy", &[("BusinessContext", context)], inside)
}

fn step_element(name: &str, step: Privilege, names: &Listed) -> Element {
    let operation = names.name(OPERATION, step.operation);
    let target = names.name(TARGET, step.target);
    short(name, &[("operation", operation), ("targetURI", target)])
}

fn exclusion_element(chance: &mut Chance, exclusion: &Exclusion, names: &Listed) -> Element {
    let (name, inside) = match &exclusion.members {
        Members::Roles(roles) => {
            let role = |&role: &u16| {
                let kind = chance.pick(&["role", "employee", "x", "~"]).to_string();
                short("Role", &[("type", kind), ("value", names.name(ROLE, role))])
            };
            ("MMER", roles.iter().map(role).collect())
        }
        Members::Privileges(privileges) => {
            let operation = |p: &Privilege| {
                let value = names.name(OPERATION, p.operation);
                let target = names.name(TARGET, p.target);
                short("Operation", &[("value", value), ("target", target)])
            };
            ("MMEP", privileges.iter().map(operation).collect())
        }
    };
    let zeros = chance.pick(&[
        "",
        "",
        "",
        "0",
        "00",
        "00000000000000000000000000000000000000000",
    ]);
    let m = format!("{zeros}{}", exclusion.m);
    element(name, &[("ForbiddenCardinality", m)], inside)
}

// ---------------------------------------------------------------------------------------------
// To a text

impl Element {
    /// A text of this element with white space round it and attributes in any order.
    pub fn text(&self, chance: &mut Chance, style: Style) -> Vec<u8> {
        let before = style.white(chance);
        let mut text = before;
        self.put(chance, style, &mut text);
        text += &style.white(chance);
        text.into_bytes()
    }

    fn put(&self, chance: &mut Chance, style: Style, text: &mut String) {
        let Element { name, .. } = self;
        *text += &format!("<{name}");
        let mut attributes: Vec<_> = self.attributes.iter().collect();
        chance.shuffle(&mut attributes);
        for (name, value) in attributes {
            *text += &style.some_white(chance);
            *text += name;
            for part in ["=", "\""] {
                *text += &style.white(chance);
                *text += part;
            }
            *text += &format!("{value}\"");
        }
        *text += &style.white(chance);
        *text += if self.short { "/>" } else { ">" };
        for element in &self.inside {
            *text += &style.white(chance);
            element.put(chance, style, text);
        }
        if !self.short {
            *text += &style.white(chance);
            *text += &format!("</{name}");
            *text += &style.white(chance);
            *text += ">";
        }
    }

    /// An element in it by chance, or itself.
    fn some(&mut self, chance: &mut Chance) -> &mut Element {
        if self.inside.is_empty() || chance.percent(20) {
            return self;
        }
        let at = chance.below(self.inside.len());
        self.inside[at].some(chance)
    }

    /// An element by chance that has others in it, or may have.
    fn holder(&mut self, chance: &mut Chance) -> &mut Element {
        let all: Vec<usize> = (0..self.inside.len())
            .filter(|&i| !self.inside[i].short)
            .collect();
        if all.is_empty() || chance.percent(30) {
            return self;
        }
        let at = chance.pick(&all);
        self.inside[at].holder(chance)
    }
}

// ---------------------------------------------------------------------------------------------
// Damage to the elements

const ELEMENT_NAMES: [&str; 10] = [
    "MSoDPolicySet",
    "MSoDPolicy",
    "FirstStep",
    "LastStep",
    "MMER",
    "MMEP",
    "Role",
    "Operation",
    "MMEr",
    "Step",
];
const ATTRIBUTE_NAMES: [&str; 9] = [
    "BusinessContext",
    "ForbiddenCardinality",
    "operation",
    "targetURI",
    "type",
    "value",
    "target",
    "targetURIs",
    "Type",
];
const VALUES: [&str; 22] = [
    "",
    " ",
    "*",
    "!",
    "a=*",
    "a=!",
    "a=b,",
    ",",
    "=",
    "a=**",
    "a==b",
    "a=b c=d",
    "0",
    "1",
    "9",
    "10",
    "256",
    "258",
    "9999999999999",
    "99999999999999999999999999999999999999999",
    "-2",
    "+2",
];

// What is done to the elements.
const LEFT_OUT: &str = "an attribute is left out";
const TWICE: &str = "an attribute stands twice";
const SWAPPED: &str = "two attributes have each other's values";
const RENAMED: &str = "an attribute has another name";
const ADDED: &str = "there is an attribute more";
const VALUE_ALTERED: &str = "a value is another";
const ELEMENT_RENAMED: &str = "an element has another name";
const ENDED: &str = "an element ends in the other way";
const SHUFFLED: &str = "elements stand in another order";
const DOUBLED: &str = "an element stands in a second place";
const DROPPED: &str = "an element is left out";

/// All of it.
pub const DAMAGES: [&str; 11] = [
    LEFT_OUT,
    TWICE,
    SWAPPED,
    RENAMED,
    ADDED,
    VALUE_ALTERED,
    ELEMENT_RENAMED,
    ENDED,
    SHUFFLED,
    DOUBLED,
    DROPPED,
];

/// Alters the elements; says how.
pub fn damage_elements(chance: &mut Chance, set: &mut Element) -> &'static str {
    match chance.below(10) {
        0..=4 => {
            let element = set.some(chance);
            damage_attributes(chance, element)
        }
        5 => {
            let name = chance.pick(&ELEMENT_NAMES);
            set.some(chance).name = name.into();
            ELEMENT_RENAMED
        }
        6 => {
            let element = set.some(chance);
            element.short = !element.short;
            ENDED
        }
        7 => {
            let holder = set.holder(chance);
            chance.shuffle(&mut holder.inside);
            SHUFFLED
        }
        8 => {
            let copy = set.some(chance).clone();
            let holder = set.holder(chance);
            let at = chance.from(0, holder.inside.len());
            holder.inside.insert(at, copy);
            DOUBLED
        }
        _ => {
            let holder = set.holder(chance);
            if !holder.inside.is_empty() {
                holder.inside.remove(chance.below(holder.inside.len()));
            }
            DROPPED
        }
    }
}

fn damage_attributes(chance: &mut Chance, element: &mut Element) -> &'static str {
    let attributes = &mut element.attributes;
    let other = chance.pick(&ATTRIBUTE_NAMES);
    if attributes.is_empty() {
        attributes.push((other.into(), "a".into()));
        return ADDED;
    }
    let at = chance.below(attributes.len());
    match chance.below(8) {
        0 => {
            attributes.remove(at);
            LEFT_OUT
        }
        1 => {
            attributes.push(attributes[at].clone());
            TWICE
        }
        2 if attributes.len() == 2 => {
            let (one, other) = attributes.split_at_mut(1);
            std::mem::swap(&mut one[0].1, &mut other[0].1);
            SWAPPED
        }
        3 => {
            attributes[at].0 = other.into();
            RENAMED
        }
        4 => {
            attributes.push((other.into(), "a".into()));
            ADDED
        }
        _ => {
            attributes[at].1 = altered_value(chance, &attributes[at].1);
            VALUE_ALTERED
        }
    }
}

fn altered_value(chance: &mut Chance, old: &str) -> String {
    match chance.below(6) {
        0 => format!("{} ", old),
        1 => format!(" {}", old),
        2 => format!(
            "{old}{}",
            chance.pick(&["x", "*", "!", ",", "=", ",a=*", "&amp;", "'"])
        ),
        _ => chance.pick(&VALUES).into(),
    }
}

// ---------------------------------------------------------------------------------------------
// Damage to the bytes

/// Bytes of the form, and bytes that look like some of them.
const TELLING_BYTES: &[u8] = b"<>/=\"',*!&;# \t\r\n\x0b\x0c\0\x7f\x80\xa0\xff-?aBMRS025";

/// A byte to stand in another's place.
pub fn telling_byte(chance: &mut Chance, old: u8) -> u8 {
    match chance.below(6) {
        0 => old ^ 1 << chance.below(8),
        1 => chance.next() as u8,
        _ => chance.pick(TELLING_BYTES),
    }
}

/// Alters the text anywhere, once or more.
pub fn damage_bytes(chance: &mut Chance, text: &mut Vec<u8>) {
    loop {
        let at = chance.below(text.len() + 1);
        let byte = chance.pick(TELLING_BYTES);
        match chance.below(9) {
            0 => text.insert(at, byte),
            1 => text.truncate(at),
            2 => text.push(byte),
            _ if at == text.len() => text.push(byte),
            3 | 4 => drop(text.remove(at)),
            5 => text.insert(at, text[at]),
            6 => drop(text.drain(at..(at + chance.from(1, 40)).min(text.len()))),
            _ => text[at] = telling_byte(chance, text[at]),
        }
        if chance.percent(75) {
            return;
        }
    }
}

// ---------------------------------------------------------------------------------------------
// Policies to write

fn privilege(chance: &mut Chance) -> Privilege {
    Privilege {
        operation: chance.pick(&[1, 2, 3, 256, 65535]),
        target: chance.pick(&[1, 2, 513]),
    }
}

fn some_exclusion(chance: &mut Chance) -> Exclusion {
    let n = if chance.percent(10) {
        8
    } else {
        chance.from(2, 3)
    };
    let members = if chance.percent(50) {
        let roles = chance.different(n, 32);
        Members::Roles(roles.iter().map(|&role| role as u16).collect())
    } else {
        Members::Privileges((0..n).map(|_| privilege(chance)).collect())
    };
    Exclusion {
        m: chance.from(2, n),
        members,
    }
}

fn some_rule(chance: &mut Chance) -> Rule {
    let depth = chance.pick(&[0, 1, 1, 2, 2, 3, 4]);
    let value = chance.pick(&[1, 7, 40_000]);
    let level = |_| Level {
        kind: chance.pick(&[1, 2, 3, 300]),
        mark: chance.pick(&[Mark::Fixed(value), Mark::Every, Mark::Each]),
    };
    let levels = (0..depth).map(level).collect();
    let first = chance.percent(50).then(|| privilege(chance));
    let last = chance.percent(50).then(|| privilege(chance));
    let exclusions = if chance.percent(5) {
        8
    } else {
        chance.from(1, 2)
    };
    Rule {
        levels,
        first,
        last: last.filter(|_| last != first),
        exclusions: (0..exclusions).map(|_| some_exclusion(chance)).collect(),
    }
}

fn some_permissions(chance: &mut Chance) -> Vec<Permission> {
    let entries = chance.pick(&[0, 1, 3, 61]);
    let entry = |_| Permission {
        role: chance.from(1, 32) as u16,
        privilege: privilege(chance),
    };
    (0..entries).map(entry).collect()
}

/// Few rules, so that their text is short; no permission block.
pub fn some_rules(chance: &mut Chance) -> Policy {
    let rules = if chance.percent(10) {
        0
    } else {
        chance.from(1, 3)
    };
    Policy {
        rules: (0..rules).map(|_| some_rule(chance)).collect(),
        permissions: vec![],
    }
}

/// A policy to take permission blocks from: often with rules, sometimes with no such block.
pub fn some_second(chance: &mut Chance) -> Policy {
    let mut second = some_rules(chance);
    if chance.percent(40) {
        second.rules.clear();
    }
    let least = usize::from(second.rules.is_empty());
    let most = 64 - second.rules.len();
    let blocks = match chance.below(50) {
        0 => chance.from(62, most.max(62)).min(most),
        _ => chance.from(least, 2),
    };
    second.permissions = (0..blocks).map(|_| some_permissions(chance)).collect();
    second
}

/// Puts ranges in here and there.
pub fn put_ranges(chance: &mut Chance, policy: &mut Policy) {
    for level in policy.rules.iter_mut().flat_map(|rule| &mut rule.levels) {
        if chance.percent(30) {
            level.mark = Mark::Range(7, chance.pick(&[7, 8, 65535]));
        }
    }
}

/// Breaks one of the limits.
pub fn break_limit(chance: &mut Chance, policy: &mut Policy) {
    if policy.rules.is_empty() {
        return policy.rules = vec![some_rule(chance); 33];
    }
    let at = chance.below(policy.rules.len());
    let rule = &mut policy.rules[at];
    match chance.below(16) {
        0 => {
            let kind = rule.levels.first().map_or(1, |level| level.kind);
            let mark = Mark::Every;
            let depth = chance.from(5, 7);
            rule.levels.resize(depth, Level { kind, mark });
        }
        1 => rule.exclusions.clear(),
        2 => rule.exclusions = vec![some_exclusion(chance); chance.from(9, 10)],
        3 | 4 => {
            rule.first = rule.first.or(rule.last).or(Some(privilege(chance)));
            rule.last = rule.first;
        }
        5 => policy.rules = vec![some_rule(chance); chance.from(32, 34)],
        _ => {
            let at = chance.below(rule.exclusions.len());
            break_exclusion(chance, &mut rule.exclusions[at]);
        }
    }
}

fn break_exclusion(chance: &mut Chance, exclusion: &mut Exclusion) {
    let members = &mut exclusion.members;
    match (chance.below(4), members) {
        (0, Members::Roles(roles)) => {
            let at = chance.below(roles.len());
            roles[at] = chance.pick(&[33, 34, 255, 256, 257, 65535]);
        }
        (1, Members::Roles(roles)) => {
            let role = chance.pick(roles);
            roles.insert(chance.from(0, roles.len()), role);
        }
        (2, Members::Roles(roles)) => *roles = (1..=chance.from(9, 10) as u16).collect(),
        (2, Members::Privileges(all)) => *all = vec![privilege(chance); chance.from(9, 10)],
        (_, Members::Roles(roles)) => exclusion.m = bad_m(chance, roles.len()),
        (_, Members::Privileges(all)) => exclusion.m = bad_m(chance, all.len()),
    }
}

fn bad_m(chance: &mut Chance, n: usize) -> usize {
    chance.pick(&[
        0,
        1,
        n + 1,
        10,
        12,
        255,
        256,
        258,
        65_538,
        4_294_967_298,
        usize::MAX,
    ])
}
