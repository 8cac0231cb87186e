//! Policies as text, read and written: document 02, W5, in its words, over [`super::form`] and
//! [`super::images`].
//!
//! 41's byte comes from the form alone. What stands before it is known to have the form, so that it
//! can be cut up at its signs: `>` ends a tag and stands nowhere else, `"` stands round a value, `,`
//! and `=` part a context.

use super::form::{is_name_byte, Followed, States, ELEMENTS};
use super::images::*;
use super::{Answer, Reply};

/// Why a call was refused: the reply, and in words which clause it was, for the tests to count.
#[derive(Clone, Copy, PartialEq, Eq, Debug)]
pub struct Fault {
    pub reply: Reply,
    pub why: &'static str,
}

type Told<T> = Result<T, Fault>;

fn fault(number: usize, first: usize, why: &'static str) -> Fault {
    let first = first.min(u32::MAX as usize);
    Fault {
        reply: Reply::refuse(number, first, 0),
        why,
    }
}

fn unless(good: bool, number: usize, why: &'static str) -> Told<()> {
    if good {
        Ok(())
    } else {
        Err(fault(number, 0, why))
    }
}

/// The faults of the second image, or of the policy that is written: numbers 1 to 6.
pub const IMAGE_FAULTS: [&str; 6] = [
    "image: 1", "image: 2", "image: 3", "image: 4", "image: 5", "image: 6",
];

fn of_image<T>(answer: Answer<T>) -> Told<T> {
    answer.map_err(|reply| Fault {
        reply,
        why: IMAGE_FAULTS[reply.number as usize - 1],
    })
}

// ---------------------------------------------------------------------------------------------
// The list of names

pub const TYPE: u8 = 1;
pub const VALUE: u8 = 2;
pub const ROLE: u8 = 3;
pub const OPERATION: u8 = 4;
pub const TARGET: u8 = 5;

pub const ENTRY: usize = 64;

const LIST_LENGTH: &str = "list: its length";
const KIND: &str = "list: a kind";
const NAME_LENGTH: &str = "list: the length of a name";
const NUMBER_0: &str = "list: number 0";
const NAME_BYTE: &str = "list: a byte of a name";
const NOT_ZERO_BEHIND: &str = "list: not zero behind a name";
const NAME_TWICE: &str = "list: a name twice";
const NUMBER_TWICE: &str = "list: a number twice";

/// The faults of a list, which all give 42.
pub const LIST_FAULTS: [&str; 8] = [
    LIST_LENGTH,
    KIND,
    NAME_LENGTH,
    NUMBER_0,
    NAME_BYTE,
    NOT_ZERO_BEHIND,
    NAME_TWICE,
    NUMBER_TWICE,
];

#[derive(Clone, PartialEq, Eq, Debug)]
pub struct Entry {
    pub kind: u8,
    pub number: u16,
    pub name: Vec<u8>,
}

pub fn read_names(list: &[u8]) -> Told<Vec<Entry>> {
    let must = |good, why| unless(good, 42, why);
    must(
        list.len().is_multiple_of(ENTRY) && list.len() <= 65_536,
        LIST_LENGTH,
    )?;
    let mut entries: Vec<Entry> = vec![];
    for bytes in list.chunks_exact(ENTRY) {
        let (kind, length) = (bytes[0], bytes[1] as usize);
        let number = u16::from_le_bytes([bytes[2], bytes[3]]);
        must((1..=5).contains(&kind), KIND)?;
        must((1..=60).contains(&length), NAME_LENGTH)?;
        must(number != 0, NUMBER_0)?;
        let (name, behind) = bytes[4..].split_at(length);
        must(name.iter().all(|&byte| is_name_byte(byte)), NAME_BYTE)?;
        must(behind.iter().all(|&byte| byte == 0), NOT_ZERO_BEHIND)?;
        let mut same_kind = entries.iter().filter(|entry| entry.kind == kind);
        must(
            same_kind.clone().all(|entry| entry.name != name),
            NAME_TWICE,
        )?;
        must(same_kind.all(|entry| entry.number != number), NUMBER_TWICE)?;
        let name = name.to_vec();
        entries.push(Entry { kind, number, name });
    }
    Ok(entries)
}

pub fn write_names(entries: &[Entry]) -> Vec<u8> {
    let mut list = vec![];
    for entry in entries {
        let mut bytes = [0; ENTRY];
        bytes[0] = entry.kind;
        bytes[1] = entry.name.len() as u8;
        bytes[2..4].copy_from_slice(&entry.number.to_le_bytes());
        bytes[4..][..entry.name.len()].copy_from_slice(&entry.name);
        list.extend(bytes);
    }
    list
}

const A_ROLE: &str = "not listed: a role";
const MEMBER_OPERATION: &str = "not listed: a member's operation";
const MEMBER_TARGET: &str = "not listed: a member's target";
const STEP_OPERATION: &str = "not listed: a step's operation";
const STEP_TARGET: &str = "not listed: a step's target";
const A_TYPE: &str = "not listed: a context's type";
const A_VALUE: &str = "not listed: a context's value";

/// Names that are not listed, in reading, and numbers that are not, in writing: all give 42.
pub const UNLISTED: [&str; 7] = [
    A_ROLE,
    MEMBER_OPERATION,
    MEMBER_TARGET,
    STEP_OPERATION,
    STEP_TARGET,
    A_TYPE,
    A_VALUE,
];

fn number_of(names: &[Entry], kind: u8, name: &str, why: &'static str) -> Told<u16> {
    let entry = names
        .iter()
        .find(|entry| entry.kind == kind && entry.name == name.as_bytes());
    entry.map(|entry| entry.number).ok_or(fault(42, 0, why))
}

fn name_of<'n>(names: &'n [Entry], kind: u8, number: u16, why: &'static str) -> Told<&'n str> {
    let entry = names
        .iter()
        .find(|entry| entry.kind == kind && entry.number == number);
    let entry = entry.ok_or(fault(42, 0, why))?;
    Ok(std::str::from_utf8(&entry.name).expect("names are ASCII"))
}

// ---------------------------------------------------------------------------------------------
// Tags

/// What a tag says. `/` stands before an end tag's element and is not a part of its name.
struct Tag<'t> {
    element: &'t str,
    is_end: bool,
    attributes: Vec<(&'t str, &'t str)>,
}

impl<'t> Tag<'t> {
    /// From all that stands behind the tag before it, without its `>`.
    fn read(text: &'t str) -> Tag<'t> {
        let tag = text.trim_start().strip_prefix('<').expect("a tag");
        let is_end = tag.starts_with('/');
        let tag = tag.trim_matches('/');
        let (element, rest) = match tag.find(|c: char| c.is_ascii_whitespace()) {
            Some(white) => tag.split_at(white),
            None => (tag, ""),
        };
        let mut parts = rest.split('"');
        let mut attributes = vec![];
        while let (Some(name), Some(value)) = (parts.next(), parts.next()) {
            let name = name.trim().trim_end_matches('=').trim_end();
            attributes.push((name, value));
        }
        Tag {
            element,
            is_end,
            attributes,
        }
    }

    fn get(&self, name: &str) -> &'t str {
        let found = self.attributes.iter().find(|attribute| attribute.0 == name);
        found.expect("an attribute of the form").1
    }
}

// ---------------------------------------------------------------------------------------------
// Reading

const ROLE_ABOVE_32: &str = "limit: a role above 32";
const M_BELOW_2: &str = "limit: m below 2";
const M_ABOVE_N: &str = "limit: m above n";
const M_ABOVE_A_BYTE: &str = "limit: m above n, and above what a byte holds";
const NINE_MEMBERS: &str = "limit: more than eight members";
const ROLE_TWICE: &str = "limit: a role twice";
const FIVE_LEVELS: &str = "limit: more than four levels";
const NO_EXCLUSION: &str = "limit: no exclusion";
const NINE_EXCLUSIONS: &str = "limit: more than eight exclusions";
const FIRST_IS_LAST: &str = "limit: the first step is the last";
const RULE_33: &str = "limit: more than 32 rules";
const BLOCK_65: &str = "limit: more than 64 blocks";
const NO_BLOCK: &str = "limit: no block";
const NO_ROOM: &str = "limit: the output is too short";

/// What breaks a limit in reading, and gives 43.
pub const BREAKS: [&str; 14] = [
    ROLE_ABOVE_32,
    M_BELOW_2,
    M_ABOVE_N,
    M_ABOVE_A_BYTE,
    NINE_MEMBERS,
    ROLE_TWICE,
    FIVE_LEVELS,
    NO_EXCLUSION,
    NINE_EXCLUSIONS,
    FIRST_IS_LAST,
    RULE_33,
    BLOCK_65,
    NO_BLOCK,
    NO_ROOM,
];

/// What is known of the text so far: the rules that have ended, and the parts of those that have not.
struct Reading<'t> {
    names: Vec<Entry>,
    permissions: Vec<Vec<Permission>>,
    room: usize,
    rules: Vec<Rule>,
    context: &'t str,
    first: Option<Privilege>,
    last: Option<Privilege>,
    exclusions: Vec<Exclusion>,
    cardinality: &'t str,
    roles: Vec<u16>,
    privileges: Vec<Privilege>,
}

impl<'t> Reading<'t> {
    /// "Names, then limits, are tested where the innermost element holding all they concern ends."
    fn take(&mut self, tag: &Tag<'t>) -> Told<()> {
        match (tag.element, tag.is_end) {
            ("MSoDPolicy", false) => self.context = tag.get("BusinessContext"),
            ("FirstStep", _) => self.first = Some(self.step(tag)?),
            ("LastStep", _) => self.last = Some(self.step(tag)?),
            ("MMER" | "MMEP", false) => self.cardinality = tag.get("ForbiddenCardinality"),
            ("Role", _) => self.role(tag)?,
            ("Operation", _) => self.operation(tag)?,
            ("MMER", true) => self.exclusion_of_roles()?,
            ("MMEP", true) => self.exclusion_of_privileges()?,
            ("MSoDPolicy", true) => self.rule()?,
            ("MSoDPolicySet", true) => self.set()?,
            _ => {}
        }
        Ok(())
    }

    fn step(&self, tag: &Tag) -> Told<Privilege> {
        let operation = tag.get("operation");
        let target = tag.get("targetURI");
        Ok(Privilege {
            operation: number_of(&self.names, OPERATION, operation, STEP_OPERATION)?,
            target: number_of(&self.names, TARGET, target, STEP_TARGET)?,
        })
    }

    /// "A Role's type attribute is read and dropped."
    fn role(&mut self, tag: &Tag) -> Told<()> {
        let role = number_of(&self.names, ROLE, tag.get("value"), A_ROLE)?;
        unless((1..=32).contains(&role), 43, ROLE_ABOVE_32)?;
        self.roles.push(role);
        Ok(())
    }

    fn operation(&mut self, tag: &Tag) -> Told<()> {
        let (operation, target) = (tag.get("value"), tag.get("target"));
        self.privileges.push(Privilege {
            operation: number_of(&self.names, OPERATION, operation, MEMBER_OPERATION)?,
            target: number_of(&self.names, TARGET, target, MEMBER_TARGET)?,
        });
        Ok(())
    }

    /// "2 <= m <= n <= 8."
    fn m(&self, n: usize) -> Told<usize> {
        let m: usize = self.cardinality.parse().unwrap_or(usize::MAX);
        unless(m >= 2, 43, M_BELOW_2)?;
        let which = if m > 255 { M_ABOVE_A_BYTE } else { M_ABOVE_N };
        unless(m <= n, 43, which)?;
        unless(n <= 8, 43, NINE_MEMBERS)?;
        Ok(m)
    }

    fn exclusion_of_roles(&mut self) -> Told<()> {
        let roles = std::mem::take(&mut self.roles);
        let m = self.m(roles.len())?;
        let twice = (1..roles.len()).any(|i| roles[..i].contains(&roles[i]));
        unless(!twice, 43, ROLE_TWICE)?;
        let members = Members::Roles(roles);
        self.exclusions.push(Exclusion { m, members });
        Ok(())
    }

    fn exclusion_of_privileges(&mut self) -> Told<()> {
        let privileges = std::mem::take(&mut self.privileges);
        let m = self.m(privileges.len())?;
        let members = Members::Privileges(privileges);
        self.exclusions.push(Exclusion { m, members });
        Ok(())
    }

    fn levels(&self) -> Told<Vec<Level>> {
        let levels = self.context.split(',').filter(|_| !self.context.is_empty());
        levels.map(|level| self.level(level)).collect()
    }

    /// "A value of * is mark 2, ! is mark 3, a name mark 1."
    fn level(&self, level: &str) -> Told<Level> {
        let (kind, value) = level.split_once('=').expect("a level");
        let kind = number_of(&self.names, TYPE, kind.trim(), A_TYPE)?;
        let mark = match value.trim() {
            "*" => Mark::Every,
            "!" => Mark::Each,
            name => Mark::Fixed(number_of(&self.names, VALUE, name, A_VALUE)?),
        };
        Ok(Level { kind, mark })
    }

    fn rule(&mut self) -> Told<()> {
        let rule = Rule {
            levels: self.levels()?,
            first: self.first.take(),
            last: self.last.take(),
            exclusions: std::mem::take(&mut self.exclusions),
        };
        unless(rule.levels.len() <= 4, 43, FIVE_LEVELS)?;
        unless(!rule.exclusions.is_empty(), 43, NO_EXCLUSION)?;
        unless(rule.exclusions.len() <= 8, 43, NINE_EXCLUSIONS)?;
        let alike = rule.first.is_some() && rule.first == rule.last;
        unless(!alike, 43, FIRST_IS_LAST)?;
        self.rules.push(rule);
        Ok(())
    }

    fn set(&self) -> Told<()> {
        let blocks = self.rules.len() + self.permissions.len();
        unless(self.rules.len() <= 32, 43, RULE_33)?;
        unless(blocks <= 64, 43, BLOCK_65)?;
        unless(blocks > 0, 43, NO_BLOCK)?;
        unless(BLOCK * blocks <= self.room, 43, NO_ROOM)
    }
}

/// A text that does not have the form, where it goes wrong and where it stops early.
pub const BAD_BYTE: &str = "form: a byte";
pub const STOPS_EARLY: &str = "form: the text stops early";

/// The image that a text gives: its rules, "followed by the permission blocks alone of a second lent
/// image, numbered anew". `followed` says how far the text has the form, `room` is the length of the
/// lent output.
pub fn reading(
    text: &[u8],
    followed: &Followed,
    names: &[u8],
    second: &[u8],
    room: usize,
) -> Told<Vec<u8>> {
    let permissions = of_image(read_policy(second))?.permissions;
    let names = read_names(names)?;
    let good = std::str::from_utf8(&text[..followed.good]).expect("the form is ASCII");
    let mut reading = Reading {
        names,
        permissions,
        room,
        rules: vec![],
        context: "",
        first: None,
        last: None,
        exclusions: vec![],
        cardinality: "",
        roles: vec![],
        privileges: vec![],
    };
    // What stands behind the last `>` is a tag that has not ended, or white space.
    let mut tags: Vec<&str> = good.split('>').collect();
    tags.pop();
    for tag in tags {
        reading.take(&Tag::read(tag))?;
    }
    if !followed.whole {
        let stops = followed.good == text.len();
        let why = if stops { STOPS_EARLY } else { BAD_BYTE };
        return Err(fault(41, followed.good, why));
    }
    let Reading {
        rules, permissions, ..
    } = reading;
    Ok(write_policy(&Policy { rules, permissions }))
}

// ---------------------------------------------------------------------------------------------
// Writing

const RANGE: &str = "a range";
const NO_ROOM_FOR_TEXT: &str = "the output is too short for the text";

/// What gives 43 in writing.
pub const UNWRITTEN: [&str; 2] = [RANGE, NO_ROOM_FOR_TEXT];

/// A tag "in one fixed spelling": "attributes in section 3's order with one space before each, no other
/// white space". Of an element that holds others it is the start tag.
fn tag(name: &str, values: &[&str]) -> String {
    let element = ELEMENTS
        .iter()
        .find(|element| element.name == name)
        .unwrap();
    let mut text = format!("<{name}");
    assert_eq!(values.len(), element.attributes.len());
    for ((attribute, _), value) in element.attributes.iter().zip(values) {
        text += &format!(" {attribute}=\"{value}\"");
    }
    text + if element.inside.is_some() { ">" } else { "/>" }
}

fn end(name: &str) -> String {
    format!("</{name}>")
}

fn write_level(level: &Level, names: &[Entry]) -> Told<String> {
    let kind = name_of(names, TYPE, level.kind, A_TYPE)?;
    let value = match level.mark {
        Mark::Every => "*",
        Mark::Each => "!",
        Mark::Fixed(value) => name_of(names, VALUE, value, A_VALUE)?,
        // Its type is looked up and its values are not; the rule's end refuses it.
        Mark::Range(..) => "",
    };
    Ok(format!("{kind}={value}"))
}

fn write_step(name: &str, step: Option<Privilege>, names: &[Entry]) -> Told<String> {
    let Some(step) = step else {
        return Ok(String::new());
    };
    let operation = name_of(names, OPERATION, step.operation, STEP_OPERATION)?;
    let target = name_of(names, TARGET, step.target, STEP_TARGET)?;
    Ok(tag(name, &[operation, target]))
}

fn write_exclusion_text(exclusion: &Exclusion, names: &[Entry]) -> Told<String> {
    let name = match exclusion.members {
        Members::Roles(_) => "MMER",
        Members::Privileges(_) => "MMEP",
    };
    let mut text = tag(name, &[&exclusion.m.to_string()]);
    match &exclusion.members {
        Members::Roles(roles) => {
            for &role in roles {
                let role = name_of(names, ROLE, role, A_ROLE)?;
                text += &tag("Role", &["role", role]);
            }
        }
        Members::Privileges(privileges) => {
            for member in privileges {
                let operation = name_of(names, OPERATION, member.operation, MEMBER_OPERATION)?;
                let target = name_of(names, TARGET, member.target, MEMBER_TARGET)?;
                text += &tag("Operation", &[operation, target]);
            }
        }
    }
    Ok(text + &end(name))
}

fn write_rule_text(rule: &Rule, names: &[Entry]) -> Told<String> {
    let mut inside = write_step("FirstStep", rule.first, names)?;
    inside += &write_step("LastStep", rule.last, names)?;
    for exclusion in &rule.exclusions {
        inside += &write_exclusion_text(exclusion, names)?;
    }
    // The end tag: the context's names, then its limits, which only a range breaks.
    let levels: Told<Vec<String>> = rule
        .levels
        .iter()
        .map(|level| write_level(level, names))
        .collect();
    let context = levels?.join(",");
    let is_range = |level: &Level| matches!(level.mark, Mark::Range(..));
    unless(!rule.levels.iter().any(is_range), 43, RANGE)?;
    Ok(tag("MSoDPolicy", &[&context]) + &inside + &end("MSoDPolicy"))
}

/// The text of an accepted policy's rules. `room` is the length of the lent output.
pub fn writing(policy: &[u8], names: &[u8], room: usize) -> Told<Vec<u8>> {
    let policy = of_image(read_policy(policy))?;
    let names = read_names(names)?;
    let mut text = tag("MSoDPolicySet", &[]);
    for rule in &policy.rules {
        text += &write_rule_text(rule, &names)?;
    }
    text += &end("MSoDPolicySet");
    unless(text.len() <= room, 43, NO_ROOM_FOR_TEXT)?;
    Ok(text.into_bytes())
}

// ---------------------------------------------------------------------------------------------
// The entry points

/// "the length of its result where the lent output may be longer; bytes past that are unaltered".
pub fn put(result: Told<Vec<u8>>, output: &mut [u8]) -> Reply {
    match result {
        Ok(bytes) => {
            output[..bytes.len()].copy_from_slice(&bytes);
            Reply::accept(bytes.len())
        }
        Err(fault) => fault.reply,
    }
}

pub fn read_rules(text: &[u8], names: &[u8], second: &[u8], output: &mut [u8]) -> Reply {
    let followed = States::of_text().follow(text);
    put(
        reading(text, &followed, names, second, output.len()),
        output,
    )
}

pub fn write_rules(policy: &[u8], names: &[u8], output: &mut [u8]) -> Reply {
    put(writing(policy, names, output.len()), output)
}
