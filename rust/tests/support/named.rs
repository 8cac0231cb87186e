//! Lists of names by chance, and lists that are no good.

use super::chance::Chance;
use crate::independent::form::is_name_byte;
use crate::independent::images::*;
use crate::independent::xml::*;

#[derive(Clone)]
pub struct Listed {
    pub entries: Vec<Entry>,
}

/// Names that look like parts of the form, or like each other.
const TELLING: [&str; 14] = [
    "MMER", "Role", "role", "type", "/", "//", "-", "'", "2", "02", "Role/", "value", "~", "#",
];

impl Listed {
    /// A name for every number that a policy's rules use, and some that they do not.
    pub fn of(chance: &mut Chance, policy: &Policy) -> Listed {
        let mut listed = Listed { entries: vec![] };
        for (kind, number) in numbers(policy) {
            listed.add(chance, kind, number);
        }
        for _ in 0..chance.below(6) {
            let kind = chance.from(1, 5) as u8;
            let number = chance.pick(&[1, 2, 32, 33, 34, 255, 256, 65535]);
            listed.add(chance, kind, number);
        }
        chance.shuffle(&mut listed.entries);
        listed
    }

    /// Lists a number under a name by chance, unless it is there.
    pub fn add(&mut self, chance: &mut Chance, kind: u8, number: u16) {
        if self.find(kind, number).is_some() {
            return;
        }
        let name = loop {
            let name = self.name_by_chance(chance);
            let taken = |entry: &Entry| entry.kind == kind && entry.name == name;
            if !self.entries.iter().any(taken) {
                break name;
            }
        };
        self.entries.push(Entry { kind, number, name });
    }

    /// Any name; often one that differs from another by a byte, or that another kind has too.
    fn name_by_chance(&self, chance: &mut Chance) -> Vec<u8> {
        if chance.percent(12) {
            return chance.pick(&TELLING).into();
        }
        if !self.entries.is_empty() && chance.percent(30) {
            let mut name = chance.pick(&self.entries).name;
            match chance.below(3) {
                0 if name.len() < 60 => name.push(name_byte(chance)),
                1 if name.len() > 1 => drop(name.pop()),
                _ => {}
            }
            return name;
        }
        let length = match chance.below(12) {
            0 => 60,
            1 => chance.from(20, 60),
            _ => chance.from(1, 6),
        };
        (0..length).map(|_| name_byte(chance)).collect()
    }

    fn find(&self, kind: u8, number: u16) -> Option<&Entry> {
        let mut entries = self.entries.iter();
        entries.find(|entry| entry.kind == kind && entry.number == number)
    }

    pub fn name(&self, kind: u8, number: u16) -> String {
        let entry = self.find(kind, number).expect("every number has a name");
        String::from_utf8(entry.name.clone()).expect("names are ASCII")
    }

    pub fn image(&self) -> Vec<u8> {
        write_names(&self.entries)
    }

    /// Alters the list so that some name or number is no longer listed, or means something else. It
    /// stays a good list.
    pub fn unlist(&mut self, chance: &mut Chance) {
        if self.entries.is_empty() {
            return;
        }
        let at = chance.below(self.entries.len());
        let was = self.entries.remove(at);
        match chance.below(4) {
            0 => {}
            1 => {
                let name = was.name;
                let entry = Entry {
                    name,
                    kind: chance.from(1, 5) as u8,
                    ..was
                };
                self.put_if_good(entry);
            }
            2 => self.add(chance, was.kind, was.number),
            _ => {
                let number = chance.pick(&[1, 2, 32, 33, 100, 65535]);
                self.put_if_good(Entry { number, ..was });
            }
        }
    }

    fn put_if_good(&mut self, new: Entry) {
        let clashes = |one: &Entry| {
            one.kind == new.kind && (one.number == new.number || one.name == new.name)
        };
        if !self.entries.iter().any(clashes) {
            self.entries.push(new);
        }
    }
}

fn name_byte(chance: &mut Chance) -> u8 {
    if chance.percent(60) {
        return chance.pick(b"abcRT09/");
    }
    loop {
        let byte = chance.from(33, 126) as u8;
        if is_name_byte(byte) {
            return byte;
        }
    }
}

/// Every number of the rules that a name can stand for, with its kind.
pub fn numbers(policy: &Policy) -> Vec<(u8, u16)> {
    let mut numbers = vec![];
    let privilege = |p: &Privilege| [(OPERATION, p.operation), (TARGET, p.target)];
    for rule in &policy.rules {
        for level in &rule.levels {
            numbers.push((TYPE, level.kind));
            if let Mark::Fixed(value) = level.mark {
                numbers.push((VALUE, value));
            }
        }
        numbers.extend(rule.first.iter().chain(&rule.last).flat_map(privilege));
        for exclusion in &rule.exclusions {
            match &exclusion.members {
                Members::Roles(roles) => numbers.extend(roles.iter().map(|&role| (ROLE, role))),
                Members::Privileges(all) => numbers.extend(all.iter().flat_map(privilege)),
            }
        }
    }
    numbers
}

/// Makes a list bad, mostly; some of these leave it good.
pub fn damage_list(chance: &mut Chance, list: &mut Vec<u8>) {
    let entries = list.len() / ENTRY;
    if entries == 0 || chance.percent(8) {
        return list.resize(chance.below(list.len() + 130), 0);
    }
    let at = ENTRY * chance.below(entries);
    let other = ENTRY * chance.below(entries);
    let length = list[at + 1] as usize;
    match chance.below(9) {
        0 => list[at] = chance.pick(&[0, 1, 2, 3, 4, 5, 6, 255]),
        1 => {
            list[at + 1] =
                chance.pick(&[0, 61, 255, (length as u8).wrapping_sub(1), length as u8 + 1])
        }
        2 => list[at + 2..at + 4].fill(0),
        3 => list[at + 4 + chance.below(length.max(1))] = bad_name_byte(chance),
        4 => list[at + 63] = chance.pick(&[0, 1, b'a']),
        5 => list[at + 4 + length.min(59)] = chance.pick(&[1, b' ', b'a', 255]),
        6 => list.copy_within(other..other + 4, at),
        7 => list.copy_within(other..other + 64, at),
        // The name of another entry with its own number, and its kind too.
        _ => {
            let number = [list[at + 2], list[at + 3]];
            list.copy_within(other..other + 64, at);
            list[at + 2..at + 4].copy_from_slice(&number);
        }
    }
}

fn bad_name_byte(chance: &mut Chance) -> u8 {
    match chance.below(3) {
        0 => chance.pick(b"\"&<>=,*!"),
        1 => chance.pick(&[0, 9, 10, 13, 31, 32, 127, 128, 160, 255]),
        _ => chance.next() as u8,
    }
}
