//! Readings and writings among the calls of a list: of the rules of the policy that it is played under.

use super::chance::Chance;
use super::compare::{Comparing, Seen};
use super::named::{damage_list, Listed};
use super::spelled::{damage_bytes, set, Style};
use super::texts::{LONGEST_TEXT, READ, WRITE};
use super::world::has_range;
use crate::independent::images::*;
use crate::independent::xml;
use crate::independent::Reply;

/// A text to be read with the list's policy as the second image.
pub struct Reading {
    text: Vec<u8>,
    with: With,
    /// Whether the image must be the policy itself.
    gives_back: bool,
}

/// The list's policy is to be written.
pub struct Writing(With);

/// What is lent beside text and policy.
struct With {
    names: Vec<u8>,
    /// The length of the output.
    room: usize,
    /// The number that the call gets, 0 where it is accepted; none where damage leaves that open.
    due: Option<u32>,
}

// ---------------------------------------------------------------------------------------------
// By chance

/// The rules of a policy, and what it takes to read and to write them.
pub struct Rules {
    /// As a text can say them: with every in the place of a range.
    spelled: Policy,
    ranged: bool,
    names: Listed,
    /// The lengths of the policy's image, and of its text as it is written.
    image: usize,
    text: usize,
}

impl Rules {
    pub fn of(chance: &mut Chance, image: &[u8]) -> Rules {
        let mut policy = read_policy(image).expect("a good policy");
        let names = Listed::of(chance, &policy);
        let ranged = policy.rules.iter().any(has_range);
        for level in policy.rules.iter_mut().flat_map(|rule| &mut rule.levels) {
            if matches!(level.mark, Mark::Range(..)) {
                level.mark = Mark::Every;
            }
        }
        let text = xml::writing(&write_policy(&policy), &names.image(), LONGEST_TEXT);
        Rules {
            text: text.expect("every number has a name").len(),
            spelled: policy,
            ranged,
            names,
            image: image.len(),
        }
    }

    /// A text of the rules in any spelling; every second reading is good in all things.
    pub fn reading(&self, chance: &mut Chance) -> Reading {
        let style = Style::by_chance(chance);
        let mut text = set(chance, &self.spelled, &self.names, style).text(chance, style);
        let mut with = self.with(chance, self.image, 0);
        if chance.percent(15) {
            damage_bytes(chance, &mut text);
            with.due = None;
        }
        Reading {
            text,
            gives_back: with.due == Some(0) && !self.ranged,
            with,
        }
    }

    /// No text has a range.
    pub fn writing(&self, chance: &mut Chance) -> Writing {
        let number = if self.ranged { 43 } else { 0 };
        Writing(self.with(chance, self.text, number))
    }

    /// For a result of so many bytes, which gets this number if nothing is damaged.
    fn with(&self, chance: &mut Chance, length: usize, number: u32) -> With {
        let mut with = With {
            names: self.names.image(),
            room: length + chance.pick(&[0, 0, 1, 600]),
            due: Some(number),
        };
        match chance.below(20) {
            0..=2 => {
                let mut names = self.names.clone();
                names.unlist(chance);
                (with.names, with.due) = (names.image(), None);
            }
            3..=5 => {
                damage_list(chance, &mut with.names);
                with.due = None;
            }
            6 => (with.room, with.due) = (length - 1, Some(43)),
            7 => (with.room, with.due) = (chance.below(length), Some(43)),
            _ => {}
        }
        with
    }
}

// ---------------------------------------------------------------------------------------------
// Made

impl Reading {
    /// What is read with a list's policy as the second image, while its table is lent.
    pub fn make(
        &self,
        comparing: &mut Comparing,
        policy: &[u8],
        table: &[u8],
    ) -> Result<Vec<u8>, Reply> {
        let With { names, room, .. } = &self.with;
        let read = comparing.beside(READ, policy, table, |texts| {
            texts.read(&self.text, names, policy, *room)
        });
        self.with.must_get_what_is_due(&read);
        if self.gives_back {
            let same = read.as_deref() == Ok(policy);
            assert!(same, "what was read is not the list's policy");
        }
        read
    }

    /// What the independent reader makes of it.
    pub fn by_judge(&self, policy: &[u8]) -> Reply {
        let mut output = vec![0; self.with.room];
        xml::read_rules(&self.text, &self.with.names, policy, &mut output)
    }

    /// In words.
    pub fn text(&self) -> String {
        let text = self.text.escape_ascii();
        format!("reading of \"{text}\" {}", self.with.text())
    }
}

impl Writing {
    /// What the writing of a list's policy gets, while its table is lent.
    pub fn make(&self, comparing: &mut Comparing, policy: &[u8], table: &[u8]) -> Reply {
        let With { names, room, .. } = &self.0;
        let written = comparing.beside(WRITE, policy, table, |texts| {
            texts.write(policy, names, *room)
        });
        self.0.must_get_what_is_due(&written);
        written.map_or_else(|refusal| refusal, |text| Reply::accept(text.len()))
    }

    /// What the independent writer makes of it.
    pub fn by_judge(&self, policy: &[u8]) -> Reply {
        let mut output = vec![0; self.0.room];
        xml::write_rules(policy, &self.0.names, &mut output)
    }

    /// In words.
    pub fn text(&self) -> String {
        format!("writing {}", self.0.text())
    }
}

impl With {
    fn must_get_what_is_due(&self, given: &Result<Vec<u8>, Reply>) {
        let number = given.as_ref().err().map_or(0, |refusal| refusal.number);
        if let Some(due) = self.due {
            assert_eq!(number, due, "a text gets another number than is due");
        }
    }

    /// In words; the bytes of a list that is bad.
    fn text(&self) -> String {
        const KINDS: [&str; 5] = ["type", "value", "role", "operation", "target"];
        let names = match xml::read_names(&self.names) {
            Ok(entries) => {
                let word = |entry: &xml::Entry| {
                    let kind = KINDS[entry.kind as usize - 1];
                    format!("{kind} {} {}", entry.number, entry.name.escape_ascii())
                };
                let words: Vec<String> = entries.iter().map(word).collect();
                words.join(", ")
            }
            Err(_) => format!("{:?}", self.names),
        };
        format!("into {} bytes with the names [{names}]", self.room)
    }
}

// ---------------------------------------------------------------------------------------------
// What is met with

/// What a list has come to by its readings.
#[derive(Default)]
pub struct Lately {
    /// Whether the policy that is lent came out of a reading.
    was_read: bool,
    /// Whether the last call was a reading that was refused.
    just_refused: bool,
}

impl Lately {
    /// Takes down a reading, and puts what was read in the policy's place if it is the same.
    pub fn reading(&mut self, read: Result<Vec<u8>, Reply>, policy: &mut Vec<u8>, seen: &mut Seen) {
        self.just_refused = read.is_err();
        match read {
            Ok(image) if image == *policy => {
                *policy = image;
                self.was_read = true;
                seen.note(GIVEN_BACK);
            }
            Ok(_) => seen.note(ANOTHER),
            Err(_) => {}
        }
    }

    /// Takes down any other call.
    pub fn other(&mut self, call: &'static str, reply: Reply, seen: &mut Seen) {
        let after_refused = std::mem::take(&mut self.just_refused);
        if after_refused && call == "decide" {
            seen.note(AFTER_REFUSED);
        }
        match (call, reply.number) {
            (WRITE, 0) => seen.note(WRITTEN),
            _ if !self.was_read => {}
            ("decide", 0) => seen.note(GRANTED),
            ("decide", 31..=34) => seen.note(REFUSED),
            ("preview", 0 | 31..=34) => seen.note(PREVIEWED),
            ("close", 0) if reply.first > 0 => seen.note(CLOSED),
            _ => {}
        }
    }
}

// What is taken down.
const GIVEN_BACK: &str = "a reading gives the list's policy";
const ANOTHER: &str = "a reading gives another policy, and the list goes on under its own";
const WRITTEN: &str = "the list's policy is written";
const GRANTED: &str = "granted under a policy that was read";
const REFUSED: &str = "refused by the judge under a policy that was read";
const PREVIEWED: &str = "previewed under a policy that was read";
const CLOSED: &str = "a closing removes some under a policy that was read";
const AFTER_REFUSED: &str = "a decision directly after a reading that was refused";

/// What a list's readings and writings meet with, and single calls after them.
pub const MET: [&str; 5] = [GIVEN_BACK, ANOTHER, WRITTEN, CLOSED, AFTER_REFUSED];

/// The rest of it, which every decision and preview after a reading can meet with.
pub const MET_AFTER: [&str; 3] = [GRANTED, REFUSED, PREVIEWED];
