//! A reading or a writing put to the engine and to both independent ones, and all that comes of it
//! compared.

use super::engine;
use super::lent::{Lay, Lent};
use crate::independent::form::{Followed, States};
use crate::independent::xml::{self, Fault};
use crate::independent::{quick_xml, Reply};
use std::collections::BTreeMap;
use std::fmt;

/// How often each thing was seen.
pub struct Seen {
    pub readings: usize,
    pub writings: usize,
    counts: BTreeMap<(&'static str, &'static str), usize>,
    /// For each state of the form, how often 41 named the byte behind it, and how often the text ended
    /// there early.
    bad_byte: Vec<usize>,
    stops: Vec<usize>,
}

pub const READ: &str = "read";
pub const WRITE: &str = "write";
pub const ACCEPTED: &str = "accepted";

// What is taken down of the order of the numbers.
const BEFORE_41: [&str; 2] = ["42 before a 41 further on", "43 before a 41 further on"];
const BEHIND_THE_SET: &str = "41 behind the set's end tag";

/// All of it.
pub const ORDER: [&str; 3] = [BEFORE_41[0], BEFORE_41[1], BEHIND_THE_SET];

impl Seen {
    fn new() -> Seen {
        let states = States::of_text().count();
        Seen {
            readings: 0,
            writings: 0,
            counts: BTreeMap::new(),
            bad_byte: vec![0; states],
            stops: vec![0; states],
        }
    }

    pub fn note(&mut self, call: &'static str, what: &'static str) {
        *self.counts.entry((call, what)).or_default() += 1;
    }

    pub fn times(&self, call: &'static str, what: &'static str) -> usize {
        self.counts.get(&(call, what)).copied().unwrap_or(0)
    }

    /// Fails unless the call has given each of these so many times.
    pub fn must(&self, call: &'static str, all: &[&'static str], times: usize) {
        for &what in all {
            let seen = self.times(call, what);
            assert!(seen >= times, "{call}, {what}: {seen} times\n{self}");
        }
    }

    /// Fails unless 41 has named a byte behind every state of the form so many times, and so many texts
    /// have stopped at every one at which a text may not end.
    pub fn must_41_everywhere(&self, times: usize) {
        let states = States::of_text();
        for state in 0..states.count() {
            let shown = states.shown(state);
            let (bad, stops) = (self.bad_byte[state], self.stops[state]);
            assert!(
                bad >= times,
                "a bad byte behind {state} {shown:?}: {bad} times"
            );
            let enough = states.ends(state) || stops >= times;
            assert!(
                enough,
                "a text that stops behind {state} {shown:?}: {stops} times"
            );
        }
    }

    fn take_reading(&mut self, followed: &Followed, fault: Option<&Fault>) {
        self.readings += 1;
        let Some(fault) = fault else {
            return self.note(READ, ACCEPTED);
        };
        self.note(READ, fault.why);
        let states = States::of_text();
        match fault.reply.number {
            41 => {
                let stops = fault.why == xml::STOPS_EARLY;
                let counts = if stops {
                    &mut self.stops
                } else {
                    &mut self.bad_byte
                };
                for &state in &followed.states {
                    counts[state] += 1;
                }
                if followed.states.iter().any(|&state| states.ends(state)) {
                    self.note(READ, BEHIND_THE_SET);
                }
            }
            number @ 42..=43 if !followed.whole && !xml::LIST_FAULTS.contains(&fault.why) => {
                self.note(READ, BEFORE_41[number as usize - 42]);
            }
            _ => {}
        }
    }

    fn take_writing(&mut self, fault: Option<&Fault>) {
        self.writings += 1;
        self.note(WRITE, fault.map_or(ACCEPTED, |fault| fault.why));
    }
}

impl fmt::Display for Seen {
    fn fmt(&self, f: &mut fmt::Formatter) -> fmt::Result {
        writeln!(f, "{} readings, {} writings", self.readings, self.writings)?;
        for ((call, what), times) in &self.counts {
            writeln!(f, "  {call}, {what}: {times}")?;
        }
        if self.times(READ, xml::BAD_BYTE) == 0 {
            return Ok(());
        }
        let states = States::of_text();
        let stops = (0..states.count()).filter(|&state| !states.ends(state));
        let stops = stops.map(|state| self.stops[state]).min();
        let (bad, stops) = (self.bad_byte.iter().min().unwrap(), stops.unwrap());
        writeln!(
            f,
            "  41 behind each state: {bad} times or more; by an early end: {stops}"
        )
    }
}

/// The longest parts that are lent.
pub const LONGEST_TEXT: usize = 1 << 20;
const LONGEST_LIST: usize = 64 * 1_030;
const LONGEST_IMAGE: usize = 512 * 70;

/// Lends memory to the engine and compares.
pub struct Texts {
    text: Lent,
    names: Lent,
    image: Lent,
    output: Lent,
    /// What an output holds before the call.
    noise: Vec<u8>,
    calls: usize,
    pub seen: Seen,
}

impl Texts {
    pub fn new() -> Texts {
        let noise = (0..LONGEST_TEXT as u32).map(|i| (i.wrapping_mul(2_654_435_761) >> 24) as u8);
        Texts {
            text: Lent::new(LONGEST_TEXT),
            names: Lent::new(LONGEST_LIST),
            image: Lent::new(LONGEST_IMAGE),
            output: Lent::new(LONGEST_TEXT),
            noise: noise.collect(),
            calls: 0,
            seen: Seen::new(),
        }
    }

    /// Reads a text into an output of so many bytes: what was written at its front, or the refusal.
    pub fn read(
        &mut self,
        text: &[u8],
        names: &[u8],
        second: &[u8],
        room: usize,
    ) -> Result<Vec<u8>, Reply> {
        self.lay(text, names, second, room);
        let reply = engine::read_rules(
            self.text.bytes(),
            self.names.bytes(),
            self.image.bytes(),
            self.output.bytes_mut(),
        );
        let followed = States::of_text().follow(text);
        let told = xml::reading(text, &followed, names, second, room);
        self.seen.take_reading(&followed, told.as_ref().err());
        let quick = |output: &mut [u8]| quick_xml::read_rules(text, names, second, output);
        self.compare(reply, &told, room, quick);
        self.nothing_altered(text, names, second);
        self.given(told)
    }

    /// Writes a policy's rules into an output of so many bytes: the text, or the refusal.
    pub fn write(&mut self, policy: &[u8], names: &[u8], room: usize) -> Result<Vec<u8>, Reply> {
        self.lay(&[], names, policy, room);
        let reply = engine::write_rules(
            self.image.bytes(),
            self.names.bytes(),
            self.output.bytes_mut(),
        );
        let told = xml::writing(policy, names, room);
        self.seen.take_writing(told.as_ref().err());
        let quick = |output: &mut [u8]| quick_xml::write_rules(policy, names, output);
        self.compare(reply, &told, room, quick);
        self.nothing_altered(&[], names, policy);
        self.given(told)
    }

    fn lay(&mut self, text: &[u8], names: &[u8], image: &[u8], room: usize) {
        let lay = match self.calls % 2 {
            0 => Lay::AtTheEnd,
            _ => Lay::AtTheBeginning,
        };
        self.calls += 1;
        self.text.lay(text, lay);
        self.names.lay(names, lay);
        self.image.lay(image, lay);
        self.output.lay(&self.noise[..room], lay);
    }

    /// Compares replies and outputs with those of the judge, the quick reader's too.
    fn compare(
        &mut self,
        reply: Reply,
        told: &Result<Vec<u8>, Fault>,
        room: usize,
        quick: impl Fn(&mut [u8]) -> Reply,
    ) {
        let mut expected = self.noise[..room].to_vec();
        let mut by_quick = expected.clone();
        let by_judge = xml::put(told.clone(), &mut expected);
        assert_eq!(reply, by_judge, "engine and judge: {told:?}");
        assert!(
            self.output.bytes() == expected,
            "the engine's output is another"
        );
        assert_eq!(
            quick(&mut by_quick),
            by_judge,
            "quick reader and judge: {told:?}"
        );
        assert!(by_quick == expected, "the quick reader's output is another");
    }

    /// The engine's own bytes, where these are no refusal.
    fn given(&self, told: Result<Vec<u8>, Fault>) -> Result<Vec<u8>, Reply> {
        let length = told.map_err(|fault| fault.reply)?.len();
        Ok(self.output.bytes()[..length].to_vec())
    }

    fn nothing_altered(&mut self, text: &[u8], names: &[u8], image: &[u8]) {
        assert!(self.text.bytes() == text, "the text was altered");
        assert!(self.names.bytes() == names, "the list of names was altered");
        assert!(self.image.bytes() == image, "the image was altered");
        let all = [
            &mut self.text,
            &mut self.names,
            &mut self.image,
            &mut self.output,
        ];
        for lent in all {
            assert!(lent.canaries_live(), "something outside was altered");
        }
    }
}
