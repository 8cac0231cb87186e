//! The form of a policy's text: the elements of source document 001, section 3, as document 02 (W5)
//! bounds them, as a table; and how far a text has that form.
//!
//! The table is made into states, one for each byte that some text of the form may have. A text leads
//! from the states it may have reached by one byte to those it may have reached by the next. As long
//! as there is one, some text of the form begins like this one. So the first byte after which there is
//! none is the byte that 41 names, and nothing depends on how a reader would go.

use std::sync::OnceLock;

/// What stands between the quotes of an attribute.
#[derive(Clone, Copy)]
pub enum Value {
    Context,
    Name,
    Digits,
}

/// What stands inside an element, one part behind the other.
pub enum Part {
    /// This element or nothing.
    Optional(&'static str),
    /// Any number of these, in any mix.
    Mix(&'static [&'static str]),
}

pub struct Element {
    pub name: &'static str,
    pub attributes: &'static [(&'static str, Value)],
    /// Of an element that ends in `/>`, none.
    pub inside: Option<&'static [Part]>,
}

/// The elements in the order of section 3, with their attributes in its order.
pub const ELEMENTS: [Element; 8] = [
    Element {
        name: "MSoDPolicySet",
        attributes: &[],
        inside: Some(&[Part::Mix(&["MSoDPolicy"])]),
    },
    Element {
        name: "MSoDPolicy",
        attributes: &[("BusinessContext", Value::Context)],
        inside: Some(&[
            Part::Optional("FirstStep"),
            Part::Optional("LastStep"),
            Part::Mix(&["MMER", "MMEP"]),
        ]),
    },
    Element {
        name: "FirstStep",
        attributes: &[("operation", Value::Name), ("targetURI", Value::Name)],
        inside: None,
    },
    Element {
        name: "LastStep",
        attributes: &[("operation", Value::Name), ("targetURI", Value::Name)],
        inside: None,
    },
    Element {
        name: "MMER",
        attributes: &[("ForbiddenCardinality", Value::Digits)],
        inside: Some(&[Part::Mix(&["Role"])]),
    },
    Element {
        name: "MMEP",
        attributes: &[("ForbiddenCardinality", Value::Digits)],
        inside: Some(&[Part::Mix(&["Operation"])]),
    },
    Element {
        name: "Role",
        attributes: &[("type", Value::Name), ("value", Value::Name)],
        inside: None,
    },
    Element {
        name: "Operation",
        attributes: &[("value", Value::Name), ("target", Value::Name)],
        inside: None,
    },
];

/// "ASCII bytes 33 to 126 without `"` `&` `<` `>` `=` `,` `*` `!`".
pub fn is_name_byte(byte: u8) -> bool {
    (33..=126).contains(&byte) && !b"\"&<>=,*!".contains(&byte)
}

fn is_white(byte: u8) -> bool {
    b" \t\r\n".contains(&byte)
}

// ---------------------------------------------------------------------------------------------
// The form of a text, from the table

type Test = fn(u8) -> bool;

enum Form {
    /// This byte.
    Byte(u8),
    /// A byte that passes a test.
    Any(Test),
    Then(Vec<Form>),
    Either(Vec<Form>),
    /// Any number of times, none too.
    Many(Box<Form>),
}

use Form::{Any, Byte, Either, Many, Then};

fn word(text: &str) -> Form {
    Then(text.bytes().map(Byte).collect())
}

fn many(form: Form) -> Form {
    Many(Box::new(form))
}

fn nothing() -> Form {
    Then(vec![])
}

fn one_or_more(test: Test) -> Form {
    Then(vec![Any(test), many(Any(test))])
}

/// White space where there may be some.
fn white() -> Form {
    many(Any(is_white))
}

fn name() -> Form {
    one_or_more(is_name_byte)
}

/// White space stands round commas and equals signs, and none at the two ends.
fn context() -> Form {
    let level = || {
        let value = Either(vec![Byte(b'*'), Byte(b'!'), name()]);
        Then(vec![name(), white(), Byte(b'='), white(), value])
    };
    let further = Then(vec![white(), Byte(b','), white(), level()]);
    Either(vec![nothing(), Then(vec![level(), many(further)])])
}

fn value(value: Value) -> Form {
    match value {
        Value::Context => context(),
        Value::Name => name(),
        Value::Digits => one_or_more(|byte| byte.is_ascii_digit()),
    }
}

fn attribute(&(name, what): &(&str, Value)) -> Form {
    let equals = vec![white(), Byte(b'='), white()];
    let quoted = vec![Byte(b'"'), value(what), Byte(b'"')];
    let before = vec![one_or_more(is_white), word(name)];
    Then(before.into_iter().chain(equals).chain(quoted).collect())
}

/// Each attribute once, in any order.
fn attributes(all: &[(&str, Value)]) -> Form {
    if all.is_empty() {
        return nothing();
    }
    let beginning_with = |i: usize| {
        let (mut others, first) = (all.to_vec(), attribute(&all[i]));
        others.remove(i);
        Then(vec![first, attributes(&others)])
    };
    Either((0..all.len()).map(beginning_with).collect())
}

fn part(part: &Part) -> Form {
    let placed = |name: &&str| Then(vec![element(name), white()]);
    match part {
        Part::Optional(name) => Either(vec![nothing(), placed(name)]),
        Part::Mix(names) => many(Either(names.iter().map(placed).collect())),
    }
}

fn element(name: &str) -> Form {
    let element = ELEMENTS
        .iter()
        .find(|element| element.name == name)
        .unwrap();
    let mut form = vec![
        Byte(b'<'),
        word(name),
        attributes(element.attributes),
        white(),
    ];
    match element.inside {
        None => form.push(word("/>")),
        Some(parts) => {
            form.extend([Byte(b'>'), white()]);
            form.extend(parts.iter().map(part));
            form.extend([word("</"), word(name), white(), Byte(b'>')]);
        }
    }
    Then(form)
}

fn text() -> Form {
    Then(vec![white(), element("MSoDPolicySet"), white()])
}

// ---------------------------------------------------------------------------------------------
// The states

/// One state for each byte of the form, and state 0, in which nothing has been read.
pub struct States {
    /// Whether a byte leads into the state, provided that the state before leads there.
    takes: Vec<[bool; 256]>,
    /// The states that may come next.
    next: Vec<Vec<usize>>,
    /// Whether a text may end here.
    ends: Vec<bool>,
}

/// A part of the form among the states: those that its first byte leads to, those that its last byte
/// leaves, and whether it may be empty.
struct Laid {
    first: Vec<usize>,
    last: Vec<usize>,
    empty: bool,
}

impl States {
    /// The states of a policy's text.
    pub fn of_text() -> &'static States {
        static STATES: OnceLock<States> = OnceLock::new();
        STATES.get_or_init(|| States::of(&text()))
    }

    fn of(form: &Form) -> States {
        let mut states = States {
            takes: vec![[false; 256]],
            next: vec![vec![]],
            ends: vec![],
        };
        let laid = states.lay(form);
        states.link(&[0], &laid.first);
        states.ends = vec![false; states.next.len()];
        for last in laid.last {
            states.ends[last] = true;
        }
        states
    }

    fn lay(&mut self, form: &Form) -> Laid {
        match form {
            Byte(byte) => self.add(|b| b == *byte),
            Any(test) => self.add(test),
            Then(forms) => {
                let nothing = Laid {
                    first: vec![],
                    last: vec![],
                    empty: true,
                };
                forms.iter().fold(nothing, |before, form| {
                    let behind = self.lay(form);
                    self.join(before, behind)
                })
            }
            Either(forms) => {
                let laid: Vec<Laid> = forms.iter().map(|form| self.lay(form)).collect();
                Laid {
                    first: laid.iter().flat_map(|one| one.first.clone()).collect(),
                    last: laid.iter().flat_map(|one| one.last.clone()).collect(),
                    empty: laid.iter().any(|one| one.empty),
                }
            }
            Many(form) => {
                let laid = self.lay(form);
                self.link(&laid.last, &laid.first);
                Laid {
                    empty: true,
                    ..laid
                }
            }
        }
    }

    fn add(&mut self, test: impl Fn(u8) -> bool) -> Laid {
        let state = self.next.len();
        self.takes
            .push(std::array::from_fn(|byte| test(byte as u8)));
        self.next.push(vec![]);
        Laid {
            first: vec![state],
            last: vec![state],
            empty: false,
        }
    }

    fn join(&mut self, before: Laid, behind: Laid) -> Laid {
        self.link(&before.last, &behind.first);
        let (mut first, mut last) = (before.first, behind.last);
        if before.empty {
            first.extend(behind.first);
        }
        if behind.empty {
            last.extend(before.last);
        }
        Laid {
            first,
            last,
            empty: before.empty && behind.empty,
        }
    }

    fn link(&mut self, from: &[usize], to: &[usize]) {
        for &state in from {
            self.next[state].extend(to);
        }
    }

    pub fn count(&self) -> usize {
        self.next.len()
    }

    pub fn next(&self, state: usize) -> &[usize] {
        &self.next[state]
    }

    pub fn ends(&self, state: usize) -> bool {
        self.ends[state]
    }

    /// A byte that leads into the state, to speak of it.
    pub fn shown(&self, state: usize) -> char {
        (0..=255u8)
            .rev()
            .find(|&byte| self.takes[state][byte as usize])
            .map_or('^', char::from)
    }

    /// Goes through a text as far as some text of the form begins like it.
    pub fn follow(&self, text: &[u8]) -> Followed {
        let (mut now, mut after) = (vec![0], vec![]);
        for (at, &byte) in text.iter().enumerate() {
            for &state in &now {
                for &next in &self.next[state] {
                    if self.takes[next][byte as usize] && !after.contains(&next) {
                        after.push(next);
                    }
                }
            }
            if after.is_empty() {
                return Followed {
                    good: at,
                    whole: false,
                    states: now,
                };
            }
            std::mem::swap(&mut now, &mut after);
            after.clear();
        }
        Followed {
            good: text.len(),
            whole: now.iter().any(|&state| self.ends[state]),
            states: now,
        }
    }
}

/// How far a text has the form.
pub struct Followed {
    /// So many of its bytes are the beginning of some text of the form.
    pub good: usize,
    /// Whether it is itself of the form.
    pub whole: bool,
    /// The states behind these bytes.
    pub states: Vec<usize>,
}
