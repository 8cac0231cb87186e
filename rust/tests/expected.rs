//! What an error says that may stand where a text leaves the form, held against the engine: each of
//! these things, put there, brings it further, and nothing else does.

mod independent;
mod spelt;
mod support;

use hastovimen::*;
use spelt::Spelt;
use std::collections::BTreeMap;
use support::chance::Chance;

/// Every word that can be expected.
const WORDS: [&str; 26] = [
    "<MSoDPolicySet",
    "<MSoDPolicy",
    "<FirstStep",
    "<LastStep",
    "<MMER",
    "<MMEP",
    "<Role",
    "<Operation",
    "</MMER",
    "</MMEP",
    "</MSoDPolicy",
    "</MSoDPolicySet",
    "BusinessContext",
    "ForbiddenCardinality",
    "operation",
    "targetURI",
    "type",
    "value",
    "target",
    "=",
    "\"",
    ",",
    "*",
    "!",
    ">",
    "/>",
];

/// How often each thing was expected.
type Seen = BTreeMap<Expected, usize>;

/// How far the engine gets in a text: past all of it if the text could go on, or is refused for
/// something else than its form.
fn reach(spelt: &Spelt, text: &[u8]) -> usize {
    let mut output = [0; MOST_POLICY_BLOCKS * BLOCK];
    let (names, second) = (spelt.names.image(), spelt.policy.image());
    match raw::read_rules(text, names, second, &mut output) {
        Err(Refusal::TextForm { byte }) => byte as usize,
        _ => usize::MAX,
    }
}

fn fits(one: Expected, byte: u8) -> bool {
    match one {
        Expected::Word { word, there } => word.as_bytes()[there] == byte,
        Expected::Name => byte.is_ascii_graphic() && !b"\"&<>=,*!".contains(&byte),
        Expected::Digit => byte.is_ascii_digit(),
        Expected::WhiteSpace => b" \t\r\n".contains(&byte),
        _ => false,
    }
}

/// At the place of an error: the beginning before it, and what is expected behind that.
fn try_out(seen: &mut Seen, spelt: &Spelt, beginning: &[u8], expected: &[Expected]) {
    let shown = || String::from_utf8_lossy(beginning).into_owned();
    for &one in expected {
        *seen.entry(one).or_default() += 1;
        if let Expected::Word { word, there } = one {
            let text = [beginning, &word.as_bytes()[there..]].concat();
            assert!(beginning.ends_with(&word.as_bytes()[..there]));
            assert!(reach(spelt, &text) >= text.len(), "{}: {one}", shown());
        }
    }
    let ends = reach(spelt, beginning) > beginning.len();
    assert_eq!(expected.contains(&Expected::End), ends, "{}", shown());
    let mut text = beginning.to_vec();
    text.push(0);
    for byte in (0..=127).chain([128, 0xE9, 255]) {
        *text.last_mut().unwrap() = byte;
        let taken = reach(spelt, &text) > beginning.len();
        let told = expected.iter().any(|&one| fits(one, byte));
        assert_eq!(told, taken, "{}: byte {byte}", shown());
    }
}

/// The form's fault of a text, if it has one before any other.
fn fault(spelt: &Spelt, text: &[u8]) -> Option<(usize, Vec<Expected>)> {
    match Policy::from_xml(text, &spelt.names, &spelt.policy) {
        Err(XmlError::Form { at, expected, .. }) => Some((at.byte, expected)),
        _ => None,
    }
}

/// Damages a byte or two, or puts in something that stands elsewhere.
fn damage(chance: &mut Chance, text: &mut Vec<u8>) {
    loop {
        let at = chance.below(text.len());
        let strange = chance.pick(b"<>/=\",*! \n\"-a2\0\xE9");
        match chance.below(6) {
            0 => drop(text.remove(at)),
            1 => text.insert(at, text[at]),
            2 => text[at] = strange,
            3 => text.insert(at, strange),
            4 => text.truncate(at + 1),
            _ => {
                let from = chance.below(text.len());
                let piece = text[from..].iter().take(20).copied().collect::<Vec<_>>();
                text.splice(at..at, piece);
            }
        }
        if chance.percent(70) {
            return;
        }
    }
}

#[test]
fn in_damaged_texts() {
    let mut chance = Chance::new(51);
    let mut seen = Seen::new();
    let (mut places, mut others) = (0, 0);
    for _ in 0..3_000 {
        let spelt = Spelt::by_chance(&mut chance, 2);
        let mut text = spelt.text.clone().into_bytes();
        damage(&mut chance, &mut text);
        match fault(&spelt, &text) {
            Some((at, expected)) => {
                try_out(&mut seen, &spelt, &text[..at], &expected);
                places += 1;
            }
            None => others += 1,
        }
    }
    assert!(places > 1_500, "{places} places");
    assert!(others > 300, "{others} texts without a fault of the form");
    assert!(seen.len() > 100, "{} things expected: {seen:?}", seen.len());
}

/// Texts that are cut at every length: every word is expected from each of its bytes on.
#[test]
fn in_texts_that_stop_early() {
    let mut chance = Chance::new(52);
    let mut seen = Seen::new();
    for _ in 0..8 {
        let spelt = Spelt::by_chance(&mut chance, 2);
        for length in 0..spelt.text.len() {
            let text = &spelt.text.as_bytes()[..length];
            let (at, expected) = match fault(&spelt, text) {
                Some(fault) => fault,
                // Behind the set's end tag.
                None => (length, vec![Expected::End, Expected::WhiteSpace]),
            };
            assert_eq!(at, length);
            try_out(&mut seen, &spelt, text, &expected);
        }
    }
    let mut all = vec![
        Expected::Name,
        Expected::Digit,
        Expected::WhiteSpace,
        Expected::End,
    ];
    for word in WORDS {
        all.extend((0..word.len()).map(|there| Expected::Word { word, there }));
    }
    for one in &all {
        let times = seen.get(one).copied().unwrap_or(0);
        assert!(times > 3, "{one:?}: {times} times");
    }
    assert_eq!(seen.len(), all.len());
}
