//! Lists of names: the builder and the check refuse what the engine refuses, and nothing else.

mod independent;
mod spelt;
mod support;

use hastovimen::*;
use std::collections::BTreeMap;
use std::ops::Range;
use support::chance::Chance;

/// Whether the engine takes a list: a policy without rules is then written, whatever its names.
fn taken(image: &[u8]) -> bool {
    let policy = PolicyBuilder::new().build().unwrap();
    let mut text = [0; 31];
    match raw::write_rules(&policy, image, &mut text) {
        Ok(length) => length == 31,
        Err(refusal) => {
            assert_eq!(refusal, Refusal::Names);
            false
        }
    }
}

/// A number of any of the five kinds.
fn number(chance: &mut Chance) -> Named {
    let small = chance.from(1, 32) as u8;
    let any = chance.pick(&[1, 2, 255, 256, 65535, chance.clone().from(1, 65535) as u16]);
    match chance.below(5) {
        0 => ContextType::of(any).into(),
        1 => ContextValue::of(any).into(),
        2 => Role::of(small).into(),
        3 => Operation::of(any).into(),
        _ => Target::of(any).into(),
    }
}

/// Different names of different numbers.
fn entries(chance: &mut Chance, count: usize) -> Vec<(Named, String)> {
    let mut entries: Vec<(Named, String)> = vec![];
    for _ in 0..count {
        let (number, name) = (number(chance), spelt::name(chance));
        let repeated = |(other, same): &(Named, String)| {
            *other == number || other.kind() == number.kind() && *same == name
        };
        if !entries.iter().any(repeated) {
            entries.push((number, name));
        }
    }
    entries
}

fn build(entries: &[(Named, String)]) -> Result<NamesBuf, NamesError> {
    let add = |builder: NamesBuilder, (number, name): &(Named, String)| builder.name(*number, name);
    entries.iter().fold(NamesBuilder::new(), add).build()
}

/// What is built is laid out as the header says, is taken by the engine, and is found both ways.
#[test]
fn built_and_looked_up() {
    let mut chance = Chance::new(61);
    let mut kinds: BTreeMap<NameKind, usize> = BTreeMap::new();
    for _ in 0..300 {
        let count = chance.below(40);
        let entries = entries(&mut chance, count);
        let names = build(&entries).unwrap();
        assert!(taken(names.image()));
        assert_eq!(Names::check(names.image()), Ok(names.clone()));
        assert_eq!(
            (names.len(), names.is_empty()),
            (entries.len(), entries.is_empty())
        );
        let listed = names.iter().map(|(named, name)| (named, name.to_owned()));
        assert_eq!(listed.collect::<Vec<_>>(), entries);
        for ((number, name), entry) in entries.iter().zip(names.image().chunks(64)) {
            let kind = number.kind();
            let [low, high] = number.number().to_le_bytes();
            let mut bytes = vec![kind as u8, name.len() as u8, low, high];
            bytes.extend(name.bytes());
            bytes.resize(64, 0);
            assert_eq!(entry, bytes);
            assert_eq!(names.name_of(*number), Some(name.as_str()));
            assert_eq!(names.named(kind, name), Some(*number));
            assert_eq!(by_kind(&names, kind, name), Some(*number));
            *kinds.entry(kind).or_default() += 1;
        }
        let absent = number(&mut chance);
        let there = entries.iter().any(|(number, _)| *number == absent);
        assert_eq!(names.name_of(absent).is_some(), there);
    }
    assert!(
        kinds.len() == 5 && kinds.values().all(|&times| times > 300),
        "{kinds:?}"
    );
}

/// By the method of its own that each kind has.
fn by_kind(names: &Names, kind: NameKind, name: &str) -> Option<Named> {
    match kind {
        NameKind::ContextType => names.context_type(name).map(Named::from),
        NameKind::ContextValue => names.context_value(name).map(Named::from),
        NameKind::Role => names.role(name).map(Named::from),
        NameKind::Operation => names.operation(name).map(Named::from),
        NameKind::Target => names.target(name).map(Named::from),
    }
}

#[test]
fn names_that_cannot_be_listed() {
    let long = "a".repeat(60);
    let of = |name: &str| NamesBuilder::new().name(Role::of(1), name).build();
    for name in ["a", "~", "#", "/", "'", ";", long.as_str()] {
        assert_eq!(of(name).unwrap().role(name), Some(Role::of(1)), "{name}");
    }
    let longer = "a".repeat(61);
    let longest = "a".repeat(300);
    for name in ["", " ", "a b", "a\n", "é", "\u{7F}", &longer, &longest] {
        assert_eq!(of(name), Err(NamesError::Name(name.to_owned())));
    }
    for sign in "\"&<>=,*!".chars() {
        let name = format!("a{sign}");
        assert_eq!(of(&name), Err(NamesError::Name(name)));
    }
}

#[test]
fn lists_that_cannot_be_built() {
    let many = |count: u16| {
        let targets = (1..=count).map(|number| (Target::of(number).into(), format!("t{number}")));
        build(&targets.collect::<Vec<_>>())
    };
    let most = many(1024).unwrap();
    assert_eq!(most.len(), MOST_NAMES);
    assert!(taken(most.image()));
    assert_eq!(many(1025), Err(NamesError::TooMany(1025)));

    let [one, two] = [1, 2].map(|number| Named::from(Role::of(number)));
    let operation = Named::from(Operation::of(1));
    let pair = |first: (Named, &str), second: (Named, &str)| {
        build(&[first, second].map(|(number, name)| (number, name.to_owned())))
    };
    let kind = NameKind::Role;
    let name = "a".to_owned();
    let twice = Err(NamesError::NameTwice { kind, name });
    assert_eq!(pair((one, "a"), (two, "a")), twice);
    assert_eq!(pair((one, "a"), (one, "a")), twice);
    assert_eq!(
        pair((one, "a"), (one, "b")),
        Err(NamesError::NumberTwice(one))
    );
    assert!(pair((one, "a"), (operation, "a")).is_ok());
    assert!(pair((one, "a"), (two, "A")).is_ok());
}

/// A role above 32 may be listed. No policy has it, so it is found as a bare number alone.
#[test]
fn roles_that_no_policy_has() {
    let names = NamesBuilder::new()
        .name(Role::of(32), "last")
        .build()
        .unwrap();
    let mut image = names.image().to_vec();
    for number in [33, 256, 257, 65535u16] {
        image[2..4].copy_from_slice(&number.to_le_bytes());
        assert!(taken(&image));
        let names = Names::check(&image).unwrap();
        assert_eq!(names.role("last"), None);
        let listed = names.named(NameKind::Role, "last").unwrap();
        assert_eq!(
            (listed.number(), listed.to_string()),
            (number, format!("role {number}"))
        );
        assert_eq!(names.name_of(listed), Some("last"));
    }
}

/// Damages a list: a byte, its length, or fields of an entry that are put where another's stand.
fn damage(chance: &mut Chance, image: &mut Vec<u8>) {
    let entry = 64 * chance.below(image.len() / 64);
    let other = 64 * chance.below(image.len() / 64);
    let (kind, length, number, name) = (0..1, 1..2, 2..4, 4..64);
    let mut copy = |field: &Range<usize>| {
        image.copy_within(other + field.start..other + field.end, entry + field.start);
    };
    match chance.below(9) {
        0 => image.truncate(chance.below(image.len())),
        1 => [kind, length, name].iter().for_each(copy),
        2 => [length, name].iter().for_each(copy),
        3 => [kind, number].iter().for_each(copy),
        4 => copy(&number),
        5 => image[entry + 1] = chance.pick(&[0, 1, 59, 60, 61, 64, 255]),
        6 => image[entry] = chance.below(8) as u8,
        7 => image[entry + chance.below(64)] = chance.pick(b"\0\"&<>=,*! ~\x7F\xE9az"),
        _ => image[entry + 2 + chance.below(2)] = chance.below(3) as u8,
    }
}

#[test]
fn damaged() {
    let mut chance = Chance::new(62);
    let mut seen = [0; 5];
    for _ in 0..20_000 {
        let count = chance.from(1, 12);
        let names = build(&entries(&mut chance, count)).unwrap();
        let mut image = names.image().to_vec();
        damage(&mut chance, &mut image);
        let checked = Names::check(&image);
        assert_eq!(checked.is_ok(), taken(&image), "{checked:?}: {image:?}");
        assert_eq!(
            Names::own(image.clone()),
            checked.clone().map(Names::into_owned)
        );
        seen[match checked {
            Ok(_) => 0,
            Err(NamesError::Length(_)) => 1,
            Err(NamesError::Entry(_)) => 2,
            Err(NamesError::NameTwice { .. }) => 3,
            Err(NamesError::NumberTwice(_)) => 4,
            Err(other) => panic!("{other}"),
        }] += 1;
    }
    assert!(seen.iter().all(|&times| times > 300), "{seen:?}");
}

#[test]
fn lengths() {
    for length in [1, 63, 65, 127, 64 * 1025] {
        let image = vec![0; length];
        assert_eq!(Names::check(&image), Err(NamesError::Length(length)));
        assert!(!taken(&image));
    }
    assert!(Names::check(&[]).unwrap().is_empty());
    assert!(taken(&[]));
    assert_eq!(Names::check(&[0; 64]), Err(NamesError::Entry(1)));
}

#[test]
fn words() {
    let kind = NameKind::ContextType;
    let name = "a".to_owned();
    for (error, words) in [
        (
            NamesError::Length(65),
            "a list of 65 bytes: 0 to 1024 entries of 64 bytes are asked",
        ),
        (
            NamesError::TooMany(1025),
            "1025 names: at most 1024 are allowed",
        ),
        (
            NamesError::Entry(3),
            "entry 3: kind, length, number, name or a byte behind it is wrong",
        ),
        (
            NamesError::NameTwice { kind, name },
            "the name `a` stands for more than one context type",
        ),
        (
            NamesError::NumberTwice(Role::of(3).into()),
            "role 3 has more than one name",
        ),
    ] {
        assert_eq!(error.to_string(), words);
        assert_eq!(format!("{error:>90}"), format!("{words:>90}"));
    }
    let names = NamesBuilder::new()
        .name(Role::of(3), "clerk")
        .build()
        .unwrap();
    assert_eq!(format!("{names:?}"), "{\"role 3\": \"clerk\"}");
}
