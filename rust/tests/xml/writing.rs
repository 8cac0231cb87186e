//! Writing: the one fixed spelling, and what cannot be written.

use super::given::*;
use super::*;

/// "type="role", attributes in section 3's order with one space before each, no other white space, m as
/// one digit."
#[test]
fn the_fixed_spelling() {
    let texts = &mut Texts::new();
    let text = concat!(
        r#"<MSoDPolicySet>"#,
        r#"<MSoDPolicy BusinessContext="Branch=*,Period=!,Desk=York">"#,
        r#"<FirstStep operation="prepare" targetURI="check"/>"#,
        r#"<LastStep operation="commit" targetURI="http://audit.location.com/audit"/>"#,
        r#"<MMER ForbiddenCardinality="2">"#,
        r#"<Role type="role" value="Teller"/><Role type="role" value="Auditor"/></MMER>"#,
        r#"<MMEP ForbiddenCardinality="2">"#,
        r#"<Operation value="prepare" target="till"/><Operation value="prepare" target="till"/></MMEP>"#,
        r#"</MSoDPolicy>"#,
        r#"<MSoDPolicy BusinessContext=""><MMER ForbiddenCardinality="2">"#,
        r#"<Role type="role" value="Clerk"/><Role type="role" value="both"/></MMER></MSoDPolicy>"#,
        r#"</MSoDPolicySet>"#,
    );
    let policy = image(&spaced_rules());
    assert_eq!(texts.write(&policy, &names(), ROOM), Ok(text.into()));
    assert_eq!(
        texts.read(text.as_bytes(), &names(), &policy, policy.len()),
        Ok(policy.clone())
    );
    // Whatever the permission blocks, and without any.
    let bare = write_policy(&Policy {
        rules: spaced_rules(),
        permissions: vec![],
    });
    assert_eq!(texts.write(&bare, &names(), text.len()), Ok(text.into()));
    assert_eq!(
        texts.write(&image(&[]), &[], 31),
        Ok(b"<MSoDPolicySet></MSoDPolicySet>".to_vec())
    );
}

#[test]
fn room_for_the_text() {
    let texts = &mut Texts::new();
    for rules in [&[][..], &spaced_rules()] {
        let policy = image(rules);
        let text = texts.write(&policy, &names(), ROOM).unwrap();
        for room in [0, 1, text.len() / 2, text.len() - 1] {
            assert_eq!(texts.write(&policy, &names(), room), Err(refuse(43, 0)));
        }
        for room in [text.len(), text.len() + 1, ROOM] {
            assert_eq!(texts.write(&policy, &names(), room), Ok(text.clone()));
        }
    }
}

/// The numbers of [`spaced_rules`].
#[rustfmt::skip]
const NEEDED: [(u8, u16); 13] = [
    (TYPE, 1), (TYPE, 2), (TYPE, 3), (VALUE, 1), (ROLE, 1), (ROLE, 2), (ROLE, 32), (ROLE, 8),
    (OPERATION, 1), (OPERATION, 65535), (TARGET, 1), (TARGET, 2), (TARGET, 65535),
];

/// Each number of the rules, unlisted in turn; an entry that nothing needs may go.
#[test]
fn numbers_that_are_not_listed() {
    let texts = &mut Texts::new();
    let policy = image(&spaced_rules());
    let text = texts.write(&policy, &names(), ROOM).unwrap();
    let mut missing = 0;
    for at in 0..entries().len() {
        let mut entries = entries();
        let gone = entries.remove(at);
        let list = write_names(&entries);
        if !NEEDED.contains(&(gone.kind, gone.number)) {
            assert_eq!(texts.write(&policy, &list, ROOM), Ok(text.clone()));
            continue;
        }
        missing += 1;
        // Before the output's length too.
        for room in [ROOM, 0] {
            let given = texts.write(&policy, &list, room);
            assert_eq!(given, Err(refuse(42, 0)), "{gone:?}");
        }
        // Its number under another kind, and its name with another number, do not help.
        let kind = gone.kind % 5 + 1;
        entries.retain(|one| (one.kind, one.number) != (kind, gone.number));
        entries.push(entry(kind, gone.number, "elsewhere"));
        entries.push(Entry {
            number: 999,
            ..gone
        });
        let given = texts.write(&policy, &write_names(&entries), ROOM);
        assert_eq!(given, Err(refuse(42, 0)));
    }
    assert_eq!(missing, NEEDED.len());
}

/// Whatever the room, writing these rules gives this number.
fn writing_gives(texts: &mut Texts, number: usize, rules: &[Rule]) {
    for room in [ROOM, 0] {
        let given = texts.write(&image(rules), &names(), room);
        assert_eq!(given, Err(refuse(number, 0)), "{rules:?}");
    }
}

const RANGE: Level = Level {
    kind: 1,
    mark: Mark::Range(100, 199),
};
const BRANCH: Level = Level {
    kind: 1,
    mark: Mark::Every,
};
const UNKNOWN: Level = Level {
    kind: 99,
    mark: Mark::Each,
};

/// A rule over these levels whose other numbers are listed.
fn over(levels: &[Level]) -> Rule {
    rule(levels, &[roles(2, &[1, 2])])
}

/// "43 for what .. is a range", after the names of its rule; its type is looked up, its values are not.
#[test]
fn ranges() {
    let texts = &mut Texts::new();
    let one = level(1, Mark::Range(1, 1));
    let fourth = [BRANCH, BRANCH, BRANCH, RANGE];
    for levels in [&[RANGE][..], &[one], &[RANGE, RANGE], &fourth] {
        writing_gives(texts, 43, &[over(levels)]);
    }
    let of_no_type = level(99, Mark::Range(1, 2));
    let unknown_value = level(1, Mark::Fixed(100));
    for levels in [
        &[of_no_type][..],
        &[RANGE, UNKNOWN],
        &[UNKNOWN, RANGE],
        &[RANGE, unknown_value],
    ] {
        writing_gives(texts, 42, &[over(levels)]);
    }
    let steps = [Some(privilege(77, 1)), Some(privilege(1, 77))];
    for step in steps {
        for (first, last) in [(step, None), (None, step)] {
            let rule = over(&[RANGE]);
            writing_gives(
                texts,
                42,
                &[Rule {
                    first,
                    last,
                    ..rule
                }],
            );
        }
    }
    writing_gives(texts, 42, &[rule(&[RANGE], &[roles(2, &[1, 31])])]);
}

/// Rule by rule.
#[test]
fn the_first_rule_that_cannot_be_written() {
    let texts = &mut Texts::new();
    let (good, range, unknown) = (over(&[BRANCH]), over(&[RANGE]), over(&[UNKNOWN]));
    let unknown_role = rule(&[], &[roles(2, &[1, 31])]);
    for (number, rules) in [
        (43, vec![&range, &unknown]),
        (42, vec![&unknown, &range]),
        (43, vec![&good, &range, &unknown_role]),
        (42, vec![&good, &unknown_role, &range]),
    ] {
        let rules: Vec<Rule> = rules.into_iter().cloned().collect();
        writing_gives(texts, number, &rules);
    }
}

/// 1 to 6 with their places before 42 of the list.
#[test]
fn the_policy_comes_first() {
    let texts = &mut Texts::new();
    let good = image(&spaced_rules());
    let sealed = |at: usize, byte| {
        let mut image = good.clone();
        image[at] = byte;
        reseal(&mut image);
        image
    };
    let mut unsealed = good.clone();
    unsealed[BLOCK * 3 + 5] ^= 1;
    for (policy, number, first, second) in [
        (vec![], 1, 0, 0),
        (unsealed, 2, 3, 0),
        (sealed(BLOCK + 4, 7), 3, 1, 0),
        (sealed(BLOCK * 3, 1), 3, 3, 0),
        (sealed(10, 2), 4, 0, 0),
        (sealed(BLOCK + 57, 1), 5, 1, 1),
        (sealed(BLOCK * 3 + 8, 62), 6, 3, 0),
    ] {
        for list in [names(), vec![1]] {
            let expected = independent::Reply::refuse(number, first, second);
            assert_eq!(texts.write(&policy, &list, ROOM), Err(expected));
        }
    }
}
