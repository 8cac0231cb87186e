//! What is tested where the set ends, what comes before the text, and the image that is read.

use super::given::*;
use super::limits::gives_at;
use super::*;
use independent::Reply;

/// The rule that `with_good("")` says.
fn good_rule() -> Rule {
    rule(&[level(1, Mark::Every)], &[roles(2, &[1, 2])])
}

#[test]
fn rules() {
    let texts = &mut Texts::new();
    let one = with_good("");
    reads(texts, &in_set(&one.repeat(32)), &vec![good_rule(); 32]);
    for rules in [33, 34, 64, 65, 256, 257, 300] {
        gives_at(texts, &format!("{}§", in_set(&one.repeat(rules))), 43);
    }
}

/// 64 blocks in all; the rules of the second image count for nothing.
#[test]
fn blocks() {
    let texts = &mut Texts::new();
    for (rules, permissions, passes) in [
        (0, 64, true),
        (1, 63, true),
        (1, 64, false),
        (32, 32, true),
        (32, 33, false),
        (2, 64, false),
    ] {
        let second = blank_policy(0, permissions);
        let text = in_set(&with_good("").repeat(rules));
        let image = write_policy(&Policy {
            rules: vec![good_rule(); rules],
            ..read_policy(&second).unwrap()
        });
        let expected = if passes {
            Ok(image)
        } else {
            Err(refuse(43, 0))
        };
        assert!(texts.read(text.as_bytes(), &names(), &second, ROOM) == expected);
    }
    let second = blank_policy(32, 32);
    let text = in_set(&with_good("").repeat(32));
    let given = texts.read(text.as_bytes(), &names(), &second, ROOM);
    assert_eq!(given.map(|image| image.len()), Ok(64 * BLOCK));
}

/// A policy of so many rules and permission blocks.
fn blank_policy(rules: usize, permissions: usize) -> Vec<u8> {
    write_policy(&Policy {
        rules: vec![spaced_rules()[1].clone(); rules],
        permissions: vec![vec![]; permissions],
    })
}

/// "leaves no block": no rule, and a second image without permission blocks.
#[test]
fn no_rule_at_all() {
    let texts = &mut Texts::new();
    for set in [
        in_set(""),
        in_set("\n"),
        " <MSoDPolicySet > </MSoDPolicySet\t> ".into(),
    ] {
        reads(texts, &set, &[]);
        let rules_alone = blank_policy(3, 0);
        let given = texts.read(set.as_bytes(), &names(), &rules_alone, ROOM);
        assert_eq!(given, Err(refuse(43, 0)));
        for bad in [format!("{set}x"), set.trim_end().to_string()] {
            let given = texts.read(bad.as_bytes(), &names(), &rules_alone, ROOM);
            assert_eq!(given, Err(refuse(43, 0)));
        }
        let given = texts.read(set.as_bytes(), &[], &blank_policy(3, 1), ROOM);
        assert!(
            given == Ok(blank_policy(0, 1)),
            "no list of names is needed"
        );
        // The rules of a text alone.
        let text = in_set(&with_good(""));
        let given = texts.read(text.as_bytes(), &names(), &rules_alone, BLOCK);
        assert_eq!(given.map(|image| image.len()), Ok(BLOCK));
    }
}

/// The output: none, a byte too short, just enough, longer.
#[test]
fn room_for_the_image() {
    let texts = &mut Texts::new();
    let (list, second) = (names(), write_policy(&second()));
    let text = spaced("", " ");
    let expected = image(&spaced_rules());
    for room in [0, 1, 511, 512, 2047] {
        let given = texts.read(text.as_bytes(), &list, &second, room);
        assert_eq!(given, Err(refuse(43, 0)), "{room}");
    }
    for room in [2048, 2049, 2560, 5000] {
        let given = texts.read(text.as_bytes(), &list, &second, room);
        assert!(given == Ok(expected.clone()), "{room}");
    }
}

/// It is tested where the set ends: what stands behind the set comes later, all else before.
#[test]
fn room_and_other_faults() {
    let texts = &mut Texts::new();
    let (list, second) = (names(), write_policy(&second()));
    let text = spaced("", " ");
    let behind = format!("{text} x");
    let stops = text.strip_suffix('>').unwrap();
    let unknown = text.replace("York", "unknown");
    let limit = text.replacen("\"2\"", "\"3\"", 1);
    for (text, short, long) in [
        (&behind[..], refuse(43, 0), refuse(41, behind.len() - 1)),
        (stops, refuse(41, stops.len()), refuse(41, stops.len())),
        (&unknown, refuse(42, 0), refuse(42, 0)),
        (&limit, refuse(43, 0), refuse(43, 0)),
    ] {
        for (room, expected) in [(0, short), (2047, short), (2048, long), (5000, long)] {
            let given = texts.read(text.as_bytes(), &list, &second, room);
            assert_eq!(given, Err(expected), "{room} {text}");
        }
    }
}

/// Images that are no policies, with the refusal of each.
fn bad_images() -> [(Vec<u8>, Reply); 9] {
    let good = write_policy(&second());
    let sealed = |at: usize, byte| {
        let mut image = good.clone();
        image[at] = byte;
        reseal(&mut image);
        image
    };
    let mut unsealed = good.clone();
    unsealed[700] ^= 1;
    [
        (vec![], Reply::refuse(1, 0, 0)),
        (good[1..].to_vec(), Reply::refuse(1, 0, 0)),
        (vec![0; BLOCK * 65], Reply::refuse(1, 0, 0)),
        (unsealed, Reply::refuse(2, 1, 0)),
        (sealed(BLOCK * 2 + 4, 9), Reply::refuse(3, 2, 0)),
        (sealed(BLOCK + 8, 5), Reply::refuse(4, 1, 0)),
        (sealed(BLOCK + 56 + 36, 1), Reply::refuse(5, 1, 2)),
        (sealed(BLOCK * 2 + 16, 33), Reply::refuse(6, 2, 1)),
        (sealed(BLOCK * 3 + 400, 1), Reply::refuse(6, 3, 0)),
    ]
}

/// 1 to 6 with their places before 42 of the list, and that before the text.
#[test]
fn the_second_image_comes_first() {
    let texts = &mut Texts::new();
    let (list, second) = (names(), write_policy(&second()));
    let text = spaced("", " ");
    for (text, room) in [(&text[..], ROOM), (&text, 0), ("", ROOM), ("x", 0)] {
        for (image, expected) in bad_images() {
            for list in [&list[..], &[1]] {
                let given = texts.read(text.as_bytes(), list, &image, room);
                assert_eq!(given, Err(expected));
            }
        }
        let given = texts.read(text.as_bytes(), &list[1..], &second, room);
        assert_eq!(given, Err(refuse(42, 0)));
    }
}

/// The permission blocks follow the rules with numbers, total and check of their own, and all else as it
/// was; nothing is left of the second image's rules.
#[test]
fn blocks_numbered_anew() {
    let texts = &mut Texts::new();
    let second = write_policy(&second());
    let text = in_set(&with_good("").repeat(5));
    let given = texts
        .read(text.as_bytes(), &names(), &second, ROOM)
        .unwrap();
    assert_eq!(given.len(), 7 * BLOCK);
    for (number, block) in given.chunks(BLOCK).enumerate() {
        assert_eq!(block[..4], [if number < 5 { 1 } else { 3 }, 0, 0, 0]);
        assert_eq!(block[4..8], [number as u8, 0, 7, 0]);
        assert_eq!(block[504..], sums_bytes(sums(&block[..504])));
        if number >= 5 {
            let old = &second[BLOCK * (number - 3)..][..BLOCK];
            assert_eq!(block[8..504], old[8..504]);
        }
    }
    assert!(read_policy(&given).is_ok());
}
