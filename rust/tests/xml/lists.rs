//! 42 of the list of names itself, in reading and in writing.

use super::given::*;
use super::*;

/// What a list gives, which must be the same for reading and for writing, whatever text or room.
fn list_is(texts: &mut Texts, list: &[u8], good: bool) {
    let text = in_set("");
    let second = write_policy(&second());
    let empty = write_policy(&Policy {
        rules: vec![],
        ..given::second()
    });
    let read = texts.read(text.as_bytes(), list, &second, ROOM).err();
    let written = texts.write(&empty, list, ROOM).err();
    let expected = (!good).then_some(refuse(42, 0));
    assert_eq!((read, written), (expected, expected));
    // It comes before the text, and before all that a policy's rules may lack.
    if !good {
        for (text, room) in [("", ROOM), ("x", 0)] {
            let read = texts.read(text.as_bytes(), list, &second, room).err();
            let written = texts.write(&second, list, room).err();
            assert_eq!((read, written), (expected, expected));
        }
    }
}

/// The common list with one entry changed.
fn with(at: usize, change: impl Fn(&mut [u8])) -> Vec<u8> {
    let mut list = names();
    change(&mut list[ENTRY * at..][..ENTRY]);
    list
}

#[test]
fn lengths_of_lists() {
    let texts = &mut Texts::new();
    let numbered = |count: usize| {
        let entry = |i: usize| {
            entry(
                1 + (i % 5) as u8,
                1 + (i / 5) as u16,
                &format!("n{}", i / 5),
            )
        };
        write_names(&(0..count).map(entry).collect::<Vec<_>>())
    };
    for count in [0, 1, 2, 1_023, 1_024] {
        list_is(texts, &numbered(count), true);
    }
    for count in [1_025, 1_026] {
        list_is(texts, &numbered(count), false);
    }
    let list = numbered(3);
    for length in (0..list.len()).filter(|length| length % ENTRY != 0) {
        list_is(texts, &list[..length], false);
    }
    let mut longest = numbered(1_024);
    longest.push(0);
    list_is(texts, &longest, false);
}

/// Every field of an entry, at the front of the list, within it, and at its end.
#[test]
fn entries_of_lists() {
    let texts = &mut Texts::new();
    list_is(texts, &names(), true);
    let count = names().len() / ENTRY;
    for at in [0, 7, count - 1] {
        for kind in [0, 6, 7, 128, 255] {
            list_is(texts, &with(at, |entry| entry[0] = kind), false);
        }
        for length in [0, 61, 64, 128, 255] {
            list_is(texts, &with(at, |entry| entry[1] = length), false);
        }
        // A length that is not the name's: a byte behind it is not zero, or one in it is.
        list_is(texts, &with(at, |entry| entry[1] -= 1), false);
        list_is(texts, &with(at, |entry| entry[1] += 1), false);
        list_is(texts, &with(at, |entry| entry[2..4].fill(0)), false);
        list_is(
            texts,
            &with(at, |entry| entry[2..4].copy_from_slice(&[0, 77])),
            true,
        );
        list_is(
            texts,
            &with(at, |entry| entry[2..4].copy_from_slice(&[77, 0])),
            true,
        );
        list_is(texts, &with(at, |entry| entry.fill(0)), false);
        let length = names()[ENTRY * at + 1] as usize;
        for behind in 4 + length..ENTRY {
            for byte in [b'a', 1, 255] {
                list_is(texts, &with(at, |entry| entry[behind] = byte), false);
            }
        }
    }
}

/// Every byte as the first, the second and the third byte of a name; names of 1 and of 60 bytes.
#[test]
fn bytes_of_listed_names() {
    let texts = &mut Texts::new();
    let mut good = 0;
    for byte in 0..=255u8 {
        let of_name = (33..=126).contains(&byte) && !b"\"&<>=,*!".contains(&byte);
        for at in [4, 5, 6] {
            list_is(texts, &with(9, |entry| entry[at] = byte), of_name);
        }
        for length in [1, 60] {
            let mut list = write_names(&[entry(ROLE, 5, "x")]);
            list[1] = length;
            list[4..4 + length as usize].fill(byte);
            list_is(texts, &list, of_name);
        }
        good += usize::from(of_name);
    }
    assert_eq!(good, 86);
}

/// "Within a kind no name or number is repeated": two entries alone, and with others between them.
#[test]
fn repeats() {
    let texts = &mut Texts::new();
    let mut tried = 0;
    for (one, other) in (0..25).map(|i| (1 + i / 5, 1 + i % 5)) {
        for (number, name) in [(7, "b"), (8, "a"), (7, "a")] {
            let (first, last) = (entry(one, 7, "a"), entry(other, number, name));
            let others = (1..=5).map(|kind| entry(kind, 9, "c"));
            let pair = [first.clone(), last.clone()];
            let spread: Vec<Entry> = [first].into_iter().chain(others).chain([last]).collect();
            list_is(texts, &write_names(&pair), one != other);
            list_is(texts, &write_names(&spread), one != other);
            tried += 1;
        }
    }
    assert_eq!(tried, 75);
}

/// Names of which one begins the other, numbers that have a byte in common; the first and the last of
/// 1,024.
#[test]
fn what_is_no_repeat() {
    let texts = &mut Texts::new();
    for (one, other) in [
        (("a", 1), ("aa", 256)),
        (("a", 256), ("b", 512)),
        (("A", 257), ("a", 513)),
    ] {
        let list = [entry(4, one.1, one.0), entry(4, other.1, other.0)];
        list_is(texts, &write_names(&list), true);
    }
    let entry_of = |i: usize| entry(2, 1 + i as u16, &format!("n{i}"));
    let mut list: Vec<Entry> = (0..1_024).map(entry_of).collect();
    list_is(texts, &write_names(&list), true);
    list[1_023].number = 1;
    list_is(texts, &write_names(&list), false);
    list[1_023].number = 1_024;
    list[1_023].name = b"n0".to_vec();
    list_is(texts, &write_names(&list), false);
}

/// Names of one byte and of sixty, and the list's last entry, are found.
#[test]
fn longest_names() {
    let texts = &mut Texts::new();
    let (sixty, other) = ("n".repeat(60), format!("{}m", "n".repeat(59)));
    let list = write_names(&[
        entry(ROLE, 3, "~"),
        entry(ROLE, 4, &other),
        entry(ROLE, 5, &sixty),
        entry(ROLE, 6, &sixty[1..]),
    ]);
    let text = in_set(&in_rule(
        "",
        &mmer("4", &["~", &other, &sixty, &sixty[1..]]),
    ));
    let second = write_policy(&second());
    let given = texts.read(text.as_bytes(), &list, &second, ROOM).unwrap();
    assert!(given == image(&[rule(&[], &[roles(4, &[3, 4, 5, 6])])]));
    assert_eq!(texts.write(&given, &list, ROOM), Ok(text.into_bytes()));
}
