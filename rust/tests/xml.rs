//! Policies as text, read and written: document 02, W5. The engine against both independent readers.
//!
//! In a debug build the tests by chance are a tenth as long. They go by fixed seeds and by numbers of
//! calls, and each fails if what it is there for did not come up often.
//!
//! The long run, of some ten million texts:
//!
//!     cargo test --release --offline --test xml -- --ignored --nocapture long
//!
//! SOD_SEED=n begins it elsewhere; SOD_TIMES=n makes it n times as long.

#[path = "xml/form.rs"]
mod form;
#[path = "xml/given.rs"]
mod given;
mod independent;
#[path = "xml/largest.rs"]
mod largest;
#[path = "xml/limits.rs"]
mod limits;
#[path = "xml/lists.rs"]
mod lists;
#[path = "xml/section_3.rs"]
mod section_3;
mod support;
#[path = "xml/whole.rs"]
mod whole;
#[path = "xml/writing.rs"]
mod writing;

use independent::images::*;
use independent::xml::*;
use independent::Reply;
use support::chance::Chance;
use support::damage::damage;
use support::named::{damage_list, Listed};
use support::runs::{full, number_from, Where};
use support::spelled::*;
use support::texts::*;
use support::world::World;

const SEED: u64 = 2_026;

/// Runs `one` on one seed after another until so many calls were made.
fn until(
    texts: &mut Texts,
    part: &str,
    seed: u64,
    calls: usize,
    one: impl Fn(&mut Texts, &mut Chance),
) {
    let mut seed = seed << 32;
    while texts.seen.readings + texts.seen.writings < calls {
        let _where = Where(format!("{part}, seed {seed}"));
        one(texts, &mut Chance::new(seed));
        seed += 1;
    }
}

// ---------------------------------------------------------------------------------------------
// Texts by chance, damaged

/// One to three kinds of damage at a time, so that the order of the numbers shows.
fn damaged_text(texts: &mut Texts, chance: &mut Chance) {
    let (rules, second) = (some_rules(chance), write_policy(&some_second(chance)));
    let style = Style::by_chance(chance);
    for _ in 0..40 {
        let (mut rules, mut second) = (rules.clone(), second.clone());
        if chance.percent(15) {
            break_limit(chance, &mut rules);
        }
        let mut names = Listed::of(chance, &rules);
        let mut set = set(chance, &rules, &names, style);
        while chance.percent(35) {
            let what = damage_elements(chance, &mut set);
            texts.seen.note(READ, what);
        }
        let mut text = set.text(chance, style);
        if chance.percent(40) {
            damage_bytes(chance, &mut text);
        }
        while chance.percent(15) {
            names.unlist(chance);
        }
        let mut list = names.image();
        if chance.percent(5) {
            damage_list(chance, &mut list);
        }
        if chance.percent(4) {
            damage(chance, &mut second);
        }
        let room = some_room(chance, BLOCK * rules.rules.len() + second.len());
        texts.read(&text, &list, &second, room).ok();
    }
}

/// An output that mostly suffices where so many bytes are the most that are written.
fn some_room(chance: &mut Chance, most: usize) -> usize {
    match chance.below(10) {
        0 => chance.below(most + 1),
        1 => most.saturating_sub(BLOCK),
        2 => most.saturating_sub(1),
        3 | 4 => most + chance.below(2_000),
        _ => most,
    }
}

/// So many times what is rare, and what is not rare some times as often.
fn must_have_seen_in_damaged_texts(seen: &Seen, times: usize) {
    seen.must(READ, &[ACCEPTED, BAD_BYTE, STOPS_EARLY], 50 * times);
    seen.must(READ, &DAMAGES, 10 * times);
    seen.must(READ, &UNLISTED, 5 * times);
    seen.must(READ, &LIST_FAULTS, 2 * times);
    seen.must(READ, &BREAKS, 2 * times);
    seen.must(READ, &ORDER, 2 * times);
    seen.must(READ, &IMAGE_FAULTS, times);
}

#[test]
fn damaged_texts() {
    let mut texts = Texts::new();
    until(
        &mut texts,
        "damaged texts",
        SEED,
        full(300_000),
        damaged_text,
    );
    println!("{}", texts.seen);
    must_have_seen_in_damaged_texts(&texts.seen, full(100));
}

/// Each byte deleted, doubled and changed, and the text cut before it. Some texts name what is not
/// listed or break a limit, so that damage stands before that and behind it.
fn every_byte(texts: &mut Texts, chance: &mut Chance) {
    let mut rules = some_rules(chance);
    if chance.percent(20) {
        break_limit(chance, &mut rules);
    }
    // Short texts with much white space, so that there are many of them and every state is met.
    rules.rules.truncate(chance.pick(&[1, 1, 2]));
    let mut names = Listed::of(chance, &rules);
    let style = Style {
        white: chance.pick(&[0, 20, 60, 60]),
    };
    let text = set(chance, &rules, &names, style).text(chance, style);
    if chance.percent(20) {
        names.unlist(chance);
    }
    let second = write_policy(&some_second(chance));
    let room = BLOCK * rules.rules.len() + second.len();
    every_byte_of(texts, chance, &text, (&names.image(), &second, room));
}

fn every_byte_of(
    texts: &mut Texts,
    chance: &mut Chance,
    text: &[u8],
    (list, second, room): (&[u8], &[u8], usize),
) {
    let mut read = |text: &[u8]| drop(texts.read(text, list, second, room));
    for at in 0..text.len() {
        let (before, behind) = text.split_at(at);
        read(&[before, &behind[1..]].concat());
        read(&[before, &behind[..1], behind].concat());
        for _ in 0..2 {
            let other = telling_byte(chance, text[at]);
            read(&[before, &[other], &behind[1..]].concat());
        }
        read(before);
    }
    read(text);
}

fn must_have_seen_in_every_byte(seen: &Seen, times: usize) {
    seen.must_41_everywhere(times);
    seen.must(READ, &[ACCEPTED, BAD_BYTE, STOPS_EARLY], 2_000 * times);
    seen.must(READ, &UNLISTED, 100 * times);
}

#[test]
fn every_byte_of_texts() {
    let mut texts = Texts::new();
    let mut chance = Chance::new(SEED);
    let second = write_policy(&given::second());
    for text in [given::SPACED, given::TURNED] {
        let text = text.replace(['_', '~'], " \n");
        let lent = (&given::names()[..], &second[..], given::ROOM);
        every_byte_of(&mut texts, &mut chance, text.as_bytes(), lent);
    }
    until(&mut texts, "every byte", SEED, full(700_000), every_byte);
    println!("{}", texts.seen);
    must_have_seen_in_every_byte(&texts.seen, full(10));
}

// ---------------------------------------------------------------------------------------------
// Read, written, and read again

/// A policy by chance, mostly of few rules.
fn some_policy(chance: &mut Chance) -> Policy {
    let mut policy = match chance.percent(30) {
        true => World::small(chance).policy,
        false => some_rules(chance),
    };
    policy.permissions = some_second(chance).permissions;
    policy.permissions.truncate(64 - policy.rules.len());
    if policy.rules.is_empty() && policy.permissions.is_empty() {
        policy.permissions.push(vec![]);
    }
    policy
}

// What is taken down of round trips.
const OF_32_RULES: &str = "a round trip of 32 rules";
const OF_NO_RULES: &str = "a round trip of no rule";

/// A policy written and read with itself as the second image is the same. The text.
fn written_and_read(texts: &mut Texts, policy: &Policy, list: &[u8]) -> Vec<u8> {
    let image = write_policy(policy);
    let text = texts.write(&image, list, LONGEST_TEXT).unwrap();
    let again = texts.read(&text, list, &image, image.len());
    assert!(again == Ok(image), "a policy written and read is another");
    text
}

/// A text in any spelling reads as its policy, which written and read again is the same, and the text is
/// the one that its rules have.
fn round_trip(texts: &mut Texts, chance: &mut Chance) {
    let mut policy = some_policy(chance);
    if chance.percent(5) && !policy.rules.is_empty() {
        policy.rules = policy.rules.iter().cycle().take(32).cloned().collect();
        policy.permissions.truncate(32);
    }
    let names = Listed::of(chance, &policy);
    let list = names.image();
    let text = written_and_read(texts, &policy, &list);

    let second = some_second(chance);
    let read_as = Policy {
        rules: policy.rules.clone(),
        permissions: second.permissions.clone(),
    };
    let blocks = read_as.rules.len() + read_as.permissions.len();
    if !(1..=64).contains(&blocks) {
        return;
    }
    let style = Style::by_chance(chance);
    let spelled = set(chance, &policy, &names, style).text(chance, style);
    let read = texts.read(&spelled, &list, &write_policy(&second), BLOCK * blocks);
    assert!(read == Ok(write_policy(&read_as)), "a text says otherwise");
    let again = written_and_read(texts, &read_as, &list);
    assert!(again == text, "the spelling is not fixed");
    match policy.rules.len() {
        0 => texts.seen.note(READ, OF_NO_RULES),
        32 => texts.seen.note(READ, OF_32_RULES),
        _ => {}
    }
}

fn must_have_seen_in_round_trips(seen: &Seen, times: usize) {
    seen.must(READ, &[ACCEPTED], 75 * times);
    seen.must(WRITE, &[ACCEPTED], 50 * times);
    seen.must(READ, &[OF_NO_RULES, OF_32_RULES], times);
}

#[test]
fn round_trips() {
    let mut texts = Texts::new();
    until(&mut texts, "round trips", SEED, full(60_000), round_trip);
    println!("{}", texts.seen);
    must_have_seen_in_round_trips(&texts.seen, full(400));
}

// ---------------------------------------------------------------------------------------------
// Written by chance

// What is taken down of the order of the numbers.
const NAMES_FIRST: &str = "42 where the policy has a range";
const RANGE_FIRST: &str = "43 by a range before a 42 of a later rule";

fn is_range(level: &Level) -> bool {
    matches!(level.mark, Mark::Range(..))
}

fn damaged_writing(texts: &mut Texts, chance: &mut Chance) {
    let mut policy = some_policy(chance);
    if chance.percent(40) {
        put_ranges(chance, &mut policy);
    }
    let mut names = Listed::of(chance, &policy);
    while chance.percent(40) {
        names.unlist(chance);
    }
    let (mut list, mut image) = (names.image(), write_policy(&policy));
    if chance.percent(8) {
        damage_list(chance, &mut list);
    }
    if chance.percent(8) {
        damage(chance, &mut image);
    }
    let room = match writing(&image, &list, LONGEST_TEXT) {
        Ok(text) => some_text_room(chance, text.len()),
        Err(_) => chance.pick(&[0, 31, 10_000]),
    };
    let given = texts.write(&image, &list, room);
    if let Some(what) = order(policy, &list, given.err()) {
        texts.seen.note(WRITE, what);
    }
}

/// What a refusal of these rules says of the order of the numbers, if anything.
fn order(mut policy: Policy, list: &[u8], refusal: Option<Reply>) -> Option<&'static str> {
    let levels = || policy.rules.iter().flat_map(|rule| &rule.levels);
    let number = refusal.filter(|_| levels().any(is_range))?.number;
    if number != 43 {
        return (number == 42).then_some(NAMES_FIRST);
    }
    for level in policy.rules.iter_mut().flat_map(|rule| &mut rule.levels) {
        if is_range(level) {
            level.mark = Mark::Every;
        }
    }
    let later = writing(&write_policy(&policy), list, LONGEST_TEXT).err()?;
    (later.reply.number == 42).then_some(RANGE_FIRST)
}

/// An output for a text of this length: mostly it suffices.
fn some_text_room(chance: &mut Chance, length: usize) -> usize {
    match chance.below(8) {
        0 => length - 1,
        1 => chance.below(length),
        2 | 3 => length + chance.below(1_000),
        _ => length,
    }
}

fn must_have_seen_in_damaged_writings(seen: &Seen, times: usize) {
    seen.must(WRITE, &[ACCEPTED], 50 * times);
    seen.must(WRITE, &UNWRITTEN, 10 * times);
    seen.must(WRITE, &UNLISTED, 5 * times);
    seen.must(WRITE, &[NAMES_FIRST, RANGE_FIRST], 2 * times);
    seen.must(WRITE, &IMAGE_FAULTS, times);
    seen.must(WRITE, &LIST_FAULTS, times);
}

#[test]
fn damaged_writings() {
    let mut texts = Texts::new();
    until(
        &mut texts,
        "damaged writings",
        SEED,
        full(100_000),
        damaged_writing,
    );
    println!("{}", texts.seen);
    must_have_seen_in_damaged_writings(&texts.seen, full(100));
}

// ---------------------------------------------------------------------------------------------
// The long run

#[test]
#[ignore = "takes long; see the top of this file"]
fn long() {
    let seed = number_from("SOD_SEED", SEED + 1);
    let times = number_from("SOD_TIMES", 1) as usize;
    type Part = (&'static str, usize, fn(&mut Texts, &mut Chance));
    let parts: [Part; 4] = [
        ("damaged texts", 3_000_000, damaged_text),
        ("every byte", 7_000_000, every_byte),
        ("round trips", 600_000, round_trip),
        ("damaged writings", 1_000_000, damaged_writing),
    ];
    let (mut readings, mut writings) = (0, 0);
    for (part, enough, one) in parts {
        let mut texts = Texts::new();
        until(&mut texts, part, seed, enough * times, one);
        println!("{part}: {}", texts.seen);
        match part {
            "damaged texts" => must_have_seen_in_damaged_texts(&texts.seen, 1_000 * times),
            "every byte" => must_have_seen_in_every_byte(&texts.seen, 100 * times),
            "round trips" => must_have_seen_in_round_trips(&texts.seen, 4_000 * times),
            _ => must_have_seen_in_damaged_writings(&texts.seen, 1_000 * times),
        }
        readings += texts.seen.readings;
        writings += texts.seen.writings;
    }
    println!("{readings} readings and {writings} writings in all, from seed {seed}");
}
