//! Engine, both independent judges and the full register over lists by chance, in which requests are
//! decided, some of them previewed, contexts closed, and the policy read and written as text.
//!
//! In a debug build each part but the large lists is a tenth as long.
//!
//! At every decision and closing the engine's probe is asked too how many blocks were written.
//!
//! Each part goes by a seed and by a number of decisions, never by the clock, so that it does the
//! same everywhere; and each part fails if an answer that it is there for did not come up often.
//! Where a list fails, its shortest failing beginning is printed in words.
//!
//! The long run, of some twelve million decisions:
//!
//!     cargo test --release --offline --test random -- --ignored --nocapture long
//!
//! SOD_SEED=n begins it elsewhere; SOD_TIMES=n makes it n times as long.

mod independent;
mod support;

use independent::images::*;
use independent::judge::fits;
use independent::Reply;
use support::busy::{Busy, Pool, MET};
use support::chance::Chance;
use support::closed;
use support::compare::*;
use support::damage::{damage, move_record, restamp, telling, MOVED};
use support::lists::{shortest, Call, List, Start, BY_DOCUMENT_01};
use support::ranged;
use support::repeated::Repeated;
use support::reread;
use support::runs::{full, number_from, Where};
use support::texts::{READ, WRITE};
use support::world::{damaged_context, request_bytes, Asked, World};
use support::written;

const SEED: u64 = 2_026;

/// Runs `one` on one seed after another until so many decisions were made.
fn until(
    comparing: &mut Comparing,
    part: &str,
    seed: u64,
    decisions: usize,
    one: impl Fn(&mut Comparing, &mut Chance),
) {
    let end = comparing.seen.decisions + decisions;
    let mut seed = seed << 32;
    while comparing.seen.decisions < end {
        let _where = Where(format!("{part}, seed {seed}"));
        one(comparing, &mut Chance::new(seed));
        seed += 1;
    }
}

// ---------------------------------------------------------------------------------------------
// Lists from a fresh table, which the register goes along with

/// A list of so many requests in a world, on a table of so many blocks; of a hundred requests some
/// are `damaged`. Whether anybody has reached m is asked after every `every`-th grant.
fn list(
    chance: &mut Chance,
    world: &World,
    blocks: usize,
    length: usize,
    damaged: usize,
    every: usize,
) -> List {
    let start = Start::Fresh(noise(chance, 512 * blocks));
    let mut request = world.request(chance);
    let requests = (0..length)
        .map(|_| {
            if chance.percent(95) {
                request = world.request(chance);
            }
            request_bytes(chance, &request, damaged)
        })
        .collect();
    List {
        policy: world.image.clone(),
        start,
        calls: Call::with_previews(chance, requests),
        every,
    }
}

/// The same with closings. Every fourth list has none, so that runs are also held against document 01's
/// words.
fn with_closings_or_not(chance: &mut Chance, mut list: List) -> List {
    let of_a_hundred = chance.pick(&[0, 2, 5, 20]);
    list.calls = Call::with_closings(chance, list.calls, of_a_hundred);
    list
}

/// The same with readings and writings of its policy. Every fourth list has none.
fn with_texts_or_not(chance: &mut Chance, mut list: List) -> List {
    let of_a_hundred = chance.pick(&[0, 1, 2, 5]);
    list.calls = Call::with_texts(chance, list.calls, &list.policy, of_a_hundred);
    list
}

fn noise(chance: &mut Chance, length: usize) -> Vec<u8> {
    (0..length).map(|_| chance.next() as u8).collect()
}

/// Every second one has ranges.
fn small_world(chance: &mut Chance) -> World {
    let world = World::small(chance);
    with_ranges_or_not(chance, world)
}

fn large_world(chance: &mut Chance) -> World {
    let world = World::large(chance);
    with_ranges_or_not(chance, world)
}

fn with_ranges_or_not(chance: &mut Chance, world: World) -> World {
    if chance.percent(50) {
        world.with_ranges(chance)
    } else {
        world
    }
}

fn small_list(comparing: &mut Comparing, chance: &mut Chance) {
    let world = small_world(chance);
    let accepted = Reply::accept(world.policy.rules.len());
    assert_eq!(comparing.check_policy(&world.image), accepted);
    let (blocks, length) = (chance.from(1, 3), chance.from(0, 200));
    let list = list(chance, &world, blocks, length, 4, 1);
    let list = with_closings_or_not(chance, list);
    with_texts_or_not(chance, list).run(comparing);
}

fn large_list(comparing: &mut Comparing, chance: &mut Chance) {
    let world = World::lenient(chance);
    let mut list = list(chance, &world, 128, 4_000, 1, 100);
    // Not before the table is full.
    let later = list.calls.split_off(list.calls.len() * 3 / 4);
    list.calls.extend(Call::with_closings(chance, later, 1));
    list.run(comparing);
}

fn middling_list(comparing: &mut Comparing, chance: &mut Chance) {
    let world = large_world(chance);
    let blocks = chance.from(4, 24);
    let list = list(chance, &world, blocks, 24 * blocks, 1, 10);
    let mut list = with_closings_or_not(chance, list);
    list.calls = Call::with_texts(chance, list.calls, &list.policy, 3);
    list.run(comparing);
}

/// What decisions must have seen so many times; previews, which are fewer, a fifth of that.
fn both_calls(times: usize) -> [(&'static str, usize); 2] {
    [("decide", times), ("preview", times / 5)]
}

fn must_have_seen_in_lists(seen: &Seen, times: usize) {
    for (call, times) in both_calls(times) {
        seen.must_refuse(call, &REQUEST_NUMBERS, times);
        seen.must_refuse(call, &JUDGE_NUMBERS, times);
        seen.must_grant(call, &KINDS, times);
    }
    seen.must_note(&[MAKES_ROOM], times / 25);
    seen.must_note(&ranged::MET, 2 * times / 5);
    seen.must_refuse("close", &REQUEST_NUMBERS, times / 5);
    seen.must_note(&closed::MET, times / 25);
    must_have_seen_of_texts(seen, times / 10);
}

/// With 32 rules a table is seldom empty again.
fn must_have_seen_in_large_lists(seen: &Seen, times: usize) {
    for (call, times) in both_calls(times) {
        seen.must_refuse(call, &REQUEST_NUMBERS, times);
        seen.must_refuse(call, &JUDGE_NUMBERS, times);
        seen.must_grant(call, &KINDS[3..], times);
    }
    seen.must_note(&ranged::MET, times);
    must_have_seen_of_texts(seen, times / 4);
}

/// What readings and writings among the calls must have come to: so many times what is rare, and what is
/// not rare some times as often.
fn must_have_seen_of_texts(seen: &Seen, times: usize) {
    seen.must_refuse(READ, &[41, 42, 43], times);
    seen.must_refuse(WRITE, &[42, 43], times);
    seen.must_note(&reread::MET, 2 * times);
    seen.must_note(&reread::MET_AFTER, 20 * times);
}

#[test]
fn small_lists() {
    let mut comparing = Comparing::new();
    until(
        &mut comparing,
        "small lists",
        SEED,
        full(1_000_000),
        small_list,
    );
    must_have_seen_in_lists(&comparing.seen, full(5_000));
    comparing.seen.must_note(&[BY_DOCUMENT_01], full(100_000));
    println!("{}", comparing.seen);
}

/// Runs that first steps have opened, and closings of some of their contexts.
fn opened_list(comparing: &mut Comparing, chance: &mut Chance) {
    let world = World::opened(chance);
    let world = with_ranges_or_not(chance, world);
    let blocks = chance.from(1, 3);
    let start = Start::Fresh(noise(chance, 512 * blocks));
    // Every eighth list has no closing, so that runs are also held against document 01's words.
    let closings = !chance.percent(12);
    let mut calls = vec![];
    for _ in 0..chance.from(1, 12) {
        for asked in world.episode(chance) {
            match asked {
                Asked::Request(request) => {
                    let bytes = request_bytes(chance, &request, 1);
                    calls.extend(Call::with_previews(chance, vec![bytes]));
                }
                Asked::Closing(levels) if closings => {
                    let bytes = write_context(&levels).to_vec();
                    calls.push(Call::Close(damaged_context(chance, bytes, 3)));
                }
                Asked::Closing(_) => {}
            }
        }
    }
    let of_a_hundred = if closings { 3 } else { 0 };
    let list = List {
        policy: world.image.clone(),
        start,
        calls: Call::with_closings(chance, calls, of_a_hundred),
        every: 1,
    };
    with_texts_or_not(chance, list).run(comparing);
}

fn must_have_seen_in_opened_lists(seen: &Seen, times: usize) {
    seen.must_note(&closed::MET, times);
    seen.must_note(&closed::MET_OPENED, times);
    seen.must_note(&closed::MET_AFTER, times);
    seen.must_note(&[BY_DOCUMENT_01], 20 * times);
    must_have_seen_of_texts(seen, times / 3);
}

#[test]
fn opened_runs() {
    let mut comparing = Comparing::new();
    let one = opened_list;
    until(&mut comparing, "opened runs", SEED, full(200_000), one);
    must_have_seen_in_opened_lists(&comparing.seen, full(300));
    println!("{}", comparing.seen);
}

#[test]
fn large_lists() {
    let mut comparing = Comparing::new();
    until(
        &mut comparing,
        "middling lists",
        SEED,
        12_000,
        middling_list,
    );
    must_have_seen_in_large_lists(&comparing.seen, 20);
    println!("{}", comparing.seen);
    let mut comparing = Comparing::new();
    until(&mut comparing, "large lists", SEED, 4_000, large_list);
    for (call, times) in both_calls(20) {
        comparing.seen.must_refuse(call, &[34], times);
    }
    comparing.seen.must_note(&closed::MET_WHEN_FULL, 1);
    println!("{}", comparing.seen);
}

// ---------------------------------------------------------------------------------------------
// Tables that pass the check, but that no list leads to

/// A list on a table that is given; before so many of a hundred calls there is a closing.
fn list_on(
    chance: &mut Chance,
    policy: &[u8],
    table: Vec<u8>,
    requests: Vec<Vec<u8>>,
    closings: usize,
) -> List {
    let calls = Call::with_previews(chance, requests);
    List {
        policy: policy.to_vec(),
        start: Start::Given(table),
        calls: Call::with_closings(chance, calls, closings),
        every: 1,
    }
}

fn strange_table(comparing: &mut Comparing, chance: &mut Chance) {
    let world = small_world(chance);
    let blocks = chance.from(1, 4);
    let count = chance.from(0, places(blocks));
    let records = world.records(chance, count);
    let table = write_table(world.stamp(), &records, blocks);
    let accepted = Reply::accept(records.len());
    assert_eq!(comparing.check_table(&world.image, &table), accepted);
    let requests = (0..chance.from(1, 30))
        .map(|_| {
            let request = world.request(chance);
            request_bytes(chance, &request, 2)
        })
        .collect();
    let list = list_on(chance, &world.image, table, requests, 10);
    with_texts_or_not(chance, list).run(comparing);
}

fn strange_large_table(comparing: &mut Comparing, chance: &mut Chance) {
    let world = large_world(chance);
    let blocks = chance.from(100, 128);
    let count = places(blocks) - chance.below(20);
    let records = world.records(chance, count);
    let table = write_table(world.stamp(), &records, blocks);
    let requests = (0..50)
        .map(|_| write_request(&world.request(chance)).to_vec())
        .collect();
    list_on(chance, &world.image, table, requests, 5).run(comparing);
}

#[test]
fn strange_tables() {
    let mut comparing = Comparing::new();
    until(
        &mut comparing,
        "strange tables",
        SEED,
        full(300_000),
        strange_table,
    );
    must_have_seen_in_lists(&comparing.seen, full(1_000));
    let large = strange_large_table;
    until(
        &mut comparing,
        "strange large tables",
        SEED,
        full(500),
        large,
    );
    println!("{}", comparing.seen);
}

// ---------------------------------------------------------------------------------------------
// Tables in which few users have done much

fn busy_table(comparing: &mut Comparing, chance: &mut Chance) {
    let pool = chance.pick(&Pool::ALL);
    let busy = Busy::new(chance, pool);
    let (policy, stamp) = (&busy.image, busy.stamp());
    let accepted = Reply::accept(busy.policy.rules.len());
    assert_eq!(comparing.check_policy(policy), accepted);
    let table = write_table(stamp, &busy.records, busy.blocks);
    let accepted = Reply::accept(busy.records.len());
    assert_eq!(comparing.check_table(policy, &table), accepted);
    let requests = (0..chance.from(5, 25))
        .map(|_| write_request(&busy.request(chance)).to_vec())
        .collect();
    let closings = chance.pick(&[0, 0, 10]);
    let list = list_on(chance, policy, table, requests, closings);
    list.run_noting(comparing, |seen, table, request| {
        let records = read_table(&busy.policy, stamp, table, fits).expect("a good table");
        let request = read_request(request).expect("a good request");
        for what in busy.meets(&records, &request) {
            seen.note(what);
        }
        seen.note(pool.name());
    });
}

fn must_have_seen_in_busy_tables(seen: &Seen, times: usize) {
    for (call, times) in both_calls(times) {
        seen.must_refuse(call, &[32, 33, 34], 20 * times);
        seen.must_grant(call, &KINDS, times);
    }
    seen.must_note(&Pool::ALL.map(Pool::name), 40 * times);
    seen.must_note(&MET, 2 * times);
    seen.must_note(&ranged::COUNTED, times);
}

#[test]
fn many_privileges() {
    let mut comparing = Comparing::new();
    until(
        &mut comparing,
        "busy tables",
        SEED,
        full(25_000),
        busy_table,
    );
    must_have_seen_in_busy_tables(&comparing.seen, full(50));
    println!("{}", comparing.seen);
}

// ---------------------------------------------------------------------------------------------
// Tables of records alike, whose blocks may come out the same

fn repeated_table(comparing: &mut Comparing, chance: &mut Chance) {
    let repeated = Repeated::new(chance);
    let (policy, records) = (&repeated.image, &repeated.records);
    let table = write_table(repeated.stamp(), records, repeated.blocks);
    let accepted = Reply::accept(records.len());
    assert_eq!(comparing.check_table(policy, &table), accepted);
    let requests = (0..chance.from(1, 4))
        .map(|_| write_request(&repeated.request(chance)).to_vec())
        .collect();
    list_on(chance, policy, table, requests, 25).run(comparing);
}

fn must_have_seen_in_repeated_tables(seen: &Seen, times: usize) {
    seen.must_note_of("decide", &written::MET, times);
    seen.must_note_of("close", &written::MET_BY_CLOSING, times);
    seen.must_note(&ranged::ENDED, times);
    seen.must_refuse("decide", &[34], times);
}

#[test]
fn repeated_requests() {
    let mut comparing = Comparing::new();
    until(
        &mut comparing,
        "repeated requests",
        SEED,
        full(60_000),
        repeated_table,
    );
    must_have_seen_in_repeated_tables(&comparing.seen, full(200));
    println!("{}", comparing.seen);
}

// ---------------------------------------------------------------------------------------------
// Damaged images

/// Puts all six calls to what may be damaged. What the check of the table says.
fn all_calls(
    comparing: &mut Comparing,
    policy: &[u8],
    table: &[u8],
    request: &[u8],
    context: &[u8],
) -> Reply {
    comparing.check_policy(policy);
    let checked = comparing.check_table(policy, table);
    comparing.fresh_table(policy, &mut table.to_vec());
    preview_and_decide(comparing, policy, table, request);
    comparing.close(policy, &mut table.to_vec(), context);
    checked
}

/// The answer of a preview and of the decision after it, on a copy of the table.
fn preview_and_decide(
    comparing: &mut Comparing,
    policy: &[u8],
    table: &[u8],
    request: &[u8],
) -> Reply {
    let foreseen = comparing.preview(policy, table, request);
    let reply = comparing.decide(policy, &mut table.to_vec(), request);
    assert_eq!(foreseen, reply, "the preview");
    reply
}

/// The bytes of a context of some of these levels.
fn beginning(chance: &mut Chance, context: &Context) -> Vec<u8> {
    let depth = chance.from(0, context.len());
    write_context(&context[..depth]).to_vec()
}

/// A world, a table in use, a request and a context, one or more of them damaged in several ways.
fn damaged_images(comparing: &mut Comparing, chance: &mut Chance) {
    let world = small_world(chance);
    let blocks = chance.from(1, 3);
    let count = chance.from(0, places(blocks));
    let records = world.records(chance, count);
    let table = write_table(world.stamp(), &records, blocks);
    for _ in 0..20 {
        let (mut policy, mut table) = (world.image.clone(), table.clone());
        let [bad_policy, bad_table, bad_request] = chance.pick(&[
            [true, false, false],
            [false, true, false],
            [false, false, true],
            [true, true, false],
            [false, true, true],
        ]);
        if bad_policy {
            damage(chance, &mut policy);
            if policy.len() % 4 == 0 && chance.percent(50) {
                restamp(&mut table, sums(&policy));
            }
        }
        let mut moved = None;
        if bad_table && !bad_policy && chance.percent(50) {
            let mut records = records.clone();
            moved = move_record(chance, &world.policy, &mut records);
            table = write_table(world.stamp(), &records, blocks);
        }
        if bad_table && moved.is_none() {
            damage(chance, &mut table);
        }
        let request = world.request(chance);
        let damaged = if bad_request { 80 } else { 5 };
        let context = beginning(chance, &request.context);
        let context = damaged_context(chance, context, damaged);
        let request = request_bytes(chance, &request, damaged);
        let checked = all_calls(comparing, &policy, &table, &request, &context);
        if let Some((what, _)) = moved.filter(|&(_, number)| number == checked.number) {
            comparing.seen.note(what);
        }
    }
}

fn must_have_seen_in_damaged_images(seen: &Seen, times: usize) {
    for call in ["check_policy", "fresh_table"] {
        seen.must_refuse(call, &POLICY_NUMBERS, times);
    }
    seen.must_refuse("fresh_table", &[11], times);
    for call in ["check_table", "decide", "preview", "close"] {
        seen.must_refuse(call, &POLICY_NUMBERS, times);
        seen.must_refuse(call, &TABLE_NUMBERS, times);
    }
    for call in ["decide", "preview", "close"] {
        seen.must_refuse(call, &REQUEST_NUMBERS, times);
    }
    seen.must_note(&MOVED, times);
}

#[test]
fn damaged() {
    let mut comparing = Comparing::new();
    let one = damaged_images;
    until(&mut comparing, "damaged images", SEED, full(200_000), one);
    must_have_seen_in_damaged_images(&comparing.seen, full(500));
    println!("{}", comparing.seen);
}

// What is taken down of a range level of which a byte was altered.
const RANGE_REFUSED: &str = "a damaged range is refused by 4";
const RANGE_PASSES: &str = "a damaged range is another good level";

/// Every byte of a policy with ranges, of a table, of a request and of a context, resealed and not.
fn every_byte(comparing: &mut Comparing, chance: &mut Chance) {
    let world = World::ranged(chance);
    let records = world.records(chance, 20);
    let table = write_table(world.stamp(), &records, 2);
    let asked = world.request(chance);
    let (request, context) = (write_request(&asked), write_context(&asked.context));
    for at in 0..world.image.len() {
        for sealed in [false, true] {
            let mut policy = world.image.clone();
            policy[at] = telling(chance, policy[at]);
            if sealed {
                reseal(&mut policy);
            }
            let mut table = table.clone();
            restamp(&mut table, sums(&policy));
            all_calls(comparing, &policy, &table, &request, &context);
        }
    }
    every_byte_of_a_range(comparing, chance, &world, &table, &asked);
    for at in 0..table.len() {
        for sealed in [false, true] {
            let mut table = table.clone();
            table[at] = telling(chance, table[at]);
            if sealed {
                reseal(&mut table);
            }
            all_calls(comparing, &world.image, &table, &request, &context);
        }
    }
    for at in 0..request.len() {
        for value in 0..=255 {
            let mut request = request;
            request[at] = value;
            preview_and_decide(comparing, &world.image, &table, &request);
        }
    }
    for at in 0..context.len() {
        for value in 0..=255 {
            let mut context = context;
            context[at] = value;
            comparing.close(&world.image, &mut table.clone(), &context);
        }
    }
}

/// Every other value in every byte of one of the policy's ranges.
fn every_byte_of_a_range(
    comparing: &mut Comparing,
    chance: &mut Chance,
    world: &World,
    table: &[u8],
    asked: &Request,
) {
    let (request, context) = (write_request(asked), write_context(&asked.context));
    let levels = (world.policy.rules.iter().enumerate())
        .flat_map(|(r, rule)| (0..rule.levels.len()).map(move |i| BLOCK * r + 16 + 8 * i));
    let ranges: Vec<usize> = levels.filter(|&at| world.image[at + 2] == 4).collect();
    let level = chance.pick(&ranges);
    for at in level..level + 8 {
        for value in (0..=255).filter(|&value| value != world.image[at]) {
            let mut policy = world.image.clone();
            policy[at] = value;
            reseal(&mut policy);
            let mut table = table.to_vec();
            restamp(&mut table, sums(&policy));
            match all_calls(comparing, &policy, &table, &request, &context).number {
                4 => comparing.seen.note(RANGE_REFUSED),
                // Records that were good may have come to lie outside.
                0 | 15 => comparing.seen.note(RANGE_PASSES),
                _ => {}
            }
        }
    }
}

#[test]
fn every_byte_damaged() {
    let mut comparing = Comparing::new();
    until(&mut comparing, "every byte", SEED, full(60_000), every_byte);
    let seen = &comparing.seen;
    for call in ["decide", "preview", "close"] {
        seen.must_refuse(call, &[2, 3, 4, 5, 6, 12, 13, 14, 15, 22], full(30));
    }
    seen.must_note(&[RANGE_REFUSED, RANGE_PASSES], full(800));
    println!("{seen}");
}

/// Lengths up to a little more than two blocks, and around the longest.
#[test]
fn lengths() {
    let mut comparing = Comparing::new();
    let mut chance = Chance::new(SEED);
    let world = World::ranged(&mut chance);
    let request = write_request(&world.request(&mut chance));
    let context = &request[12..];
    let table = write_table(world.stamp(), &[], 1);
    let around = |blocks: usize| [512 * blocks - 1, 512 * blocks, 512 * blocks + 1];
    let short = 0..1_100;

    for length in short.clone().chain(around(64)).chain(around(65)) {
        let mut policy = world.image.clone();
        policy.resize(length, 0);
        all_calls(&mut comparing, &policy, &table, &request, context);
    }
    for length in short.chain(around(128)).chain(around(129)) {
        let mut table = table.clone();
        table.resize(length, 0);
        all_calls(&mut comparing, &world.image, &table, &request, context);
    }
    for length in 0..100 {
        let mut request = request.to_vec();
        request.resize(length, 0);
        let reply = preview_and_decide(&mut comparing, &world.image, &table, &request);
        assert_eq!(reply.number == 21, length != 28);
        let mut context = context.to_vec();
        context.resize(length, 0);
        let reply = comparing.close(&world.image, &mut table.clone(), &context);
        assert_eq!(reply.number == 21, length != 16);
    }
    for call in ["fresh_table", "preview", "close"] {
        comparing.seen.must_refuse(call, &[1, 11], 1_000);
    }
}

/// What is printed of a list that fails ends where it first fails.
#[test]
fn shortest_failing_lists() {
    for whole in 1..40 {
        for first in 0..=whole {
            assert_eq!(shortest(whole, |length| length >= first), first);
        }
    }
}

// ---------------------------------------------------------------------------------------------
// The long run

type Part = (&'static str, usize, fn(&mut Comparing, &mut Chance));

const LONG: [Part; 10] = [
    ("small lists", 7_000_000, small_list),
    ("opened runs", 1_000_000, opened_list),
    ("middling lists", 100_000, middling_list),
    ("large lists", 15_000, large_list),
    ("strange tables", 2_000_000, strange_table),
    ("strange large tables", 10_000, strange_large_table),
    ("busy tables", 150_000, busy_table),
    ("repeated requests", 300_000, repeated_table),
    ("damaged images", 1_000_000, damaged_images),
    ("every byte", 500_000, every_byte),
];

#[test]
#[ignore = "takes long; see the top of this file"]
fn long() {
    let seed = number_from("SOD_SEED", SEED + 1);
    let times = number_from("SOD_TIMES", 1) as usize;
    let (mut decisions, mut previews, mut closings) = (0, 0, 0);
    let (mut readings, mut writings) = (0, 0);
    for (part, enough, one) in LONG {
        let mut comparing = Comparing::new();
        until(&mut comparing, part, seed, enough * times, one);
        println!("{part}: {}", comparing.seen);
        decisions += comparing.seen.decisions;
        previews += comparing.seen.previews;
        closings += comparing.seen.closings;
        readings += comparing.seen.readings;
        writings += comparing.seen.writings;
        match part {
            "small lists" => must_have_seen_in_lists(&comparing.seen, 10_000 * times),
            "opened runs" => must_have_seen_in_opened_lists(&comparing.seen, 1_500 * times),
            "middling lists" => must_have_seen_in_large_lists(&comparing.seen, 100 * times),
            "strange tables" => must_have_seen_in_lists(&comparing.seen, 5_000 * times),
            "busy tables" => must_have_seen_in_busy_tables(&comparing.seen, 250 * times),
            "repeated requests" => must_have_seen_in_repeated_tables(&comparing.seen, 1_000),
            "damaged images" => must_have_seen_in_damaged_images(&comparing.seen, 3_000),
            _ => {}
        }
    }
    println!(
        "{decisions} decisions, {previews} previews, {closings} closings, {readings} readings and \
         {writings} writings in all, from seed {seed}"
    );
}
