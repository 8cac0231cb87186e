//! Closings: which bytes are a context, which records it names, what is left of the table, and what the
//! rules make of it afterwards. All of it is written down from document 02's W2.

use super::*;

/// A rule over these levels, in the order of the types, that keeps working and checking apart.
fn apart(marks: &[Mark]) -> Rule {
    Rule {
        levels: (1..).zip(marks).map(|(i, &mark)| level(i, mark)).collect(),
        first: None,
        last: None,
        exclusions: vec![privileges(2, &[WORK, CHECK])],
    }
}

/// The same; a first step opens its runs.
fn opened(marks: &[Mark]) -> Rule {
    Rule {
        first: Some(BEGIN),
        last: Some(CLOSE),
        ..apart(marks)
    }
}

/// A session under these rules, with a table of one block. Role 1 may do all that there is.
fn under(rules: Vec<Rule>) -> Session {
    Session::new(&of_rules(rules))
}

fn of_rules(rules: Vec<Rule>) -> Policy {
    let may = |privilege| Permission { role: 1, privilege };
    Policy {
        rules,
        permissions: vec![[WORK, CLOSE, BEGIN, CHECK].map(may).to_vec()],
    }
}

// ---------------------------------------------------------------------------------------------
// Numbers

/// "A length other than 16 gives 21", whatever the bytes are.
#[test]
fn lengths() {
    let mut session = under(vec![apart(&[])]);
    session.gets(&of(7, WORK, &[5, 90]), Reply::grant(1, 0, 1));
    let good = write_context(&[(1, 5), (2, 90), (3, 1), (4, 1)]);
    for length in (0..100).filter(|&length| length != 16) {
        for byte in [0, 1] {
            session.closing_gets(&vec![byte; length], refuse(21, 0, 0));
        }
        let mut bytes = good.to_vec();
        bytes.resize(length, 0);
        session.closing_gets(&bytes, refuse(21, 0, 0));
    }
    // A whole request is none, nor is a whole record.
    session.closing_gets(&write_request(&of(7, WORK, &[5, 90])), refuse(21, 0, 0));
    session.closing_gets(&[1; 32], refuse(21, 0, 0));
    // Nothing of all this was taken down.
    session.gets(&of(7, CHECK, &[5, 90]), refuse(33, 1, 1));
    session.closes(&[5, 90], 1);
}

/// "A bad context 22": used levels come first and have both numbers, the others are zero.
#[test]
fn fields() {
    let mut session = under(vec![apart(&[])]);
    session.gets(&of(7, WORK, &[5, 90, 3, 4]), Reply::grant(1, 0, 1));
    let good = write_context(&[(1, 5), (2, 90), (3, 3), (4, 4)]);
    let bad: &[(usize, &[u8])] = &[
        (0, &[0; 2]), // value without type, at each level
        (4, &[0; 2]),
        (8, &[0; 2]),
        (12, &[0; 2]),
        (2, &[0; 2]), // type without value
        (6, &[0; 2]),
        (10, &[0; 2]),
        (14, &[0; 2]),
        (0, &[0; 4]), // a used level behind a blank one
        (4, &[0; 4]),
        (8, &[0; 4]),
        (4, &[0; 8]),
        (0, &[0; 8]),
        (0, &[0; 12]),        // only the last level is used
        (0, &[0; 14]),        // only its value
        (6, &[0; 10]),        // only the types of two levels, and one value
        (12, &[0, 0, 1, 0]),  // the last level has a value alone
        (12, &[0, 1, 0, 0]),  // and a type alone, in its high byte
        (0, &[0, 0, 0, 128]), // the first has a value alone, in its high byte
    ];
    for (at, bytes) in bad {
        let mut context = good;
        context[*at..at + bytes.len()].copy_from_slice(bytes);
        session.closing_gets(&context, refuse(22, 0, 0));
    }
    for at in 0..16 {
        let mut context = [0; 16];
        context[at] = 1;
        session.closing_gets(&context, refuse(22, 0, 0));
    }
    // Nothing of all this was taken down.
    session.gets(&of(7, CHECK, &[5, 90]), refuse(33, 1, 1));
    // Every shorter context is fine, and the largest numbers are.
    for used in 0..4 {
        let mut context = good;
        context[4 * used..].fill(0);
        let mut session = under(vec![apart(&[])]);
        session.gets(&of(7, WORK, &[5, 90, 3, 4]), Reply::grant(1, 0, 1));
        session.closing_gets(&context, Reply::accept(1));
    }
    session.closing_gets(&[255; 16], Reply::accept(0));
    session.closing_gets(&good, Reply::accept(1));
}

/// The policy's numbers, the table's, then 21, then 22. (Each other number of policy and table is put
/// to a closing where it is put to a decision.)
#[test]
fn order_of_numbers() {
    let policy = write_policy(&policy());
    let table = table(&policy);
    let mut comparing = Comparing::new();
    let mut gets = |policy: &[u8], table: &[u8], context: &[u8], expected| {
        let got = comparing.close_guarded(policy, &mut table.to_vec(), context);
        assert_eq!(got, (expected, 0));
    };
    let values = [0, 0, 1, 0].repeat(4);
    let (short, bad) = (&values[..15], &values[..]);
    gets(&policy, &table, bad, refuse(22, 0, 0));
    gets(&policy, &table, short, refuse(21, 0, 0));
    for context in [short, bad, &[0; 16]] {
        let record = |i: usize| 24 + 32 * (i - 1);
        let faults: [(usize, &[u8], Reply); 4] = [
            (SECOND + record(2) + 28, &[0], refuse(15, 1, 2)),
            (SECOND + 16, &[255, 255], refuse(14, 1, 0)),
            (SECOND + 15, &[1], refuse(13, 1, 0)),
            (record(15), &[0; 4], refuse(15, 0, 15)),
        ];
        // Each fault stands before those before it.
        let mut worse = table.clone();
        for (at, bytes, expected) in faults {
            worse = with(&worse, &[(at, bytes)]);
            gets(&policy, &worse, context, expected);
        }
        worse[511] ^= 1;
        gets(&policy, &worse, context, refuse(12, 0, 0));
        gets(&policy, &worse[..1023], context, refuse(11, 0, 0));
        gets(&policy, &[], context, refuse(11, 0, 0));
        let bad_policy = with(&policy, &[(8, &[5])]);
        gets(&bad_policy, &worse[..1023], context, refuse(4, 0, 0));
        gets(&policy[..511], &worse, context, refuse(1, 0, 0));
    }
}

// ---------------------------------------------------------------------------------------------
// Which records go

/// A context and whether it begins with depot 5; with job 90 there; with part 7 of it; with piece 8.
type Named = (&'static [(u16, u16)], [bool; 4]);

const NAMED: [Named; 19] = [
    (&[], [false; 4]),
    (&[(1, 5)], [true, false, false, false]),
    (&[(1, 5), (2, 90)], [true, true, false, false]),
    (&[(1, 5), (2, 90), (3, 7)], [true, true, true, false]),
    (&[(1, 5), (2, 90), (3, 7), (4, 8)], [true; 4]),
    // Another value: at the first level, at the second, in the middle, at the last.
    (&[(1, 6), (2, 90), (3, 7), (4, 8)], [false; 4]),
    (&[(1, 5), (2, 91)], [true, false, false, false]),
    (
        &[(1, 5), (2, 91), (3, 7), (4, 8)],
        [true, false, false, false],
    ),
    (
        &[(1, 5), (2, 90), (3, 6), (4, 8)],
        [true, true, false, false],
    ),
    (
        &[(1, 5), (2, 90), (3, 7), (4, 9)],
        [true, true, true, false],
    ),
    // All values, but another type.
    (&[(9, 5)], [false; 4]),
    (&[(9, 5), (2, 90), (3, 7), (4, 8)], [false; 4]),
    (
        &[(1, 5), (9, 90), (3, 7), (4, 8)],
        [true, false, false, false],
    ),
    (
        &[(1, 5), (2, 90), (3, 7), (9, 8)],
        [true, true, true, false],
    ),
    // Type and value in each other's place; levels in another order.
    (&[(5, 1)], [false; 4]),
    (&[(2, 90), (1, 5)], [false; 4]),
    // The same low bytes, or the same high bytes.
    (&[(257, 5)], [false; 4]),
    (&[(1, 261)], [false; 4]),
    (&[(256, 1_280)], [false; 4]),
];

/// A record in this context; every rule of [`everywhere`] may count it.
fn record(user: u32, context: &[(u16, u16)], marks: u32) -> Record {
    Record {
        request: Request {
            context: context.to_vec(),
            ..of(user, WORK, &[])
        },
        marks,
    }
}

/// Three rules that fit every context.
fn everywhere() -> Vec<u8> {
    write_policy(&of_rules(vec![apart(&[]); 3]))
}

/// A closing of these levels leaves just these records, and writes so many blocks.
fn leaves(records: &[Record], blocks: usize, levels: &[(u16, u16)], left: &[Record]) -> usize {
    let policy = everywhere();
    let mut table = write_table(sums(&policy), records, blocks);
    let mut comparing = Comparing::new();
    let all = Reply::accept(records.len());
    assert_eq!(comparing.check_table(&policy, &table), all);
    let (reply, written) = comparing.close_guarded(&policy, &mut table, &write_context(levels));
    assert_eq!(reply, Reply::accept(records.len() - left.len()));
    assert!(table == write_table(sums(&policy), left, blocks));
    written
}

/// A record goes if it has at least the closing's levels and agrees with each of them in type and
/// value; what stays keeps order and marks. No level names every record.
#[test]
fn which_records_go() {
    let levels = [(1, 5), (2, 90), (3, 7), (4, 8)];
    let all: Vec<Record> = (NAMED.iter().zip(1..))
        .map(|((context, _), user)| record(user, context, 1 + user % 7))
        .collect();
    for depth in 1..=4 {
        let stays = |i: &usize| !NAMED[*i].1[depth - 1];
        let left: Vec<Record> = (0..all.len())
            .filter(stays)
            .map(|i| all[i].clone())
            .collect();
        leaves(&all, 2, &levels[..depth], &left);
    }
    leaves(&all, 2, &[], &[]);
    // What begins at an inner level, or leaves one out, names nothing here.
    leaves(&all, 2, &[(3, 7)], &all);
    leaves(&all, 2, &[(1, 5), (3, 7)], &all);
    leaves(&all, 2, &[(1, 5), (2, 90), (4, 8)], &all);
    leaves(&all, 2, &[(1, 7)], &all);
    leaves(&all, 2, &[(3, 5)], &all);
    leaves(&all, 2, &[(65535, 65535)], &all);
    // One that is closed goes alone, wherever it stands.
    for (i, (context, _)) in NAMED.iter().enumerate().skip(5) {
        let mut left = all.clone();
        left.retain(|one| !one.request.context.starts_with(context));
        assert!(!left.contains(&all[i]));
        leaves(&all, 2, context, &left);
    }
}

/// Nothing but the context matters: not the user, the roles, the step or the marks.
#[test]
fn whose_records_go() {
    let named = |user, roles, privilege, marks| Record {
        request: Request {
            roles,
            ..of(user, privilege, &[5, 90])
        },
        marks,
    };
    let go = [
        named(1, 1, WORK, 1),
        named(u32::MAX, 1, WORK, 1),
        named(1, u32::MAX, WORK, 1),
        named(1, 1 << 31, CHECK, 1),
        named(1, 1, privilege(65535, 65535), 1),
        named(1, 1, WORK, 2),
        named(1, 1, WORK, 7),
    ];
    let stays = record(1, &[(1, 6), (2, 90)], 5);
    let mixed: Vec<Record> = (go.iter().cloned())
        .flat_map(|one| [one, stays.clone()])
        .collect();
    leaves(&mixed, 1, &[(1, 5)], &times(stays.clone(), 7));
    leaves(&mixed, 1, &[(1, 5), (2, 90)], &times(stays, 7));
}

/// The bytes of a block from which records go: the others move up as they were, the number is less,
/// the places that fall free are zero, all else stays.
#[test]
fn bytes_of_a_block() {
    let policy = everywhere();
    let records = [
        record(1, &[(1, 5)], 1),
        record(2, &[(1, 6)], 6),
        record(3, &[(1, 5), (2, 1)], 7),
        record(4, &[], 2),
        record(5, &[(1, 5)], 4),
    ];
    let before = write_table(sums(&policy), &records, 2);
    let mut after = before.clone();
    let reply = Comparing::new().close(&policy, &mut after, &write_context(&[(1, 5)]));
    assert_eq!(reply, Reply::accept(3));
    let mut expected = before.clone();
    expected[8..10].copy_from_slice(&[2, 0]);
    expected.copy_within(56..88, 24);
    expected.copy_within(120..152, 56);
    expected[88..504].fill(0);
    let (a, b) = sums(&expected[..504]);
    expected[504..508].copy_from_slice(&a.to_le_bytes());
    expected[508..512].copy_from_slice(&b.to_le_bytes());
    assert_eq!(after, expected);
    assert_eq!(after[..8], [2, 0, 0, 0, 0, 0, 2, 0]);
    assert_eq!(after[16..24], sums_bytes(sums(&policy)));
    assert_eq!(after[52..56], [6, 0, 0, 0]);
    assert_eq!(after[84..88], [2, 0, 0, 0]);
}

// ---------------------------------------------------------------------------------------------
// Full tables, and which blocks are written

/// 128 blocks, records of twelve depots in turn.
#[test]
fn a_full_table_of_128_blocks() {
    let of_depot = |i: usize| record(1 + i as u32, &[(1, 1 + i as u16 % 12), (2, 3)], 1);
    let all: Vec<Record> = (0..1_920).map(of_depot).collect();
    let left = |gone: fn(usize) -> bool| -> Vec<Record> {
        (0..1_920).filter(|&i| !gone(i)).map(of_depot).collect()
    };
    // A twelfth, of which every block has some; all; none.
    let twelfth = left(|i| i % 12 == 6);
    assert_eq!(twelfth.len(), 1_760);
    assert_eq!(leaves(&all, 128, &[(1, 7)], &twelfth), 128);
    assert_eq!(leaves(&all, 128, &[], &[]), 128);
    assert_eq!(leaves(&all, 128, &[(1, 13)], &all), 0);
    assert_eq!(leaves(&all, 128, &[(1, 7), (2, 4)], &all), 0);
    // Depot by depot until nothing is left.
    let (policy, mut comparing) = (everywhere(), Comparing::new());
    let mut table = write_table(sums(&policy), &all, 128);
    for depot in 1..=12 {
        let context = write_context(&[(1, depot)]);
        let reply = comparing.close(&policy, &mut table, &context);
        assert_eq!(reply, Reply::accept(160));
    }
    assert!(table == write_table(sums(&policy), &[], 128));
    // All of one depot.
    let one = times(record(1, &[(1, 7)], 7), 1_920);
    assert_eq!(leaves(&one, 128, &[(1, 7)], &[]), 128);
    // The last record alone, and the first.
    let mut other = one.clone();
    other[1_919] = record(1, &[(1, 8)], 7);
    assert_eq!(leaves(&other, 128, &[(1, 8)], &one[..1_919]), 1);
    other.swap(0, 1_919);
    assert_eq!(leaves(&other, 128, &[(1, 8)], &one[..1_919]), 2);
    assert_eq!(leaves(&other, 128, &[(1, 7)], &other[..1]), 128);
}

/// Depot 5 is closed: a block is written if its records are others than before, or fewer.
#[test]
fn blocks_of_a_closing() {
    let (goes, alike) = (record(7, &[(1, 5)], 1), record(7, &[(1, 6)], 3));
    let gets = |parts: &[&[Record]], written| {
        let records = parts.concat();
        let mut left = records.clone();
        left.retain(|one| one.request.context[0] != (1, 5));
        assert_eq!(leaves(&records, 128, &[(1, 5)], &left), written);
    };
    let (one, many) = (&[goes.clone()][..], |n| times(alike.clone(), n));
    gets(&[], 0);
    gets(&[&many(60)], 0);
    // The first goes, the rest are alike: the block it stood in, and the last, which has one less.
    gets(&[one, &many(44)], 2);
    gets(&[one, &many(1_919)], 2);
    gets(&[&many(29), one, &many(30)], 2);
    // The last block has one record, which goes, or which is needed further to the front.
    gets(&[&many(30), one], 1);
    gets(&[one, &many(30)], 2);
    gets(&[one], 1);
    // One in each block goes, and the rest are alike.
    gets(&[one, &many(14), one, &many(14), one, &many(14)], 3);
    // 15 go: the first block gets what the second had, the last is emptied.
    gets(&[&times(goes.clone(), 15), &many(45)], 2);
    // All of three blocks and one record of the fourth go.
    gets(&[&times(goes.clone(), 46), &many(14)], 4);
    // Two kinds of record in turn, alike but for user, marks or context: one place further all differ,
    // two places further they are the same.
    for second in [
        record(9, &[(1, 6)], 3),
        record(7, &[(1, 6)], 2),
        record(7, &[(1, 7)], 3),
    ] {
        let in_turn = vec![[alike.clone(), second]; 22].concat();
        gets(&[one, &in_turn[..44]], 3);
        gets(&[&times(goes.clone(), 2), &in_turn[..43]], 2);
    }
    // All behind it differ.
    let different: Vec<Record> = (1..=1_919).map(|user| record(user, &[(1, 6)], 3)).collect();
    gets(&[one, &different], 128);
    gets(&[&different[..900], one, &different[900..]], 68);
}

/// A full table refuses by 34 until a closing makes room; one that names nothing makes none.
#[test]
fn room_in_a_full_table() {
    let mut session = under(vec![apart(&[])]);
    for held in 1..=15 {
        let job = held as u16 % 3;
        session.gets(&of(7, WORK, &[5, 1 + job]), Reply::grant(1, 0, held));
    }
    session.gets(&of(7, WORK, &[6]), refuse(34, 0, 0));
    session.closes(&[6], 0);
    session.closes(&[5, 4], 0);
    session.gets(&of(7, WORK, &[6]), refuse(34, 0, 0));
    session.closes(&[5, 1], 5);
    for held in 11..=15 {
        session.gets(&of(7, WORK, &[6]), Reply::grant(1, 0, held));
    }
    session.gets(&of(7, WORK, &[6]), refuse(34, 0, 0));
    session.closes(&[], 15);
    session.gets(&of(7, WORK, &[6]), Reply::grant(1, 0, 1));
}

// ---------------------------------------------------------------------------------------------
// What the rules make of it

/// What is closed no longer counts, and nothing is forbidden: later requests there are judged as ever.
#[test]
fn judged_as_ever() {
    let mut session = under(vec![apart(&[Mark::Each])]);
    session.gets(&of(7, WORK, &[5, 1]), Reply::grant(1, 0, 1));
    session.gets(&of(7, WORK, &[6, 1]), Reply::grant(1, 0, 2));
    session.gets(&of(7, CHECK, &[5]), refuse(33, 1, 1));
    session.closes(&[5], 1);
    session.gets(&of(7, CHECK, &[6]), refuse(33, 1, 1));
    session.gets(&of(7, CHECK, &[5]), Reply::grant(1, 0, 2));
    session.gets(&of(7, WORK, &[5, 1]), refuse(33, 1, 1));
    session.gets(&of(8, WORK, &[5, 1]), Reply::grant(1, 0, 3));
    session.closes(&[5], 2);
    session.gets(&of(7, WORK, &[5, 1]), Reply::grant(1, 0, 2));
}

/// A record that several rules count is gone from all of them, whatever their levels, and is one record.
#[test]
fn counted_by_several_rules() {
    let marks: [&[Mark]; 4] = [
        &[],
        &[Mark::Each],
        &[Mark::Every, Mark::Each],
        &[Mark::Range(5, 9)],
    ];
    let mut session = under(marks.iter().map(|marks| apart(marks)).collect());
    session.gets(&of(7, WORK, &[5, 1]), Reply::grant(1, 0, 1));
    session.gets(&of(8, WORK, &[6, 1]), Reply::grant(1, 0, 2));
    session.gets(&of(7, CHECK, &[]), refuse(33, 1, 1));
    session.closes(&[5, 1], 1);
    session.gets(&of(7, CHECK, &[5, 1]), Reply::grant(1, 0, 2));
    session.gets(&of(8, CHECK, &[5, 1]), refuse(33, 1, 1));
    session.closes(&[6, 1], 1);
    session.gets(&of(8, CHECK, &[5, 1]), Reply::grant(1, 0, 2));
}

/// A deeper record goes, a shallower one stays, though all are of one run.
#[test]
fn above_and_below() {
    let mut session = under(vec![apart(&[Mark::Each])]);
    for (held, values) in [(1, &[5][..]), (2, &[5, 1]), (3, &[5, 1, 2]), (4, &[5, 2])] {
        session.gets(&of(held as u32, WORK, values), Reply::grant(1, 0, held));
    }
    session.closes(&[5, 1], 2);
    session.gets(&of(1, CHECK, &[5, 1]), refuse(33, 1, 1));
    session.gets(&of(4, CHECK, &[5, 1]), refuse(33, 1, 1));
    session.gets(&of(2, CHECK, &[5, 1]), Reply::grant(1, 0, 3));
    session.gets(&of(3, CHECK, &[5]), Reply::grant(1, 0, 4));
    session.closes(&[5, 1, 2], 0);
    session.closes(&[5, 1], 1);
    session.closes(&[5], 3);
}

/// "The rest keep their standing, even if the first step that opened their run is gone."
#[test]
fn the_first_step_is_gone() {
    let mut session = under(vec![opened(&[Mark::Each])]);
    session.gets(&of(7, BEGIN, &[5, 1]), Reply::grant(1, 0, 1));
    session.gets(&of(8, WORK, &[5, 2]), Reply::grant(1, 0, 2));
    session.closes(&[5, 1], 1);
    session.gets(&of(8, CHECK, &[5, 2]), refuse(33, 1, 1));
    session.gets(&of(8, CHECK, &[5, 1]), refuse(33, 1, 1));
    session.gets(&of(8, CHECK, &[5]), refuse(33, 1, 1));
    // "While that run has a request, later grants of its place join it", in the closed context too,
    session.gets(&of(9, WORK, &[5, 3]), Reply::grant(1, 0, 2));
    session.gets(&of(9, CHECK, &[5]), refuse(33, 1, 1));
    session.gets(&of(10, WORK, &[5, 1]), Reply::grant(1, 0, 3));
    session.gets(&of(10, CHECK, &[5, 2]), refuse(33, 1, 1));
    // no others,
    session.gets(&of(8, CHECK, &[6, 2]), Reply::grant(0, 0, 3));
    // "until a last step ends it".
    session.foresees(&of(11, CLOSE, &[5]), Reply::grant(0, 3, 0));
    session.gets(&of(11, CLOSE, &[5, 4]), Reply::grant(0, 3, 0));
    session.gets(&of(8, CHECK, &[5, 2]), Reply::grant(0, 0, 0));
    session.gets(&of(9, WORK, &[5, 3]), Reply::grant(0, 0, 0));
}

/// The one request that is left may have joined after the first step was gone, and keeps the run open
/// when the one before it goes too. A first step in it is a request like any other.
#[test]
fn handed_on() {
    let mut session = under(vec![opened(&[Mark::Each])]);
    session.gets(&of(7, BEGIN, &[5, 1]), Reply::grant(1, 0, 1));
    session.gets(&of(8, WORK, &[5, 2]), Reply::grant(1, 0, 2));
    session.closes(&[5, 1], 1);
    session.gets(&of(9, WORK, &[5, 3]), Reply::grant(1, 0, 2));
    session.closes(&[5, 2], 1);
    session.gets(&of(9, CHECK, &[5]), refuse(33, 1, 1));
    session.gets(&of(8, CHECK, &[5, 4]), Reply::grant(1, 0, 2));
    session.gets(&of(7, BEGIN, &[5, 1]), Reply::grant(1, 0, 3));
    session.closes(&[5, 1], 1);
    session.gets(&of(8, WORK, &[5, 2]), refuse(33, 1, 1));
    session.closes(&[5], 2);
    session.gets(&of(8, WORK, &[5, 2]), Reply::grant(0, 0, 0));
}

/// The first step is above the closed context and stays; so does the run.
#[test]
fn the_first_step_stays() {
    let mut session = under(vec![opened(&[Mark::Each])]);
    session.gets(&of(7, BEGIN, &[5]), Reply::grant(1, 0, 1));
    session.gets(&of(8, WORK, &[5, 2]), Reply::grant(1, 0, 2));
    session.closes(&[5, 2], 1);
    session.gets(&of(8, CHECK, &[5, 2]), Reply::grant(1, 0, 2));
    session.gets(&of(8, WORK, &[5, 2]), refuse(33, 1, 1));
}

/// "A closing that leaves a run no request ends it, as a last step does": its rule needs a first step
/// again.
#[test]
fn no_request_is_left() {
    let mut session = under(vec![opened(&[Mark::Each])]);
    session.gets(&of(7, BEGIN, &[5, 1]), Reply::grant(1, 0, 1));
    session.gets(&of(8, WORK, &[5, 1]), Reply::grant(1, 0, 2));
    session.closes(&[5, 1], 2);
    session.gets(&of(8, CHECK, &[5, 2]), Reply::grant(0, 0, 0));
    session.gets(&of(8, WORK, &[5, 2]), Reply::grant(0, 0, 0));
    session.gets(&of(7, CLOSE, &[5, 2]), Reply::grant(0, 0, 0));
    session.gets(&of(7, BEGIN, &[5, 2]), Reply::grant(1, 0, 1));
    session.gets(&of(8, WORK, &[5, 2]), Reply::grant(1, 0, 2));
    session.gets(&of(8, CHECK, &[5, 1]), refuse(33, 1, 1));
    // In two closings.
    session.closes(&[5, 1], 0);
    session.gets(&of(9, WORK, &[5, 1]), Reply::grant(1, 0, 3));
    session.closes(&[5, 2], 2);
    session.gets(&of(9, CHECK, &[5, 1]), refuse(33, 1, 1));
    session.closes(&[5, 1], 1);
    session.gets(&of(9, CHECK, &[5, 1]), Reply::grant(0, 0, 0));
    // Only in its own run place: another depot's run goes on.
    session.gets(&of(7, BEGIN, &[6]), Reply::grant(1, 0, 1));
    session.closes(&[5], 0);
    session.gets(&of(9, WORK, &[6, 1]), Reply::grant(1, 0, 2));
    session.gets(&of(9, CHECK, &[6]), refuse(33, 1, 1));
}

/// One closing ends the run of one rule, takes the first step from that of a second, and leaves a third
/// as it was.
#[test]
fn three_rules_at_once() {
    let each = Mark::Each;
    let mut session = under(vec![
        opened(&[each, each]),
        opened(&[each]),
        opened(&[Mark::Fixed(6)]),
    ]);
    session.gets(&of(7, BEGIN, &[5, 1]), Reply::grant(1, 0, 1));
    session.gets(&of(8, WORK, &[5, 2]), Reply::grant(1, 0, 2));
    session.gets(&of(7, BEGIN, &[6, 1]), Reply::grant(1, 0, 3));
    session.gets(&of(9, WORK, &[5, 1]), Reply::grant(1, 0, 4));
    session.closes(&[5, 1], 2);
    // Rule 1 is silent in job 1, rule 2 judges.
    session.gets(&of(8, CHECK, &[5, 1]), refuse(33, 2, 1));
    session.gets(&of(9, CHECK, &[5, 1]), Reply::grant(1, 0, 3));
    // It has the mark of rule 2 alone, which the last step of another job clears.
    session.gets(&of(7, CLOSE, &[5, 9]), Reply::grant(0, 2, 1));
    session.gets(&of(8, WORK, &[6, 1]), Reply::grant(1, 0, 2));
    session.gets(&of(8, CHECK, &[6, 1]), refuse(33, 1, 1));
    session.gets(&of(8, CHECK, &[6, 2]), refuse(33, 2, 1));
}

/// A run place of all depots, or of a range of them, loses one depot and keeps the others.
#[test]
fn one_depot_of_a_run() {
    for mark in [Mark::Every, Mark::Range(5, 9)] {
        let mut session = under(vec![opened(&[mark])]);
        session.gets(&of(7, BEGIN, &[5]), Reply::grant(1, 0, 1));
        session.gets(&of(8, WORK, &[6]), Reply::grant(1, 0, 2));
        session.gets(&of(9, WORK, &[7]), Reply::grant(1, 0, 3));
        session.closes(&[5], 1);
        session.gets(&of(8, CHECK, &[5]), refuse(33, 1, 1));
        session.closes(&[6], 1);
        session.gets(&of(8, CHECK, &[9]), Reply::grant(1, 0, 2));
        session.gets(&of(9, CHECK, &[5]), refuse(33, 1, 1));
        session.closes(&[9], 1);
        session.closes(&[7], 1);
        session.gets(&of(9, CHECK, &[5]), Reply::grant(0, 0, 0));
    }
}

/// Directly after a last step nothing is left to go, and what the last step left to other rules goes.
#[test]
fn after_a_last_step() {
    let ended = Rule {
        last: Some(CLOSE),
        ..apart(&[Mark::Each])
    };
    let mut session = under(vec![ended.clone()]);
    session.gets(&of(7, WORK, &[5, 1]), Reply::grant(1, 0, 1));
    session.gets(&of(8, CLOSE, &[5]), Reply::grant(0, 1, 0));
    session.closes(&[5], 0);
    session.gets(&of(7, CHECK, &[5]), Reply::grant(1, 0, 1));

    let mut session = under(vec![ended, apart(&[])]);
    session.gets(&of(7, WORK, &[5, 1]), Reply::grant(1, 0, 1));
    session.gets(&of(8, CLOSE, &[5]), Reply::grant(1, 0, 2));
    session.gets(&of(7, CHECK, &[5]), refuse(33, 2, 1));
    session.closes(&[5, 1], 1);
    session.gets(&of(7, CHECK, &[5]), Reply::grant(1, 0, 2));
    session.closes(&[5], 2);
    session.closes(&[5], 0);
}

/// A closing that removes nothing is accepted and alters nothing, however often it comes.
#[test]
fn nothing_to_remove() {
    let mut session = under(vec![opened(&[Mark::Each])]);
    for values in [&[][..], &[5], &[5, 1], &[5, 1, 1, 1]] {
        session.closes(values, 0);
    }
    session.gets(&of(7, BEGIN, &[5]), Reply::grant(1, 0, 1));
    let before = session.table.clone();
    for values in [&[6][..], &[5, 1], &[5, 1, 1], &[6, 5]] {
        session.closes(values, 0);
        assert_eq!(session.table, before);
    }
    session.gets(&of(8, WORK, &[5, 1]), Reply::grant(1, 0, 2));
    session.gets(&of(8, CHECK, &[5, 1]), refuse(33, 1, 1));
    // What is not recorded, as no rule counts it, is nothing to remove.
    session.gets(&of(8, WORK, &[6, 1]), Reply::grant(0, 0, 2));
    session.closes(&[6], 0);
    session.closes(&[], 2);
    session.closes(&[], 0);
}
