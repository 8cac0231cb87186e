//! Ranges of values, mark 4: faults of a level, which contexts and records fit, which run places they
//! share. All of it is written down from document 02's W4.

use super::*;

/// [`policy`], the first level of which is now a range.
fn northern() -> Policy {
    let mut policy = policy();
    policy.rules[0].levels[0].mark = Mark::Range(100, 199);
    policy
}

/// Low and high as they stand in bytes 4 to 7 of a level.
fn ends(low: u16, high: u16) -> [u8; 4] {
    let ([a, b], [c, d]) = (low.to_le_bytes(), high.to_le_bytes());
    [a, b, c, d]
}

/// What is wrong or fine with a range wherever it stands.
const BAD_ENDS: [(u16, u16); 12] = [
    (0, 0),
    (0, 1),
    (0, 199),
    (0, 65535),
    (1, 0),
    (100, 0),
    (100, 99),
    (200, 199),
    (256, 255),
    (511, 510),
    (65535, 1),
    (65535, 65534),
];
const GOOD_ENDS: [(u16, u16); 10] = [
    (1, 1),
    (1, 2),
    (1, 65535),
    (100, 100),
    (100, 101),
    (199, 199),
    (255, 256),
    (2, 257),
    (65534, 65535),
    (65535, 65535),
];

#[test]
fn ends_of_a_range() {
    let mut comparing = Comparing::new();
    let mut all = northern();
    all.rules[1].levels = (1..=4).map(|kind| level(kind, Mark::Range(5, 6))).collect();
    let good = write_policy(&all);
    policy_gets(&mut comparing, &good, Reply::accept(2));
    let levels = [(0, 0), (1, 0), (1, 1), (1, 2), (1, 3)];
    for (rule, i) in levels {
        let at = 512 * rule + 16 + 8 * i + 4;
        for (low, high) in GOOD_ENDS {
            let fine = with(&good, &[(at, &ends(low, high))]);
            policy_gets(&mut comparing, &fine, Reply::accept(2));
        }
        for (low, high) in BAD_ENDS {
            let bad = with(&good, &[(at, &ends(low, high))]);
            policy_gets(&mut comparing, &bad, refuse(4, rule, 0));
        }
    }
}

#[test]
fn other_bytes_of_a_range() {
    let mut comparing = Comparing::new();
    let good = write_policy(&northern());
    assert_eq!(good[16..24], [1, 0, 4, 0, 100, 0, 199, 0]);
    let bad: &[(usize, &[u8])] = &[
        (16, &[0, 0]),                   // type 0
        (18, &[0]),                      // mark 0
        (18, &[5]),                      // mark 5
        (18, &[255]),                    // mark 255
        (18, &[1]),                      // fixed, with a high
        (18, &[2]),                      // every, with a low and a high
        (18, &[3]),                      // each, with a low and a high
        (19, &[1]),                      // zero
        (19, &[128]),                    // zero
        (18, &[2, 0, 0, 0]),             // every, with a high
        (18, &[3, 0, 0, 0]),             // each, with a high
        (40, &[4, 0, 4, 0, 5, 0, 6, 0]), // past the depth
        (40, &[4, 0, 4, 0, 5, 0, 5, 0]), // past the depth
        (42, &[4]),                      // past the depth
        (46, &[1]),                      // past the depth
        (8, &[4]),                       // depth 4, but the fourth level is blank
        (8, &[0]),                       // depth 0, but there is a range
    ];
    for &change in bad {
        policy_gets(&mut comparing, &with(&good, &[change]), refuse(4, 0, 0));
    }
    let fine: &[(usize, &[u8])] = &[
        (16, &[255, 255]),                   // type 65535
        (18, &[1, 0, 100, 0, 0, 0]),         // fixed
        (18, &[2, 0, 0, 0, 0, 0]),           // every
        (18, &[3, 0, 0, 0, 0, 0]),           // each
        (24, &[1, 0, 4, 0, 100, 0, 199, 0]), // the same once more, at the second level
    ];
    for &change in fine {
        policy_gets(&mut comparing, &with(&good, &[change]), Reply::accept(2));
    }
    let fourth: [(usize, &[u8]); 2] = [(8, &[4]), (40, &[4, 0, 4, 0, 5, 0, 6, 0])];
    policy_gets(&mut comparing, &with(&good, &fourth), Reply::accept(2));
}

/// "With marks 1 to 3 the last two bytes stay zero."
#[test]
fn high_of_other_marks() {
    let mut comparing = Comparing::new();
    // The levels are fixed at 9, every and each.
    let good = write_policy(&policy());
    for level in [16, 24, 32] {
        for high in [1, 8, 9, 10, 128, 255, 256, 0x0900, 0x8000, 0xFF00, 65535u16] {
            let bad = with(&good, &[(level + 6, &high.to_le_bytes())]);
            policy_gets(&mut comparing, &bad, refuse(4, 0, 0));
        }
    }
}

#[test]
fn which_fault_is_first() {
    let mut comparing = Comparing::new();
    let good = write_policy(&northern());
    let mut gets = |image: &[u8], expected| policy_gets(&mut comparing, image, expected);
    let low_0: (usize, &[u8]) = (20, &[0]);
    let bad_check = |image: &[u8], block: usize| {
        let mut image = image.to_vec();
        image[512 * block + 504] ^= 1;
        image
    };
    // 2 before 4, and before 2 the length.
    let bad = with(&good, &[low_0]);
    gets(&bad, refuse(4, 0, 0));
    gets(&bad_check(&bad, 0), refuse(2, 0, 0));
    gets(&bad[..bad.len() - 1], refuse(1, 0, 0));
    // A later block's check comes after it.
    gets(&bad_check(&bad, 1), refuse(4, 0, 0));
    // 3 before 4, 4 before 5.
    gets(&with(&bad, &[(4, &[1])]), refuse(3, 0, 0));
    gets(&with(&bad, &[(56, &[9])]), refuse(4, 0, 0));
    gets(&with(&good, &[(56, &[9])]), refuse(5, 0, 1));
    // Blocks in turn.
    let second: [(usize, &[u8]); 2] = [(SECOND + 8, &[1]), (SECOND + 16, &[1, 0, 4, 0, 2, 0, 1])];
    let bad = with(&good, &second);
    gets(&bad, refuse(4, 1, 0));
    gets(&with(&bad, &[(56 + 36, &[9])]), refuse(5, 0, 2));
    gets(&with(&bad, &[(THIRD + 8, &[62])]), refuse(4, 1, 0));
    gets(&with(&bad, &[low_0]), refuse(4, 0, 0));
    let fine = with(&bad, &[(SECOND + 22, &[2])]);
    gets(&fine, Reply::accept(2));
}

// ---------------------------------------------------------------------------------------------
// Which contexts fit

/// A rule over these levels, in the order of the types, that keeps working and checking apart.
fn apart(marks: &[Mark]) -> Rule {
    Rule {
        levels: (1..).zip(marks).map(|(i, &mark)| level(i, mark)).collect(),
        first: None,
        last: None,
        exclusions: vec![privileges(2, &[WORK, CHECK]), roles(2, &[1, 2])],
    }
}

/// Roles 1 and 2 may do all that there is.
fn of_rules(rules: Vec<Rule>) -> Policy {
    let all = [WORK, CLOSE, BEGIN, CHECK];
    let may = |role| all.map(|privilege| Permission { role, privilege }).to_vec();
    Policy {
        rules,
        permissions: vec![may(1), may(2)],
    }
}

/// Low and high of the range at a level (from 0).
const ENDS: [(u16, u16); 4] = [(100, 199), (1, 7), (9, 9), (500, 65535)];

/// A context within all four, and where else it can be moved at one level: there it still fits, or not.
const WITHIN: [u16; 4] = [150, 4, 9, 600];
const STAYS: [&[u16]; 4] = [&[100, 101, 199], &[1, 7], &[9], &[500, 65535]];
const LEAVES: [&[u16]; 4] = [
    &[1, 99, 200, 356, 0x9664, 65535],
    &[8, 257, 65535],
    &[8, 10, 0x0900],
    &[1, 499],
];

/// A rule with ranges at these levels, every value at the others, as deep as the last.
fn ranges_at(levels: &[usize]) -> Rule {
    let depth = levels.iter().max().unwrap() + 1;
    let mark = |i| {
        if levels.contains(&i) {
            Mark::Range(ENDS[i].0, ENDS[i].1)
        } else {
            Mark::Every
        }
    };
    apart(&(0..depth).map(mark).collect::<Vec<_>>())
}

const PLACES: [&[usize]; 8] = [
    &[0],
    &[1],
    &[3],
    &[0, 1],
    &[1, 2],
    &[0, 3],
    &[0, 1, 3],
    &[0, 1, 2, 3],
];

/// All contexts as deep as these levels ask for, and whether they fit ranges there.
fn moved(levels: &[usize]) -> Vec<(Context, bool)> {
    let depth = levels.iter().max().unwrap() + 1;
    let within: Context = (1..).zip(WITHIN).take(depth).collect();
    let mut all = vec![(within.clone(), true)];
    let mut add = |i: usize, level, fits| {
        let mut context = within.clone();
        context[i] = level;
        all.push((context, fits));
    };
    for i in 0..depth {
        let kind = i as u16 + 1;
        // Where there is no range every value will do.
        let any = !levels.contains(&i);
        STAYS[i]
            .iter()
            .for_each(|&value| add(i, (kind, value), true));
        LEAVES[i]
            .iter()
            .for_each(|&value| add(i, (kind, value), any));
        add(i, (kind + 5, WITHIN[i]), false);
        add(i, (kind << 8, WITHIN[i]), false);
    }
    // Not deep enough, and deeper.
    all.push((within[..depth - 1].to_vec(), false));
    if depth < 4 {
        all.push(([&within[..], &[(9, 1)]].concat(), true));
    }
    all
}

/// What fits is recorded, what does not is not.
#[test]
fn contexts() {
    for levels in PLACES {
        for (context, fits) in moved(levels) {
            let mut session = Session::new(&of_rules(vec![ranges_at(levels)]));
            let request = Request {
                context,
                ..of(7, WORK, &[])
            };
            let recorded = usize::from(fits);
            session.gets(&request, Reply::grant(recorded, 0, recorded));
            session.gets(&request, Reply::grant(recorded, 0, 2 * recorded));
            // Who has worked there may not check there.
            let check = Request {
                privilege: CHECK,
                ..request
            };
            let expected = if fits {
                refuse(33, 1, 1)
            } else {
                Reply::grant(0, 0, 0)
            };
            session.gets(&check, expected);
        }
    }
}

/// Asks the calls that read a table for the same answer.
fn records_get(comparing: &mut Comparing, policy: &[u8], records: &[Record], expected: Reply) {
    let mut table = write_table(sums(policy), records, 3);
    assert_eq!(comparing.check_table(policy, &table), expected);
    if expected.is_refusal() {
        let request = write_request(&of(7, WORK, &[150]));
        assert_eq!(comparing.preview(policy, &table, &request), expected);
        assert_eq!(comparing.decide(policy, &mut table, &request), expected);
    }
}

/// A record marked for a rule that it does not fit is refused with its block and its place there,
/// whatever else it is marked for. Rules 2 and 4 have the ranges, the others fit everything.
#[test]
fn records() {
    let mut comparing = Comparing::new();
    for levels in PLACES {
        let (all, ranged) = (apart(&[]), ranges_at(levels));
        let rules = vec![all.clone(), ranged.clone(), all, ranged];
        let policy = write_policy(&of_rules(rules));
        let record = |context: &Context, marks| Record {
            request: Request {
                context: context.clone(),
                ..of(7, WORK, &[])
            },
            marks,
        };
        let contexts = moved(levels);
        let good = record(&contexts[0].0, 15);
        for (context, fits) in &contexts {
            for (place, block, number) in [(0, 0, 1), (14, 0, 15), (15, 1, 1), (31, 2, 2)] {
                let mut gets = times(good.clone(), 33);
                for marks in 1..16 {
                    let expected = if *fits || marks & 10 == 0 {
                        Reply::accept(33)
                    } else {
                        refuse(15, block, number)
                    };
                    gets[place] = record(context, marks);
                    records_get(&mut comparing, &policy, &gets, expected);
                }
            }
        }
    }
}

/// A record marked for two rules, one of a range and one of a value.
#[test]
fn records_of_two_rules() {
    let marks = [Mark::Range(100, 199), Mark::Fixed(199), Mark::Fixed(200)];
    let rules = marks.iter().map(|&mark| apart(&[mark])).collect();
    let policy = write_policy(&of_rules(rules));
    let mut comparing = Comparing::new();
    let mut gets = |depot, marks, expected| {
        let record = Record {
            request: of(7, WORK, &[depot]),
            marks,
        };
        records_get(&mut comparing, &policy, &[record], expected);
    };
    let (good, bad) = (Reply::accept(1), refuse(15, 0, 1));
    // The rule of the range alone, that of 199, that of 200, two of them, all.
    for (depot, expected) in [
        (99, [bad, bad, bad, bad, bad, bad]),
        (100, [good, bad, bad, bad, bad, bad]),
        (198, [good, bad, bad, bad, bad, bad]),
        (199, [good, good, bad, good, bad, bad]),
        (200, [bad, bad, good, bad, bad, bad]),
        (201, [bad, bad, bad, bad, bad, bad]),
    ] {
        for (marks, expected) in [1, 2, 4, 3, 5, 7].into_iter().zip(expected) {
            gets(depot, marks, expected);
        }
    }
}

// ---------------------------------------------------------------------------------------------
// Run places

const NORTH: Mark = Mark::Range(100, 199);

/// A session under rules that keep working and checking apart, one for each list of marks.
fn under(rules: &[&[Mark]]) -> Session {
    Session::new(&of_rules(rules.iter().map(|marks| apart(marks)).collect()))
}

/// "All values in the range share a run place."
#[test]
fn a_shared_run_place() {
    for (mark, shared) in [(NORTH, true), (Mark::Every, true), (Mark::Each, false)] {
        for (one, other) in [(100, 199), (199, 100), (100, 101), (150, 198)] {
            let mut session = under(&[&[mark]]);
            session.gets(&of(7, WORK, &[one]), Reply::grant(1, 0, 1));
            session.foresees(&of(7, CHECK, &[one]), refuse(33, 1, 1));
            let expected = |number, exclusion| {
                if shared {
                    refuse(number, 1, exclusion)
                } else {
                    Reply::grant(1, 0, 2)
                }
            };
            session.foresees(&of(7, CHECK, &[other]), expected(33, 1));
            let in_role_2 = Request {
                roles: 2,
                ..of(7, WORK, &[other])
            };
            session.gets(&in_role_2, expected(32, 2));
        }
    }
}

/// Past the ends another's place is no part of it; another user is not counted.
#[test]
fn outside_the_run_place() {
    let mut session = under(&[&[NORTH]]);
    session.gets(&of(7, WORK, &[100]), Reply::grant(1, 0, 1));
    for outside in [1, 99, 200, 65535] {
        session.gets(&of(7, CHECK, &[outside]), Reply::grant(0, 0, 1));
    }
    session.gets(&of(7, CHECK, &[]), Reply::grant(0, 0, 1));
    session.gets(&of(8, CHECK, &[199]), Reply::grant(1, 0, 2));
    session.gets(&of(8, WORK, &[100]), refuse(33, 1, 1));
}

/// A range beside mark 3: jobs are told apart, the depots of one are not, nor are levels below.
#[test]
fn a_range_beside_each() {
    let mut session = under(&[&[NORTH, Mark::Each]]);
    session.gets(&of(7, WORK, &[100, 5]), Reply::grant(1, 0, 1));
    session.gets(&of(7, CHECK, &[199, 5]), refuse(33, 1, 1));
    session.gets(&of(7, CHECK, &[150, 5, 3]), refuse(33, 1, 1));
    session.gets(&of(7, CHECK, &[200, 5]), Reply::grant(0, 0, 1));
    session.gets(&of(7, CHECK, &[100, 6]), Reply::grant(1, 0, 2));
    session.gets(&of(7, WORK, &[199, 6]), refuse(33, 1, 1));

    let mut session = under(&[&[Mark::Each, Mark::Range(5, 6)]]);
    session.gets(&of(7, WORK, &[100, 5]), Reply::grant(1, 0, 1));
    session.gets(&of(7, CHECK, &[100, 6]), refuse(33, 1, 1));
    session.gets(&of(7, CHECK, &[101, 6]), Reply::grant(1, 0, 2));
    session.gets(&of(7, CHECK, &[100, 7]), Reply::grant(0, 0, 2));
    session.gets(&of(7, CHECK, &[100, 4]), Reply::grant(0, 0, 2));

    let mut session = under(&[&[NORTH, Mark::Range(5, 6), Mark::Fixed(9), Mark::Every]]);
    session.gets(&of(7, WORK, &[100, 5, 9, 1]), Reply::grant(1, 0, 1));
    session.gets(&of(7, CHECK, &[199, 6, 9, 2]), refuse(33, 1, 1));
    session.gets(&of(7, CHECK, &[199, 6, 8, 2]), Reply::grant(0, 0, 1));
    session.gets(&of(7, CHECK, &[199, 7, 9, 2]), Reply::grant(0, 0, 1));
}

/// A session under a rule with this mark and both steps.
fn with_steps(mark: Mark) -> Session {
    Session::new(&of_rules(vec![Rule {
        first: Some(BEGIN),
        last: Some(CLOSE),
        ..apart(&[mark])
    }]))
}

/// A first step at one value opens the run for all of the range, a last step ends it for all.
#[test]
fn steps_at_two_values() {
    let mut session = with_steps(NORTH);
    session.gets(&of(7, WORK, &[100]), Reply::grant(0, 0, 0));
    session.gets(&of(7, BEGIN, &[99]), Reply::grant(0, 0, 0));
    session.gets(&of(7, BEGIN, &[200]), Reply::grant(0, 0, 0));
    session.gets(&of(7, WORK, &[150]), Reply::grant(0, 0, 0));
    session.gets(&of(7, BEGIN, &[100]), Reply::grant(1, 0, 1));
    session.gets(&of(8, WORK, &[199]), Reply::grant(1, 0, 2));
    session.gets(&of(8, CHECK, &[150]), refuse(33, 1, 1));
    session.gets(&of(8, CHECK, &[200]), Reply::grant(0, 0, 2));
    session.gets(&of(7, CLOSE, &[99]), Reply::grant(0, 0, 2));
    session.gets(&of(7, CLOSE, &[200]), Reply::grant(0, 0, 2));
    session.gets(&of(7, CLOSE, &[150]), Reply::grant(0, 2, 0));
    session.gets(&of(8, CHECK, &[199]), Reply::grant(0, 0, 0));
    // So it is where the range has one value; with mark 3 each value has its own run.
    let mut session = with_steps(Mark::Range(100, 100));
    session.gets(&of(7, BEGIN, &[100]), Reply::grant(1, 0, 1));
    session.gets(&of(7, WORK, &[101]), Reply::grant(0, 0, 1));
    session.gets(&of(7, CLOSE, &[101]), Reply::grant(0, 0, 1));
    session.gets(&of(7, CLOSE, &[100]), Reply::grant(0, 1, 0));
    let mut session = with_steps(Mark::Each);
    session.gets(&of(7, BEGIN, &[100]), Reply::grant(1, 0, 1));
    session.gets(&of(7, WORK, &[199]), Reply::grant(0, 0, 1));
    session.gets(&of(7, CLOSE, &[199]), Reply::grant(0, 0, 1));
    session.gets(&of(7, CLOSE, &[100]), Reply::grant(0, 1, 0));
}

/// A previewed step at another value opens nothing and ends nothing.
#[test]
fn previewed_at_two_values() {
    let mut session = with_steps(NORTH);
    session.foresees(&of(7, BEGIN, &[100]), Reply::grant(1, 0, 1));
    session.gets(&of(7, WORK, &[199]), Reply::grant(0, 0, 0));
    session.gets(&of(7, BEGIN, &[199]), Reply::grant(1, 0, 1));
    session.foresees(&of(7, CLOSE, &[100]), Reply::grant(0, 1, 0));
    session.gets(&of(7, WORK, &[100]), Reply::grant(1, 0, 2));
    session.gets(&of(7, CLOSE, &[101]), Reply::grant(0, 2, 0));
}

// ---------------------------------------------------------------------------------------------
// Two ranges

/// Ranges that overlap, touch in one value, lie side by side, nest: who has worked at the one value may
/// not check at the other just where both lie in one range.
#[test]
fn two_ranges() {
    let gets = |first: (u16, u16), second: (u16, u16), worked, checked, expected: Reply| {
        let [first, second] = [first, second].map(|(low, high)| [Mark::Range(low, high)]);
        let mut session = under(&[&first, &second]);
        session.gets(&of(7, WORK, &[worked]), Reply::grant(1, 0, 1));
        session.gets(&of(7, CHECK, &[checked]), expected);
    };
    let granted = Reply::grant(1, 0, 2);
    // They overlap from 150 to 199.
    let (one, other) = ((100, 199), (150, 250));
    gets(one, other, 100, 199, refuse(33, 1, 1));
    gets(one, other, 100, 200, granted);
    gets(one, other, 149, 150, refuse(33, 1, 1));
    gets(one, other, 150, 250, refuse(33, 2, 1));
    gets(one, other, 199, 150, refuse(33, 1, 1));
    gets(one, other, 200, 149, granted);
    gets(one, other, 200, 150, refuse(33, 2, 1));
    gets(one, other, 150, 251, Reply::grant(0, 0, 1));
    // They have 150 in common.
    let (one, other) = ((100, 150), (150, 199));
    gets(one, other, 100, 150, refuse(33, 1, 1));
    gets(one, other, 199, 150, refuse(33, 2, 1));
    gets(one, other, 150, 150, refuse(33, 1, 1));
    gets(one, other, 149, 151, granted);
    // They lie side by side.
    let (one, other) = ((100, 149), (150, 199));
    gets(one, other, 149, 150, granted);
    gets(one, other, 150, 149, granted);
    gets(one, other, 100, 149, refuse(33, 1, 1));
    gets(one, other, 199, 150, refuse(33, 2, 1));
    // One lies in the other.
    for (one, other, inner) in [((140, 160), (100, 199), 1), ((100, 199), (140, 160), 2)] {
        let outer = 3 - inner;
        gets(one, other, 140, 160, refuse(33, 1, 1));
        gets(one, other, 139, 160, refuse(33, outer, 1));
        gets(one, other, 140, 161, refuse(33, outer, 1));
        gets(one, other, 100, 199, refuse(33, outer, 1));
        gets(one, other, 150, 200, Reply::grant(0, 0, 1));
    }
    // One is the other's end.
    gets((100, 100), (100, 199), 100, 101, refuse(33, 2, 1));
    gets((199, 199), (100, 199), 199, 199, refuse(33, 1, 1));
    gets((1, 65535), (100, 100), 1, 65535, refuse(33, 1, 1));
}

/// A last step that two overlapping rules share ends the one that it fits; the other's marks stay.
#[test]
fn a_last_step_of_one_range() {
    let rule = |low, high| Rule {
        last: Some(CLOSE),
        ..apart(&[Mark::Range(low, high)])
    };
    let session = || {
        let mut session = Session::new(&of_rules(vec![rule(100, 199), rule(150, 250)]));
        for (held, depot) in [(1, 100), (2, 150), (3, 199), (4, 200)] {
            session.gets(&of(7, WORK, &[depot]), Reply::grant(1, 0, held));
        }
        session
    };
    session().gets(&of(8, CLOSE, &[99]), Reply::grant(0, 0, 4));
    session().gets(&of(8, CLOSE, &[149]), Reply::grant(0, 1, 3));
    session().gets(&of(8, CLOSE, &[150]), Reply::grant(0, 4, 0));
    session().gets(&of(8, CLOSE, &[200]), Reply::grant(0, 1, 3));
    session().gets(&of(8, CLOSE, &[251]), Reply::grant(0, 0, 4));
    // First the one, then the other.
    let mut session = session();
    session.gets(&of(8, CLOSE, &[100]), Reply::grant(0, 1, 3));
    session.gets(&of(7, CHECK, &[100]), Reply::grant(1, 0, 4));
    session.gets(&of(7, CHECK, &[150]), refuse(33, 2, 1));
    session.gets(&of(8, CLOSE, &[250]), Reply::grant(0, 3, 1));
}

/// A full table of records at two values of a range: a last step at a third makes room.
#[test]
fn a_full_table_of_a_range() {
    let mut session = Session::new(&of_rules(vec![
        Rule {
            last: Some(CLOSE),
            ..apart(&[NORTH])
        },
        apart(&[Mark::Fixed(150)]),
    ]));
    for held in 1..=15 {
        let depot = if held % 2 == 0 { 100 } else { 199 };
        session.gets(&of(7, WORK, &[depot]), Reply::grant(1, 0, held));
    }
    session.gets(&of(8, WORK, &[101]), refuse(34, 0, 0));
    session.gets(&of(8, WORK, &[200]), Reply::grant(0, 0, 15));
    session.gets(&of(8, CLOSE, &[200]), Reply::grant(0, 0, 15));
    session.gets(&of(8, CLOSE, &[150]), Reply::grant(1, 15, 1));
}
