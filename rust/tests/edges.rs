//! Faults with the number and the places that document 01 gives them, one by one; and its edges.
//!
//! Here the expected answers are written down from the paper, so that engine and independent judges
//! cannot agree on a mistake.

#[path = "edges/closings.rs"]
mod closings;
mod independent;
#[path = "edges/ranges.rs"]
mod ranges;
mod support;

use hastovimen::raw;
use independent::images::*;
use independent::register::Register;
use independent::Reply;
use support::compare::Comparing;
use support::lent::Lent;
use support::plain;

fn refuse(number: usize, first: usize, second: usize) -> Reply {
    Reply::refuse(number, first, second)
}

fn privilege(operation: u16, target: u16) -> Privilege {
    Privilege { operation, target }
}

fn roles(m: usize, roles: &[u16]) -> Exclusion {
    let members = Members::Roles(roles.to_vec());
    Exclusion { m, members }
}

fn privileges(m: usize, privileges: &[Privilege]) -> Exclusion {
    let members = Members::Privileges(privileges.to_vec());
    Exclusion { m, members }
}

fn level(kind: u16, mark: Mark) -> Level {
    Level { kind, mark }
}

/// Two rules and two permission blocks: every field of the format is in use somewhere.
fn policy() -> Policy {
    let [one, two, three] = [privilege(1, 1), privilege(2, 1), privilege(3, 2)];
    let may = |role, privilege| Permission { role, privilege };
    Policy {
        rules: vec![
            Rule {
                levels: vec![
                    level(1, Mark::Fixed(9)),
                    level(2, Mark::Every),
                    level(3, Mark::Each),
                ],
                first: Some(one),
                last: Some(two),
                exclusions: vec![roles(2, &[1, 2, 32]), privileges(3, &[one, two, two])],
            },
            Rule {
                levels: vec![],
                first: None,
                last: None,
                exclusions: vec![privileges(2, &[three, three])],
            },
        ],
        permissions: vec![vec![may(1, one), may(2, two)], vec![may(32, three)]],
    }
}

fn request() -> Request {
    Request {
        user: 7,
        roles: 1,
        privilege: privilege(1, 1),
        context: vec![(1, 9), (2, 4), (3, 5), (4, 6)],
    }
}

/// Two blocks: fifteen records and two, all marked for both rules.
fn table(policy: &[u8]) -> Vec<u8> {
    let record = Record {
        request: request(),
        marks: 3,
    };
    write_table(sums(policy), &vec![record; 17], 2)
}

/// Writes bytes into an image and puts its checks right.
fn with(image: &[u8], changes: &[(usize, &[u8])]) -> Vec<u8> {
    let mut image = image.to_vec();
    for (at, bytes) in changes {
        image[*at..at + bytes.len()].copy_from_slice(bytes);
    }
    reseal(&mut image);
    image
}

const FIRST: usize = 0;
const SECOND: usize = 512;
const THIRD: usize = 1024;
const FOURTH: usize = 1536;

/// Asks all calls for the same answer to a policy.
fn policy_gets(comparing: &mut Comparing, policy: &[u8], expected: Reply) {
    let mut table = table(&write_policy(&self::policy()));
    assert_eq!(comparing.check_policy(policy), expected);
    if expected.is_refusal() {
        let request = write_request(&request());
        assert_eq!(comparing.check_table(policy, &table), expected);
        assert_eq!(comparing.fresh_table(policy, &mut table), expected);
        assert_eq!(comparing.preview(policy, &table, &request), expected);
        assert_eq!(comparing.decide(policy, &mut table, &request), expected);
        assert_eq!(comparing.close(policy, &mut table, &[0; 16]), expected);
    }
}

/// Asks the calls that read a table for the same answer.
fn table_gets(comparing: &mut Comparing, table: &[u8], expected: Reply) {
    let policy = write_policy(&policy());
    assert_eq!(comparing.check_table(&policy, table), expected);
    if expected.is_refusal() {
        // The table's numbers come before the request's.
        for request in [&write_request(&request())[..], &[]] {
            assert_eq!(comparing.preview(&policy, table, request), expected);
            let mut table = table.to_vec();
            assert_eq!(comparing.decide(&policy, &mut table, request), expected);
        }
        // And before those of a context: a good one, a bad one, one that is too short or too long.
        for context in [&[0; 16][..], &[0, 0, 1, 0].repeat(4), &[0; 15], &[1; 17]] {
            let mut table = table.to_vec();
            assert_eq!(comparing.close(&policy, &mut table, context), expected);
        }
    }
}

#[test]
fn policy_whole() {
    let mut comparing = Comparing::new();
    let good = write_policy(&policy());
    policy_gets(&mut comparing, &good, Reply::accept(2));
    for length in [0, 1, 511, 513, good.len() - 1] {
        policy_gets(&mut comparing, &good[..length], refuse(1, 0, 0));
    }
    let of_blocks = |blocks| Policy {
        rules: vec![],
        permissions: vec![vec![]; blocks],
    };
    for (blocks, expected) in [
        (1, Reply::accept(0)),
        (64, Reply::accept(0)),
        (65, refuse(1, 0, 0)),
    ] {
        policy_gets(&mut comparing, &write_policy(&of_blocks(blocks)), expected);
    }
}

#[test]
fn policy_blocks() {
    let mut comparing = Comparing::new();
    let good = write_policy(&policy());
    // 2: the check, of every block.
    for block in 0..4 {
        for at in [0, 100, 503, 504, 507, 508, 511] {
            let mut bad = good.clone();
            bad[512 * block + at] ^= 16;
            policy_gets(&mut comparing, &bad, refuse(2, block, 0));
        }
    }
    // 3: kind, number, total.
    for block in 0..4 {
        let at = 512 * block;
        for change in [
            (at, &[0][..]),
            (at, &[2]),
            (at, &[4]),
            (at + 1, &[1]),
            (at + 3, &[1]),
            (at + 4, &[9]),
            (at + 5, &[1]),
            (at + 6, &[5]),
            (at + 7, &[1]),
        ] {
            let bad = with(&good, &[change]);
            policy_gets(&mut comparing, &bad, refuse(3, block, 0));
        }
    }
    // 3: a rule after a permission block. It is the rule that is at fault.
    let mut blocks: Vec<&[u8]> = good.chunks(512).collect();
    blocks.swap(1, 2);
    let mixed = with(&blocks.concat(), &[(SECOND + 4, &[1]), (THIRD + 4, &[2])]);
    policy_gets(&mut comparing, &mixed, refuse(3, 2, 0));
    // 3: rule 33.
    let mut many = policy();
    many.rules = vec![many.rules[0].clone(); 32];
    policy_gets(&mut comparing, &write_policy(&many), Reply::accept(32));
    many.rules.push(many.rules[0].clone());
    policy_gets(&mut comparing, &write_policy(&many), refuse(3, 32, 0));
    many.permissions.clear();
    policy_gets(&mut comparing, &write_policy(&many), refuse(3, 32, 0));
}

#[test]
fn rules_outside_exclusions() {
    let mut comparing = Comparing::new();
    let good = write_policy(&policy());
    let in_first: &[(usize, &[u8])] = &[
        (8, &[5]),             // depth 5
        (8, &[4]),             // depth 4, but the fourth level is blank
        (8, &[2]),             // depth 2, but the third level is not blank
        (9, &[0]),             // no exclusion
        (9, &[9]),             // nine
        (10, &[2]),            // the flag of the first step
        (10, &[0]),            // not set, but not zero
        (11, &[255]),          // the flag of the last step
        (11, &[0]),            // not set, but not zero
        (12, &[1]),            // not named
        (15, &[1]),            // not named
        (16, &[0]),            // type 0
        (18, &[0]),            // mark 0
        (18, &[4]),            // a range from 9 to 0
        (18, &[5]),            // mark 5
        (18, &[2]),            // every, with a value
        (19, &[1]),            // zero
        (20, &[0]),            // fixed, value 0
        (22, &[1]),            // zero
        (23, &[1]),            // zero
        (26, &[1]),            // fixed, value 0
        (28, &[1]),            // every, with a value
        (36, &[1]),            // each, with a value
        (40, &[1]),            // past the depth
        (47, &[1]),            // past the depth
        (48, &[0]),            // first step, operation 0
        (50, &[0]),            // first step, target 0
        (52, &[0]),            // last step, operation 0
        (54, &[0]),            // last step, target 0
        (52, &[1]),            // first and last step are equal
        (344, &[1]),           // not named
        (503, &[1]),           // not named
        (8, &[4, 2, 1, 1, 1]), // several at once
    ];
    for &(at, bytes) in in_first {
        let bad = with(&good, &[(FIRST + at, bytes)]);
        policy_gets(&mut comparing, &bad, refuse(4, 0, 0));
    }
    for at in (12..56).chain(344..504) {
        // The second rule has no levels and no steps.
        let bad = with(&good, &[(SECOND + at, &[3])]);
        policy_gets(&mut comparing, &bad, refuse(4, 1, 0));
    }
    // 4 comes before 5, and block 0 before block 1.
    let bad = with(&good, &[(FIRST + 56, &[9]), (FIRST + 12, &[1])]);
    policy_gets(&mut comparing, &bad, refuse(4, 0, 0));
    let bad = with(&good, &[(SECOND + 12, &[1]), (FIRST + 56, &[9])]);
    policy_gets(&mut comparing, &bad, refuse(5, 0, 1));
    // Depth 4 passes; steps may have the operation or the target in common.
    let fine: &[&[(usize, &[u8])]] = &[
        &[(8, &[4]), (40, &[4, 0, 3])],
        &[(18, &[2, 0, 0, 0])],
        &[(52, &[1, 0, 2, 0])],
        &[(52, &[9, 0, 1, 0])],
    ];
    for changes in fine {
        policy_gets(&mut comparing, &with(&good, changes), Reply::accept(2));
    }
}

#[test]
fn exclusions() {
    let mut comparing = Comparing::new();
    let good = write_policy(&policy());
    // Exclusion x (from 1) of the first rule, which has two.
    let at = |x: usize| 56 + 36 * (x - 1);
    let bad: &[(usize, usize, &[u8])] = &[
        (1, 0, &[0]),        // kind 0
        (1, 0, &[3]),        // kind 3
        (1, 0, &[2]),        // roles read as privileges have target 0
        (1, 1, &[1]),        // m = 1
        (1, 1, &[0]),        // m = 0
        (1, 1, &[4]),        // m > n
        (1, 2, &[1]),        // n < m
        (1, 2, &[0]),        // n = 0
        (1, 2, &[9]),        // n = 9
        (1, 2, &[255]),      // n = 255
        (1, 2, &[4]),        // the fourth member is blank
        (1, 2, &[2]),        // the third is not
        (1, 3, &[1]),        // zero
        (1, 4, &[0]),        // role 0
        (1, 4, &[33]),       // role 33
        (1, 5, &[1]),        // role 257
        (1, 6, &[1]),        // zero
        (1, 7, &[1]),        // zero
        (1, 8, &[1]),        // role 1 twice
        (1, 12, &[2]),       // role 2 twice
        (1, 16, &[5]),       // past n
        (1, 35, &[1]),       // past n
        (2, 0, &[1]),        // privileges read as roles
        (2, 4, &[0]),        // operation 0
        (2, 6, &[0]),        // target 0
        (2, 14, &[0]),       // target 0 of the third
        (2, 16, &[1, 0, 1]), // past n
        (3, 0, &[1]),        // past the number
        (3, 35, &[1]),       // past the number
        (5, 17, &[1]),       // past the number
        (8, 35, &[1]),       // past the number
    ];
    for &(x, offset, bytes) in bad {
        let bad = with(&good, &[(FIRST + at(x) + offset, bytes)]);
        policy_gets(&mut comparing, &bad, refuse(5, 0, x));
        // With another fault behind it, the first is named.
        let worse = with(&bad, &[(FIRST + at(8) + 35, &[1]), (SECOND, &[0])]);
        policy_gets(&mut comparing, &worse, refuse(5, 0, x));
    }
    for x in 2..=8 {
        let bad = with(&good, &[(SECOND + at(x) + 3 * x, &[1])]);
        policy_gets(&mut comparing, &bad, refuse(5, 1, x));
    }
    // A privilege may be listed eight times; there may be eight exclusions of eight.
    let mut fine = policy();
    let eight = [1, 2, 3, 4, 5, 6, 31, 32];
    fine.rules[0].exclusions = vec![roles(8, &eight); 8];
    fine.rules[1].exclusions = vec![privileges(8, &[privilege(65535, 65535); 8]); 8];
    policy_gets(&mut comparing, &write_policy(&fine), Reply::accept(2));
}

#[test]
fn permissions() {
    let mut comparing = Comparing::new();
    let good = write_policy(&policy());
    let bad: &[(usize, &[u8], usize)] = &[
        (8, &[62], 0),  // 62 entries
        (8, &[61], 3),  // 61 entries, of which the third is blank
        (9, &[1], 0),   // 258 entries
        (10, &[1], 0),  // not named
        (15, &[1], 0),  // not named
        (8, &[1], 0),   // the second entry is not counted
        (8, &[0], 0),   // nor is the first
        (8, &[3], 3),   // the third is blank
        (32, &[1], 0),  // after the entries
        (503, &[1], 0), // after the entries
        (16, &[0], 1),  // role 0
        (16, &[33], 1), // role 33
        (17, &[1], 1),  // role 257
        (18, &[0], 1),  // operation 0
        (20, &[0], 1),  // target 0
        (22, &[1], 1),  // zero
        (23, &[1], 1),  // zero
        (24, &[0], 2),  // role 0 of the second
        (31, &[1], 2),  // zero of the second
    ];
    for &(at, bytes, entry) in bad {
        let bad = with(&good, &[(THIRD + at, bytes)]);
        policy_gets(&mut comparing, &bad, refuse(6, 2, entry));
        // What is outside the counted entries comes first; of 61 entries the last ends at 503.
        let worse = with(&bad, &[(THIRD + 503, &[1]), (FOURTH, &[0])]);
        let entry = if bytes == [61] { entry } else { 0 };
        policy_gets(&mut comparing, &worse, refuse(6, 2, entry));
    }
    let bad = with(&good, &[(THIRD + 16, &[0]), (THIRD + 24, &[0])]);
    policy_gets(&mut comparing, &bad, refuse(6, 2, 1));
    let bad = with(&good, &[(FOURTH + 16, &[0])]);
    policy_gets(&mut comparing, &bad, refuse(6, 3, 1));
    // 61 entries pass, the same one more than once too.
    let mut fine = policy();
    fine.permissions[1] = vec![fine.permissions[1][0]; 61];
    policy_gets(&mut comparing, &write_policy(&fine), Reply::accept(2));
}

#[test]
fn tables() {
    let mut comparing = Comparing::new();
    let policy = write_policy(&policy());
    let good = table(&policy);
    table_gets(&mut comparing, &good, Reply::accept(17));
    for length in [0, 1, 511, 513, 1023] {
        table_gets(&mut comparing, &good[..length], refuse(11, 0, 0));
    }
    for (blocks, expected) in [
        (1, Reply::accept(0)),
        (128, Reply::accept(0)),
        (129, refuse(11, 0, 0)),
    ] {
        let fresh = write_table(sums(&policy), &[], blocks);
        table_gets(&mut comparing, &fresh, expected);
        let mut buffer = vec![0xEE; 512 * blocks];
        let reply = comparing.fresh_table(&policy, &mut buffer);
        if expected.is_refusal() {
            assert_eq!(reply, expected);
        } else {
            assert_eq!((reply, buffer), (Reply::accept(15 * blocks), fresh));
        }
    }
    let record = |i: usize| 24 + 32 * (i - 1);
    let bad: &[(usize, &[u8], Reply)] = &[
        (0, &[1], refuse(13, 0, 0)),          // kind
        (3, &[1], refuse(13, 0, 0)),          // kind
        (4, &[1], refuse(13, 0, 0)),          // number
        (6, &[1], refuse(13, 0, 0)),          // total
        (8, &[16], refuse(13, 0, 0)),         // count
        (9, &[1], refuse(13, 0, 0)),          // count
        (10, &[1], refuse(13, 0, 0)),         // spare
        (15, &[1], refuse(13, 0, 0)),         // spare
        (8, &[14], refuse(13, 0, 0)),         // record 15 is then spare bytes
        (SECOND + 8, &[1], refuse(13, 1, 0)), // so is record 2 of the second block
        (SECOND + 8, &[3], refuse(15, 1, 3)), // the third is blank
        (SECOND + record(3), &[1], refuse(13, 1, 0)),
        (SECOND + 503, &[1], refuse(13, 1, 0)),
        (16, &[0xFF, 0xFF], refuse(14, 0, 0)), // stamp
        (23, &[0xFF, 0xFF], refuse(14, 0, 0)), // stamp
        (SECOND + 20, &[0xFF, 0xFF], refuse(14, 1, 0)),
        (record(1), &[0; 4], refuse(15, 0, 1)),        // user
        (record(2) + 4, &[0; 4], refuse(15, 0, 2)),    // roles
        (record(3) + 8, &[0; 2], refuse(15, 0, 3)),    // operation
        (record(4) + 10, &[0; 2], refuse(15, 0, 4)),   // target
        (record(5) + 12, &[0; 4], refuse(15, 0, 5)),   // a used level behind a blank one
        (record(6) + 24, &[0; 2], refuse(15, 0, 6)),   // type
        (record(7) + 26, &[0; 2], refuse(15, 0, 7)),   // value
        (record(8) + 28, &[0; 4], refuse(15, 0, 8)),   // no mark
        (record(9) + 28, &[4], refuse(15, 0, 9)),      // rule 3 is not there
        (record(10) + 31, &[128], refuse(15, 0, 10)),  // rule 32 is not there
        (record(11) + 14, &[8], refuse(15, 0, 11)),    // another value than the fixed one
        (record(12) + 12, &[9], refuse(15, 0, 12)),    // another type
        (record(13) + 20, &[0; 8], refuse(15, 0, 13)), // not deep enough
        (SECOND + record(2) + 28, &[0], refuse(15, 1, 2)),
    ];
    for &(at, bytes, expected) in bad {
        let bad = with(&good, &[(at, bytes)]);
        table_gets(&mut comparing, &bad, expected);
        let mut unsealed = bad;
        unsealed[(at / 512) * 512 + 511] ^= 1;
        table_gets(&mut comparing, &unsealed, refuse(12, at / 512, 0));
    }
    // Numbers within a block upwards, blocks in turn.
    let bad = with(&good, &[(16, &[0xFF, 0xFF]), (record(1), &[0; 4])]);
    table_gets(&mut comparing, &bad, refuse(14, 0, 0));
    let bad = with(&bad, &[(10, &[1])]);
    table_gets(&mut comparing, &bad, refuse(13, 0, 0));
    let bad = with(&good, &[(record(15), &[0; 4]), (SECOND, &[1])]);
    table_gets(&mut comparing, &bad, refuse(15, 0, 15));
    // A record without the mark of a rule that it does not fit is fine, whatever its context.
    let fine = with(&good, &[(record(5) + 14, &[8]), (record(5) + 28, &[2])]);
    table_gets(&mut comparing, &fine, Reply::accept(17));
}

#[test]
fn gaps() {
    let mut comparing = Comparing::new();
    let policy = write_policy(&policy());
    let record = Record {
        request: request(),
        marks: 2,
    };
    // Blocks of 15, 15, 1 and 0 records; then records are taken away from one block.
    let full = write_table(sums(&policy), &vec![record; 31], 4);
    table_gets(&mut comparing, &full, Reply::accept(31));
    let without = |block: usize, left: usize| {
        let from = 512 * block + 24 + 32 * left;
        let blank = vec![0; 512 * block + 504 - from];
        with(&full, &[(512 * block + 8, &[left as u8]), (from, &blank)])
    };
    for left in 0..15 {
        // The gap is the fault of the block that has records after it.
        table_gets(&mut comparing, &without(0, left), refuse(13, 1, 0));
        table_gets(&mut comparing, &without(1, left), refuse(13, 2, 0));
    }
    table_gets(&mut comparing, &without(2, 0), Reply::accept(30));
    // The block before it need not be the one that is not full.
    let mut far = without(1, 0);
    far.copy_within(SECOND..THIRD, 0);
    far[4] = 0;
    reseal(&mut far);
    table_gets(&mut comparing, &far, refuse(13, 2, 0));
}

#[test]
fn requests() {
    let mut comparing = Comparing::new();
    let policy = write_policy(&policy());
    let fresh = write_table(sums(&policy), &[], 1);
    let mut gets = |request: &[u8], expected: Reply| {
        assert_eq!(comparing.preview(&policy, &fresh, request), expected);
        let mut table = fresh.clone();
        assert_eq!(comparing.decide(&policy, &mut table, request), expected);
        let mut register = Register::new(&policy, 1);
        assert_eq!(register.answer(request), expected);
    };
    let good = write_request(&request());
    gets(&good, Reply::grant(1, 0, 1));
    for length in (0..28).chain(29..80) {
        gets(&[1; 80][..length], refuse(21, 0, 0));
    }
    // 21 even where there is a bad field too.
    gets(&[0; 27], refuse(21, 0, 0));
    let bad: &[(usize, &[u8])] = &[
        (0, &[0; 4]),  // user
        (4, &[0; 4]),  // roles
        (8, &[0; 2]),  // operation
        (10, &[0; 2]), // target
        (12, &[0; 4]), // a used level behind a blank one
        (16, &[0; 4]),
        (20, &[0; 4]),
        (12, &[0; 2]), // half a level
        (14, &[0; 2]),
        (24, &[0; 2]),
        (26, &[0; 2]),
        (12, &[0; 12]), // only the last level is used
    ];
    for (at, bytes) in bad {
        let mut request = good;
        request[*at..at + bytes.len()].copy_from_slice(bytes);
        gets(&request, refuse(22, 0, 0));
    }
    // Every shorter context is fine. The second rule fits all of them.
    for used in 0..4 {
        let mut request = good;
        request[12 + 4 * used..].fill(0);
        gets(&request, Reply::grant(1, 0, 1));
    }
    // Roles that the policy does not name do no harm.
    let mut request = good;
    request[4..8].copy_from_slice(&0xFFFF_FFFCu32.to_le_bytes());
    gets(&request, refuse(31, 0, 0));
}

/// A policy, its table from the fresh one on, and the register that goes along.
struct Session {
    comparing: Comparing,
    policy: Vec<u8>,
    table: Vec<u8>,
    register: Register,
}

impl Session {
    /// With a table of one block.
    fn new(policy: &Policy) -> Session {
        let policy = write_policy(policy);
        Session {
            comparing: Comparing::new(),
            table: write_table(sums(&policy), &[], 1),
            register: Register::new(&policy, 1),
            policy,
        }
    }

    /// A preview gets this answer, also where nothing may be written to.
    fn foresees(&mut self, request: &Request, expected: Reply) {
        let request = &write_request(request);
        let reply = self.comparing.preview(&self.policy, &self.table, request);
        let registered = self.register.preview(request);
        assert_eq!((reply, registered), (expected, expected));
        let [policy, table, request] =
            [&self.policy[..], &self.table, request].map(Lent::read_only);
        let reply = raw::preview(policy.bytes(), table.bytes(), request.bytes());
        assert_eq!(plain::preview(reply), expected);
    }

    /// A preview and then the decision get this answer; the table is the register's image.
    fn gets(&mut self, request: &Request, expected: Reply) {
        self.foresees(request, expected);
        let request = &write_request(request);
        let reply = (self.comparing).decide(&self.policy, &mut self.table, request);
        let registered = self.register.answer(request);
        assert_eq!((reply, registered), (expected, expected));
        assert_eq!(self.table, self.register.image());
    }

    /// A closing of these levels of depot, job and so on removes so many.
    fn closes(&mut self, values: &[u16], removed: usize) {
        let levels: Context = (1..).zip(values.iter().copied()).collect();
        self.closing_gets(&write_context(&levels), Reply::accept(removed));
    }

    /// A closing gets this answer; the table is the register's image.
    fn closing_gets(&mut self, context: &[u8], expected: Reply) {
        let reply = (self.comparing).close(&self.policy, &mut self.table, context);
        let registered = self.register.close(context);
        assert_eq!((reply, registered), (expected, expected));
        assert_eq!(self.table, self.register.image());
    }
}

/// "15 held in one block and a sixteenth request that would be marked and removes none gives 34, an
/// unmarked one is granted"; and fullness is tested after clearing.
#[test]
fn a_full_table() {
    let [work, close] = [privilege(1, 1), privilege(2, 1)];
    let unlikely = privileges(2, &[privilege(9, 9), privilege(9, 9)]);
    let rule = |levels, last| Rule {
        levels,
        first: None,
        last,
        exclusions: vec![unlikely.clone()],
    };
    let may = |privilege| Permission { role: 1, privilege };
    let mut session = Session::new(&Policy {
        rules: vec![
            rule(vec![level(1, Mark::Each)], Some(close)),
            rule(vec![level(1, Mark::Fixed(2))], None),
        ],
        permissions: vec![vec![may(work), may(close)]],
    });
    let request = |privilege, context: &[(u16, u16)]| Request {
        user: 7,
        roles: 1,
        privilege,
        context: context.to_vec(),
    };
    let mut gets = |request: Request, expected| session.gets(&request, expected);
    for held in 1..=15 {
        gets(request(work, &[(1, 1)]), Reply::grant(1, 0, held));
    }
    gets(request(work, &[(1, 1)]), refuse(34, 0, 0));
    gets(request(work, &[(1, 2)]), refuse(34, 0, 0));
    // No rule fits the whole business, so that nothing is recorded.
    gets(request(work, &[]), Reply::grant(0, 0, 15));
    // The last step at another place clears nothing, but rule 2 counts it.
    gets(request(close, &[(1, 2)]), refuse(34, 0, 0));
    // At its own place it clears all, and is marked for no other rule.
    gets(request(close, &[(1, 1)]), Reply::grant(0, 15, 0));
    // Place 2: rule 2 still counts what rule 1 has done with.
    for held in 1..=15 {
        gets(request(work, &[(1, 2)]), Reply::grant(1, 0, held));
    }
    gets(request(close, &[(1, 2)]), refuse(34, 0, 0));
}

/// A full table in which a marked last step makes its own place.
#[test]
fn full_until_cleared() {
    let [work, close] = [privilege(1, 1), privilege(2, 1)];
    let rule = |first, last| Rule {
        levels: vec![],
        first,
        last,
        exclusions: vec![roles(2, &[31, 32])],
    };
    let may = |privilege| Permission { role: 1, privilege };
    // The last step of rule 1 is the first of rule 2.
    let mut session = Session::new(&Policy {
        rules: vec![rule(None, Some(close)), rule(Some(close), None)],
        permissions: vec![vec![may(work), may(close)]],
    });
    let mut gets = |privilege, expected| session.gets(&of_the_business(privilege), expected);
    for held in 1..=15 {
        gets(work, Reply::grant(1, 0, held));
    }
    gets(work, refuse(34, 0, 0));
    gets(close, Reply::grant(1, 15, 1));
    // Now rule 2 counts all, and nothing is ever cleared.
    for held in 2..=15 {
        gets(work, Reply::grant(1, 0, held));
    }
    gets(close, refuse(34, 0, 0));
}

/// A request in the context of no level.
fn of_the_business(privilege: Privilege) -> Request {
    Request {
        user: 1,
        roles: 1,
        privilege,
        context: vec![],
    }
}

/// A previewed first step opens no run, and a previewed last step ends none.
#[test]
fn previewed_and_not_done() {
    let [begin, work, end] = [privilege(1, 1), privilege(2, 1), privilege(3, 1)];
    let may = |privilege| Permission { role: 1, privilege };
    let mut session = Session::new(&Policy {
        rules: vec![Rule {
            levels: vec![],
            first: Some(begin),
            last: Some(end),
            exclusions: vec![roles(2, &[31, 32])],
        }],
        permissions: vec![vec![may(begin), may(work), may(end)]],
    });
    let [begin, work, end] = [begin, work, end].map(of_the_business);
    session.foresees(&begin, Reply::grant(1, 0, 1));
    session.gets(&work, Reply::grant(0, 0, 0));
    session.gets(&begin, Reply::grant(1, 0, 1));
    session.foresees(&end, Reply::grant(0, 1, 0));
    session.gets(&work, Reply::grant(1, 0, 2));
    session.gets(&end, Reply::grant(0, 2, 0));
    session.gets(&work, Reply::grant(0, 0, 0));
}

// ---------------------------------------------------------------------------------------------
// How many blocks a decision writes

const WORK: Privilege = Privilege {
    operation: 1,
    target: 1,
};
const CLOSE: Privilege = Privilege {
    operation: 2,
    target: 1,
};
const BEGIN: Privilege = Privilege {
    operation: 3,
    target: 1,
};
const CHECK: Privilege = Privilege {
    operation: 4,
    target: 1,
};

/// Closing ends rule 1, in each depot by itself. Rule 2 counts for good what is done in a job.
fn depots() -> Vec<u8> {
    let rule = |levels, last| Rule {
        levels,
        first: None,
        last,
        exclusions: vec![roles(2, &[31, 32])],
    };
    let may = |privilege| Permission { role: 1, privilege };
    let (each, every) = (level(1, Mark::Each), level(1, Mark::Every));
    write_policy(&Policy {
        rules: vec![
            rule(vec![each], Some(CLOSE)),
            rule(vec![every, level(2, Mark::Every)], None),
        ],
        permissions: vec![vec![may(WORK), may(CLOSE)]],
    })
}

/// A request in these levels of depot and job.
fn of(user: u32, privilege: Privilege, values: &[u16]) -> Request {
    Request {
        user,
        roles: 1,
        privilege,
        context: (1..).zip(values.iter().copied()).collect(),
    }
}

/// Work in a job of a depot, as it stands in a table: with mark 1 it goes when its depot is closed,
/// with mark 2 it stays as it is, with both it stays and loses one.
fn work(user: u32, depot: u16, marks: u32) -> Record {
    Record {
        request: of(user, WORK, &[depot, 1]),
        marks,
    }
}

/// Puts a request to a table of these records: the answer, and how many blocks are written.
fn blocks_written(records: &[Record], blocks: usize, request: &Request) -> (Reply, usize) {
    let policy = depots();
    let mut table = write_table(sums(&policy), records, blocks);
    let mut comparing = Comparing::new();
    assert_eq!(
        comparing.check_table(&policy, &table),
        Reply::accept(records.len())
    );
    comparing.decide_guarded(&policy, &mut table, &write_request(request))
}

fn times(record: Record, times: usize) -> Vec<Record> {
    vec![record; times]
}

/// A request that is put behind alters one block, the first that has room; what is not recorded and
/// clears nothing alters none; nor does a refusal.
#[test]
fn blocks_of_a_request_put_behind() {
    let request = of(7, WORK, &[5, 1]);
    let other = work(8, 6, 3);
    for (held, blocks) in [(0, 1), (0, 128), (3, 4), (14, 1), (15, 2), (16, 2), (44, 3)] {
        let records = times(other.clone(), held);
        let grant = Reply::grant(1, 0, held + 1);
        assert_eq!(blocks_written(&records, blocks, &request), (grant, 1));
    }
    let full = times(other, 45);
    let gets = |request, reply, written| {
        assert_eq!(blocks_written(&full, 3, &request), (reply, written));
    };
    gets(request, refuse(34, 0, 0), 0);
    // No rule fits the whole business.
    gets(of(7, WORK, &[]), Reply::grant(0, 0, 45), 0);
    gets(of(7, privilege(9, 9), &[5, 1]), refuse(31, 0, 0), 0);
    // Depot 5 has nothing to be cleared.
    gets(of(7, CLOSE, &[5]), Reply::grant(0, 0, 45), 0);
    // Other refusals, from the request's length down to the policy's.
    let (policy, request) = (depots(), write_request(&of(7, WORK, &[5, 1])));
    let good = write_table(sums(&policy), &full, 4);
    let mut bad = good.clone();
    bad[THIRD + 24] ^= 1;
    let mut comparing = Comparing::new();
    let mut gets = |policy: &[u8], table: &[u8], request: &[u8], reply| {
        let got = comparing.decide_guarded(policy, &mut table.to_vec(), request);
        assert_eq!(got, (reply, 0));
    };
    gets(&policy, &good, &request[..27], refuse(21, 0, 0));
    gets(&policy, &good, &[0; 28], refuse(22, 0, 0));
    gets(&policy, &bad, &request, refuse(12, 2, 0));
    gets(&policy, &good[..2047], &request, refuse(11, 0, 0));
    gets(&policy[..511], &good, &request, refuse(1, 0, 0));
}

/// Depot 5 is closed, by a step that is not recorded: a block is written if some record of it loses a
/// mark, wherever it stands.
#[test]
fn blocks_of_marks_cleared() {
    let (stays, loses) = (work(7, 6, 3), work(7, 5, 3));
    let close = of(8, CLOSE, &[5]);
    // Which records of 60 in five blocks lose a mark; the fifth has none, and is never written.
    let gets = |losing: &dyn Fn(usize) -> bool, written| {
        let one = |i| if losing(i) { &loses } else { &stays };
        let records: Vec<Record> = (0..60).map(|i| one(i).clone()).collect();
        let expected = (Reply::grant(0, 0, 60), written);
        assert_eq!(blocks_written(&records, 5, &close), expected);
    };
    gets(&|_| false, 0);
    gets(&|i| i == 0, 1);
    gets(&|i| i == 14, 1);
    gets(&|i| i == 15, 1);
    gets(&|i| i == 59, 1);
    gets(&|i| i / 15 == 1, 1);
    gets(&|i| i == 0 || i == 59, 2);
    gets(&|i| i / 15 == 0 || i / 15 == 2, 2);
    gets(&|i| i % 15 == 7, 4);
    gets(&|_| true, 4);
}

/// Depot 5 is closed, by a step that is not recorded, and records go.
#[test]
fn blocks_of_records_removed() {
    let (goes, alike) = (work(7, 5, 1), work(7, 6, 3));
    let close = of(8, CLOSE, &[5]);
    let gets = |parts: &[&[Record]], removed, written| {
        let records = parts.concat();
        let grant = Reply::grant(0, removed, records.len() - removed);
        assert_eq!(blocks_written(&records, 128, &close), (grant, written));
    };
    let (one, many) = (&[goes.clone()][..], |n| times(alike.clone(), n));
    // The first goes, the rest are alike: the block it stood in, and the last, which has one less.
    gets(&[one, &many(44)], 1, 2);
    gets(&[one, &many(1_919)], 1, 2);
    // It stood at the end of the second block.
    gets(&[&many(29), one, &many(30)], 1, 2);
    // The last block has one record, which goes, or which is needed further to the front.
    gets(&[&many(30), one], 1, 1);
    gets(&[one, &many(30)], 1, 2);
    gets(&[one], 1, 1);
    // One in each block goes, and the rest are alike.
    gets(&[one, &many(14), one, &many(14), one, &many(14)], 3, 3);
    // 15 go: the first block gets what the second had, the last is emptied.
    gets(&[&times(goes.clone(), 15), &many(45)], 15, 2);
    // All of three blocks and one record of the fourth go.
    gets(&[&times(goes.clone(), 46), &many(14)], 46, 4);
    gets(&[&times(goes.clone(), 1_920)], 1_920, 128);
    // A mark is cleared in the second block, a record goes from the fourth.
    gets(&[&many(15), &[work(9, 5, 3)], &many(29), one], 1, 2);
    // Two kinds of record in turn, alike but for user or marks: one place further all differ, two
    // places further they are the same.
    for second in [work(9, 6, 3), work(7, 6, 2), work(7, 6, 1), work(7, 9, 3)] {
        let in_turn = vec![[alike.clone(), second]; 22].concat();
        gets(&[one, &in_turn[..44]], 1, 3);
        gets(&[&times(goes.clone(), 2), &in_turn[..43]], 2, 2);
    }
    // All behind it differ.
    let different: Vec<Record> = (1..=1_919).map(|user| work(user, 6, 3)).collect();
    gets(&[one, &different], 1, 128);
}

/// Depot 5 is closed by a step in a job, which rule 2 counts: it is put behind the others, perhaps as
/// just what stood there.
#[test]
fn blocks_of_a_last_step_put_behind() {
    let goes = |n| times(work(7, 5, 1), n);
    let close = of(8, CLOSE, &[5, 1]);
    let closed = |marks| Record {
        request: close.clone(),
        marks,
    };
    let gets = |parts: &[&[Record]], removed, written| {
        let records = parts.concat();
        let grant = Reply::grant(1, removed, records.len() - removed + 1);
        assert_eq!(blocks_written(&records, 4, &close), (grant, written));
    };
    let earlier = |n| times(closed(2), n);
    // Only the block that the record goes from: all others have what they had, the last one too.
    gets(&[&goes(1), &earlier(59)], 1, 1);
    gets(&[&goes(1), &earlier(30)], 1, 1);
    gets(&[&earlier(20), &goes(1), &earlier(20)], 1, 1);
    gets(&[&earlier(30), &goes(1)], 1, 1);
    // Sixteen go: the request comes to stand at the end of the third block, where it stood before.
    gets(&[&goes(16), &earlier(44)], 16, 3);
    // Earlier it was recorded with the mark that it now clears: all of these lose it.
    gets(&[&earlier(30), &times(closed(3), 15)], 0, 2);
    gets(&[&goes(1), &times(closed(3), 44)], 1, 3);
    // Behind others it alters the last block too.
    gets(&[&goes(1), &times(work(7, 6, 3), 44)], 1, 2);
    gets(&[&times(work(7, 6, 3), 45)], 0, 1);
}
