//! The judge on the bytes themselves: nothing is allocated or copied, a table is altered in place.
//!
//! This is what somebody writes who knows document 01 and wants it to be quick. It has its own
//! reading of every field and uses nothing of [`super::images`] or [`super::judge`].
//!
//! A record is taken as eight words: user, roles, privilege (operation in the low half, target in
//! the high one), four levels (type low, value high), marks. Sets of rules are words too, rule r
//! at bit r - 1, so that most questions are asked of all 32 rules at once.

use super::{refuse_unless, Answer, Reply};

type Block = [u8; 512];
type Context = [u32; 4];

const RECORDS_PER_BLOCK: usize = 15;

// ---------------------------------------------------------------------------------------------
// The entry points

pub fn check_policy(policy: &[u8]) -> Reply {
    match read_policy(policy) {
        Ok(policy) => Reply::accept(policy.rules),
        Err(refusal) => refusal,
    }
}

pub fn check_table(policy: &[u8], table: &[u8]) -> Reply {
    match read_policy(policy).and_then(|policy| count_records(&policy, table)) {
        Ok(records) => Reply::accept(records),
        Err(refusal) => refusal,
    }
}

pub fn fresh_table(policy: &[u8], table: &mut [u8]) -> Reply {
    match read_policy(policy).and_then(|policy| make_fresh(&policy, table)) {
        Ok(places) => Reply::accept(places),
        Err(refusal) => refusal,
    }
}

pub fn decide(policy: &[u8], table: &mut [u8], request: &[u8]) -> Reply {
    decide_counting(policy, table, request).0
}

/// A decision, and how many blocks it has written.
pub fn decide_counting(policy: &[u8], table: &mut [u8], request: &[u8]) -> (Reply, u32) {
    match decided(policy, table, request) {
        Ok(granted) => granted,
        Err(refusal) => (refusal, 0),
    }
}

pub fn close(policy: &[u8], table: &mut [u8], context: &[u8]) -> Reply {
    close_counting(policy, table, context).0
}

/// A closing, and how many blocks it has written.
pub fn close_counting(policy: &[u8], table: &mut [u8], context: &[u8]) -> (Reply, u32) {
    match closed(policy, table, context) {
        Ok(removed) => removed,
        Err(refusal) => (refusal, 0),
    }
}

pub fn preview(policy: &[u8], table: &[u8], request: &[u8]) -> Reply {
    match previewed(policy, table, request) {
        Ok(grant) => grant,
        Err(refusal) => refusal,
    }
}

// ---------------------------------------------------------------------------------------------
// Words and sums

fn word(bytes: &[u8], index: usize) -> u32 {
    let at = 4 * index;
    u32::from_le_bytes([bytes[at], bytes[at + 1], bytes[at + 2], bytes[at + 3]])
}

fn put_word(bytes: &mut [u8], index: usize, word: u32) {
    bytes[4 * index..4 * index + 4].copy_from_slice(&word.to_le_bytes());
}

#[derive(Clone, Copy, PartialEq, Eq)]
struct Sums {
    a: u32,
    b: u32,
}

impl Sums {
    const START: Sums = Sums { a: 1, b: 0 };

    fn over(mut self, bytes: &[u8]) -> Sums {
        for word in bytes.as_chunks().0 {
            self.a = self.a.wrapping_add(u32::from_le_bytes(*word));
            self.b = self.b.wrapping_add(self.a);
        }
        self
    }
}

/// The check that a block should have.
fn check_of(block: &Block) -> Sums {
    Sums::START.over(&block[..504])
}

/// The check that it has.
fn check_in(block: &Block) -> Sums {
    Sums {
        a: word(block, 126),
        b: word(block, 127),
    }
}

/// Whether both halves of a privilege or of a used level are there. (Here and where records are
/// looked at, `&` and `|` stand for `&&` and `||`: no branch is quicker than one that is hard to
/// foretell.)
fn both_halves(word: u32) -> bool {
    (word & 0xFFFF != 0) & (word >> 16 != 0)
}

fn zero(bytes: &[u8]) -> bool {
    bytes.iter().fold(0, |some, byte| some | byte) == 0
}

/// The blocks of an image whose length is 512 times 1 to `most`, else the refusal `number`.
fn blocks(image: &[u8], most: usize, number: usize) -> Answer<&[Block]> {
    let (blocks, rest) = image.as_chunks();
    let good = rest.is_empty() && (1..=most).contains(&blocks.len());
    refuse_unless(good, number, 0, 0)?;
    Ok(blocks)
}

/// Bytes 4 to 7 of block `number` of `total`.
fn numbering(number: usize, total: usize) -> u32 {
    (number | total << 16) as u32
}

/// The members of a set of rules or roles, from 0.
fn bits(mut set: u32) -> impl Iterator<Item = usize> {
    std::iter::from_fn(move || {
        let lowest = set.trailing_zeros() as usize;
        set &= set.wrapping_sub(1);
        (lowest < 32).then_some(lowest)
    })
}

// ---------------------------------------------------------------------------------------------
// The policy

/// An accepted policy, its rules' contexts and steps made ready for comparing. It is laid so that no
/// four levels lie across a cache line: by chance alone a decision on a full table took 3 % longer.
#[repr(C, align(64))]
struct Policy<'p> {
    blocks: &'p [Block],
    rules: usize,
    stamp: Sums,
    /// A context fits a rule if no level differs from `want` in a bit of `mask`, and no value is more
    /// than `span` above the one in `want`. Only a range has less than the whole span.
    want: [Context; 32],
    mask: [Context; 32],
    span: [[u16; 4]; 32],
    /// Whether there is a range at all: without one, nothing is asked of `span`.
    ranged: bool,
    /// For each level the rules that have mark 3 there.
    each: [u32; 4],
    /// The rules that have a first, a last step.
    with_first: u32,
    with_last: u32,
}

fn read_policy(image: &[u8]) -> Answer<Policy<'_>> {
    let blocks = blocks(image, 64, 1)?;
    let mut policy = Policy {
        blocks,
        rules: 0,
        stamp: Sums::START,
        want: [[0; 4]; 32],
        mask: [[0; 4]; 32],
        span: [[0xFFFF; 4]; 32],
        ranged: false,
        each: [0; 4],
        with_first: 0,
        with_last: 0,
    };
    for (number, block) in blocks.iter().enumerate() {
        refuse_unless(check_of(block) == check_in(block), 2, number, 0)?;
        policy.stamp = policy.stamp.over(block);
        let kind = word(block, 0);
        // A rule must stand directly behind the rules before it.
        let is_rule = kind == 1 && number == policy.rules && number < 32;
        let numbered = word(block, 1) == numbering(number, blocks.len());
        refuse_unless(numbered && (is_rule || kind == 3), 3, number, 0)?;
        if is_rule {
            policy.add_rule(block)?;
        } else {
            check_permissions(block, number)?;
        }
    }
    Ok(policy)
}

impl Policy<'_> {
    fn add_rule(&mut self, block: &Block) -> Answer<()> {
        let number = self.rules;
        let (depth, exclusions) = (block[8] as usize, block[9] as usize);
        let (first, last) = (word(block, 12), word(block, 13));
        let good = depth <= 4
            && (1..=8).contains(&exclusions)
            && good_step(block[10], first)
            && good_step(block[11], last)
            && (first == 0 || first != last)
            && word(block, 3) == 0
            && (0..4).all(|level| self.add_level(number, level, depth, block))
            && zero(&block[344..504]);
        refuse_unless(good, 4, number, 0)?;
        for x in 0..8 {
            let bytes = exclusion_bytes(block, x);
            let good = if x < exclusions {
                good_exclusion(bytes)
            } else {
                zero(bytes)
            };
            refuse_unless(good, 5, number, x + 1)?;
        }
        self.with_first |= u32::from(block[10]) << number;
        self.with_last |= u32::from(block[11]) << number;
        self.rules += 1;
        Ok(())
    }

    /// Takes down one of a rule's four levels; says whether it is good.
    fn add_level(&mut self, rule: usize, level: usize, depth: usize, block: &Block) -> bool {
        let (begin, end) = (word(block, 4 + 2 * level), word(block, 5 + 2 * level));
        let (kind, mark) = (begin & 0xFFFF, begin >> 16);
        let (low, high) = (end & 0xFFFF, end >> 16);
        if level >= depth {
            return begin == 0 && end == 0;
        }
        self.want[rule][level] = kind | low << 16;
        self.mask[rule][level] = if mark == 1 { 0xFFFF_FFFF } else { 0xFFFF };
        if mark == 3 {
            self.each[level] |= 1 << rule;
        }
        if mark == 4 {
            self.span[rule][level] = high.wrapping_sub(low) as u16;
            self.ranged = true;
        }
        let good_value = match mark {
            1 => low != 0 && high == 0,
            2 | 3 => end == 0,
            4 => low != 0 && low <= high,
            _ => false,
        };
        kind != 0 && good_value
    }

    /// Zero if the context fits the rule.
    fn off<const RANGED: bool>(&self, rule: usize, context: &Context) -> u32 {
        let (want, mask) = (&self.want[rule % 32], &self.mask[rule % 32]);
        let off = (0..4).fold(0, |off, i| off | (context[i] ^ want[i]) & mask[i]);
        if RANGED {
            off | u32::from(self.beyond(rule, context))
        } else {
            off
        }
    }

    /// Zero if every value is within its span. One below the range is as far above it as can be.
    fn beyond(&self, rule: usize, context: &Context) -> u16 {
        let (want, span) = (&self.want[rule % 32], &self.span[rule % 32]);
        (0..4).fold(0, |beyond, i| {
            let above = ((context[i] >> 16) as u16).wrapping_sub((want[i] >> 16) as u16);
            beyond | above.saturating_sub(span[i])
        })
    }

    /// The rules that a context fits.
    fn fitting(&self, context: &Context) -> u32 {
        if self.ranged {
            self.fitting_where::<true>(context)
        } else {
            self.fitting_where::<false>(context)
        }
    }

    fn fitting_where<const RANGED: bool>(&self, context: &Context) -> u32 {
        (0..self.rules).fold(0, |set, r| {
            set | u32::from(self.off::<RANGED>(r, context) == 0) << r
        })
    }

    /// Whether a context fits all of these rules, each of which the policy must have. They are taken
    /// two by two: most records have one mark or two, and then nothing depends on which.
    fn fits_all<const RANGED: bool>(&self, context: &Context, rules: u32) -> bool {
        let there = u64::from(rules) >> self.rules == 0;
        let (mut off, mut rest) = (0, rules);
        while rest != 0 {
            let one = rest.trailing_zeros();
            let others = rest & (rest - 1);
            let other = if others == 0 {
                one
            } else {
                others.trailing_zeros()
            };
            off |= self.off::<RANGED>(one as usize, context)
                | self.off::<RANGED>(other as usize, context);
            rest = others & others.wrapping_sub(1);
        }
        there & (off == 0)
    }

    /// The rules, of those that both contexts fit, under which they share a run place. Where both
    /// fit the types are equal, so that levels can be compared whole. Only mark 3 parts places.
    fn sharing(&self, one: &Context, other: &Context) -> u32 {
        !(0..4).fold(0, |apart, i| {
            apart | if one[i] == other[i] { 0 } else { self.each[i] }
        })
    }

    fn first_step(&self, rule: usize) -> u32 {
        word(&self.blocks[rule], 12)
    }

    fn last_step(&self, rule: usize) -> u32 {
        word(&self.blocks[rule], 13)
    }

    fn permits(&self, roles: u32, privilege: u32) -> bool {
        self.blocks[self.rules..].iter().any(|block| {
            let entries = word(block, 2) as usize;
            block[16..16 + 8 * entries]
                .as_chunks::<8>()
                .0
                .iter()
                .any(|entry| {
                    let (role, what) = entry_fields(entry);
                    what == u64::from(privilege) && roles >> (role - 1) & 1 == 1
                })
        })
    }
}

/// A step is set and whole, or not set and zero.
fn good_step(flag: u8, privilege: u32) -> bool {
    match flag {
        0 => privilege == 0,
        1 => both_halves(privilege),
        _ => false,
    }
}

fn exclusion_bytes(block: &Block, x: usize) -> &[u8] {
    &block[56 + 36 * x..92 + 36 * x]
}

fn good_exclusion(bytes: &[u8]) -> bool {
    let (kind, m, n) = (bytes[0], bytes[1], bytes[2]);
    if !(2 <= m && m <= n && n <= 8 && bytes[3] == 0) {
        return false;
    }
    let (used, unused) = bytes[4..].split_at(4 * usize::from(n));
    let (members, _) = used.as_chunks();
    let good = match kind {
        1 => different_roles(members),
        2 => members.iter().all(|m| both_halves(u32::from_le_bytes(*m))),
        _ => false,
    };
    good && zero(unused)
}

/// Whether these are roles, none of them twice.
fn different_roles(members: &[[u8; 4]]) -> bool {
    let mut seen = 0u32;
    members.iter().all(|member| {
        let role = u32::from_le_bytes(*member);
        let good = (1..=32).contains(&role) && seen >> (role - 1) & 1 == 0;
        if good {
            seen |= 1 << (role - 1);
        }
        good
    })
}

fn check_permissions(block: &Block, number: usize) -> Answer<()> {
    // Bytes 10 and 11 are the word's high half, so that this asks for zero there too.
    let entries = word(block, 2) as usize;
    let good = entries <= 61 && word(block, 3) == 0 && zero(&block[16 + 8 * entries..504]);
    refuse_unless(good, 6, number, 0)?;
    let bytes = &block[16..16 + 8 * entries];
    let bad = bytes.as_chunks::<8>().0.iter().position(|entry| {
        let (role, what) = entry_fields(entry);
        // The entry's last field is above the privilege's 32 bits.
        !(1..=32).contains(&role) || what >> 32 != 0 || !both_halves(what as u32)
    });
    refuse_unless(bad.is_none(), 6, number, bad.map_or(0, |e| e + 1))
}

/// A permission's role, and its privilege with the zero field above it.
fn entry_fields(entry: &[u8; 8]) -> (u16, u64) {
    let entry = u64::from_le_bytes(*entry);
    (entry as u16, entry >> 16)
}

// ---------------------------------------------------------------------------------------------
// Requests, records, tables

/// A request, or a record with its marks in `marks`.
#[derive(Clone, Copy)]
struct Request {
    user: u32,
    roles: u32,
    privilege: u32,
    context: Context,
}

impl Request {
    fn read(bytes: &[u8; 28]) -> Request {
        Request {
            user: word(bytes, 0),
            roles: word(bytes, 1),
            privilege: word(bytes, 2),
            context: [3, 4, 5, 6].map(|i| word(bytes, i)),
        }
    }

    fn is_good(&self) -> bool {
        (self.user != 0)
            & (self.roles != 0)
            & both_halves(self.privilege)
            & good_context(&self.context)
    }
}

/// Whether every level is whole or blank, and no used one stands behind a blank one.
fn good_context(context: &Context) -> bool {
    let [first, second, third, fourth] = *context;
    ((first == 0) | both_halves(first))
        & ((second == 0) | both_halves(second) & (first != 0))
        & ((third == 0) | both_halves(third) & (second != 0))
        & ((fourth == 0) | both_halves(fourth) & (third != 0))
}

fn read_record(bytes: &[u8; 32]) -> (Request, u32) {
    let (request, marks) = bytes.split_first_chunk::<28>().unwrap();
    (Request::read(request), word(marks, 0))
}

/// The records of a block that says that it has so many.
fn records_in(block: &Block, count: usize) -> &[[u8; 32]] {
    block[24..24 + 32 * count].as_chunks().0
}

/// All records of an accepted table.
fn all_records(table: &[Block]) -> impl Iterator<Item = (Request, u32)> + '_ {
    let used = table
        .iter()
        .map(|block| records_in(block, word(block, 2) as usize));
    used.take_while(|records| !records.is_empty())
        .flatten()
        .map(read_record)
}

/// Checks a table; the number of its records.
fn count_records(policy: &Policy, table: &[u8]) -> Answer<usize> {
    if policy.ranged {
        count_records_where::<true>(policy, table)
    } else {
        count_records_where::<false>(policy, table)
    }
}

fn count_records_where<const RANGED: bool>(policy: &Policy, table: &[u8]) -> Answer<usize> {
    let blocks = blocks(table, 128, 11)?;
    let mut held = 0;
    for (number, block) in blocks.iter().enumerate() {
        refuse_unless(check_of(block) == check_in(block), 12, number, 0)?;
        // Bytes 10 and 11 are the word's high half, so that this asks for zero there too.
        let count = word(block, 2) as usize;
        let gap = count > 0 && held < RECORDS_PER_BLOCK * number;
        let good = word(block, 0) == 2
            && word(block, 1) == numbering(number, blocks.len())
            && count <= RECORDS_PER_BLOCK
            && !gap
            && word(block, 3) == 0
            && zero(&block[24 + 32 * count..504]);
        refuse_unless(good, 13, number, 0)?;
        let stamp = Sums {
            a: word(block, 4),
            b: word(block, 5),
        };
        refuse_unless(stamp == policy.stamp, 14, number, 0)?;
        let records = records_in(block, count);
        let good = |record| good_record::<RANGED>(policy, record);
        if !records.iter().fold(true, |all, record| all & good(record)) {
            let first_bad = records.iter().position(|record| !good(record));
            refuse_unless(false, 15, number, first_bad.map_or(0, |i| i + 1))?;
        }
        held += count;
    }
    Ok(held)
}

fn good_record<const RANGED: bool>(policy: &Policy, bytes: &[u8; 32]) -> bool {
    let (request, marks) = read_record(bytes);
    request.is_good() & (marks != 0) & policy.fits_all::<RANGED>(&request.context, marks)
}

fn make_fresh(policy: &Policy, table: &mut [u8]) -> Answer<usize> {
    let total = blocks(table, 128, 11)?.len();
    for (number, block) in table.as_chunks_mut::<512>().0.iter_mut().enumerate() {
        block.fill(0);
        put_word(block, 0, 2);
        put_word(block, 1, numbering(number, total));
        put_word(block, 4, policy.stamp.a);
        put_word(block, 5, policy.stamp.b);
        seal(block);
    }
    Ok(RECORDS_PER_BLOCK * total)
}

fn seal(block: &mut Block) {
    let check = check_of(block);
    put_word(block, 126, check.a);
    put_word(block, 127, check.b);
}

// ---------------------------------------------------------------------------------------------
// The judge

fn decided(policy: &[u8], table: &mut [u8], request: &[u8]) -> Answer<(Reply, u32)> {
    let policy = read_policy(policy)?;
    let step = judge(&policy, table, request)?;
    let table = table.as_chunks_mut::<512>().0;
    let grant = step.grant(table)?;
    let written = step.take(table, grant.third as usize);
    Ok((grant, written))
}

/// The grant is known before anything is written, so that a preview is done with it.
fn previewed(policy: &[u8], table: &[u8], request: &[u8]) -> Answer<Reply> {
    let policy = read_policy(policy)?;
    let step = judge(&policy, table, request)?;
    step.grant(table.as_chunks().0)
}

/// The numbers of table and request, and steps 1 to 3. It is built into both callers: as a function
/// of its own it made a decision on a full table take 6 % longer.
#[inline(always)]
fn judge<'s>(policy: &'s Policy, table: &[u8], request: &'s [u8]) -> Answer<Step<'s>> {
    let held = count_records(policy, table)?;
    let bytes: Option<&[u8; 28]> = request.try_into().ok();
    refuse_unless(bytes.is_some(), 21, 0, 0)?;
    let bytes = bytes.unwrap();
    let request = Request::read(bytes);
    refuse_unless(request.is_good(), 22, 0, 0)?;
    refuse_unless(policy.permits(request.roles, request.privilege), 31, 0, 0)?;

    let table = table.as_chunks().0;
    let (judging, mine) = judging_rules(policy, table, &request);
    // A bigger count of privileges costs more to set up: take one that is twice what it must hold.
    match mine {
        0..=31 => count_and_judge::<64>(policy, table, &request, judging)?,
        32..=255 => count_and_judge::<512>(policy, table, &request, judging)?,
        _ => count_and_judge::<4096>(policy, table, &request, judging)?,
    }

    let closing = bits(judging & policy.with_last)
        .filter(|&r| policy.last_step(r) == request.privilege)
        .fold(0, |set, r| set | 1 << r);
    Ok(Step {
        policy,
        request: bytes,
        context: request.context,
        held,
        closing,
        marks: judging & !closing,
    })
}

/// The rules that judge the request, and how many records of its user some of them may count.
fn judging_rules(policy: &Policy, table: &[Block], request: &Request) -> (u32, usize) {
    let fitting = policy.fitting(&request.context);
    if fitting == 0 {
        return (0, 0);
    }
    let (mut open, mut mine) = (0, 0);
    for (earlier, marks) in all_records(table) {
        let shared = marks & fitting & policy.sharing(&request.context, &earlier.context);
        open |= shared;
        mine += usize::from(shared != 0 && earlier.user == request.user);
    }
    let begun = bits(fitting & policy.with_first)
        .filter(|&r| policy.first_step(r) == request.privilege)
        .fold(0, |set, r| set | 1 << r);
    (fitting & (!policy.with_first | begun | open), mine)
}

/// Step 3: counts what the user has done under all rules at once, then asks each exclusion.
fn count_and_judge<const SLOTS: usize>(
    policy: &Policy,
    table: &[Block],
    request: &Request,
    judging: u32,
) -> Answer<()> {
    if judging == 0 {
        return Ok(());
    }
    let mut tally = Tally::<SLOTS>::new();
    for (earlier, marks) in all_records(table) {
        if earlier.user == request.user {
            let shared = marks & judging & policy.sharing(&request.context, &earlier.context);
            if shared != 0 {
                tally.take_in(&earlier, shared);
            }
        }
    }
    tally.take_in(request, judging);

    for r in bits(judging) {
        let block = &policy.blocks[r];
        for x in 0..usize::from(block[9]) {
            let bytes = exclusion_bytes(block, x);
            let (kind, m, n) = (bytes[0], u32::from(bytes[1]), usize::from(bytes[2]));
            let members = bytes[4..4 + 4 * n].as_chunks().0;
            let (count, number) = match kind {
                1 => (tally.roles(r, members), 32),
                _ => (tally.privileges(r, members), 33),
            };
            refuse_unless(count < m, number, r + 1, x + 1)?;
        }
    }
    Ok(())
}

/// What one user has done in the run places of a request, for all rules at once.
///
/// The privileges are in a table of `SLOTS` places (a power of two, and at least twice the number
/// of requests taken in) with open addressing. How often one was done is counted up to 15, which
/// is more than an exclusion can list; the counters of the 32 rules stand across four words, bit
/// by bit, so that one addition raises any set of them.
struct Tally<const SLOTS: usize> {
    /// For each role the rules in whose run it was active.
    active: [u32; 32],
    privilege: [u32; SLOTS],
    times: [[u32; 4]; SLOTS],
}

impl<const SLOTS: usize> Tally<SLOTS> {
    fn new() -> Self {
        Tally {
            active: [0; 32],
            privilege: [0; SLOTS],
            times: [[0; 4]; SLOTS],
        }
    }

    /// Takes in a request that these rules count.
    fn take_in(&mut self, request: &Request, rules: u32) {
        for role in bits(request.roles) {
            self.active[role] |= rules;
        }
        let slot = self.slot(request.privilege);
        self.privilege[slot] = request.privilege;
        let times = &mut self.times[slot];
        let mut carry = rules & !(times[0] & times[1] & times[2] & times[3]);
        for digit in times {
            (*digit, carry) = (*digit ^ carry, *digit & carry);
        }
    }

    /// The place of this privilege, or the free one that it would have.
    fn slot(&self, privilege: u32) -> usize {
        let mut slot = (privilege.wrapping_mul(0x9E37_79B1) >> 16) as usize % SLOTS;
        while self.privilege[slot] != privilege && self.privilege[slot] != 0 {
            slot = (slot + 1) % SLOTS;
        }
        slot
    }

    fn times_done(&self, rule: usize, privilege: u32) -> u32 {
        let times = &self.times[self.slot(privilege)];
        (0..4).fold(0, |sum, digit| sum | (times[digit] >> rule & 1) << digit)
    }

    /// How many of these roles were active in the rule's run.
    fn roles(&self, rule: usize, members: &[[u8; 4]]) -> u32 {
        members
            .iter()
            .map(|member| self.active[usize::from(member[0]) - 1] >> rule & 1)
            .sum()
    }

    /// The sum over the different members of min(times listed, times done). The i-th time that a
    /// member is listed adds one if it was done at least i times.
    fn privileges(&self, rule: usize, members: &[[u8; 4]]) -> u32 {
        (0..members.len())
            .map(|i| {
                let listed = members[..=i].iter().filter(|&&m| m == members[i]).count();
                let done = self.times_done(rule, u32::from_le_bytes(members[i]));
                u32::from(done >= listed as u32)
            })
            .sum()
    }
}

/// Steps 4 and 5: a request that no exclusion speaks against.
struct Step<'s> {
    policy: &'s Policy<'s>,
    request: &'s [u8; 28],
    context: Context,
    /// The records that the table holds before it.
    held: usize,
    /// The rules whose run the request ends.
    closing: u32,
    /// The other judging rules.
    marks: u32,
}

impl Step<'_> {
    /// What comes of it, or 34.
    fn grant(&self, table: &[Block]) -> Answer<Reply> {
        let removed = if self.closing == 0 {
            0
        } else {
            all_records(table)
                .filter(|(earlier, marks)| self.left(earlier, *marks) == 0)
                .count()
        };
        let recorded = usize::from(self.marks != 0);
        let held_after = self.held - removed + recorded;
        let places = RECORDS_PER_BLOCK * table.len();
        refuse_unless(held_after <= places, 34, 0, 0)?;
        Ok(Reply::grant(recorded, removed, held_after))
    }

    /// Writes the new table, which holds so many records; says how many blocks it wrote.
    fn take(&self, table: &mut [Block], held_after: usize) -> u32 {
        let mut writer = Writer { table, altered: 0 };
        let mut to = if self.closing == 0 {
            Place::of(self.held)
        } else {
            let left = |earlier: &Request, marks| self.left(earlier, marks);
            settle(&mut writer, self.held, left)
        };
        if self.marks != 0 {
            let mut record = [0; 32];
            record[..28].copy_from_slice(self.request);
            writer.put(to, with_marks(&record, self.marks));
            to = to.next();
        }
        // The request is there already: no place is put to twice, so that a record is compared with
        // what stood there before the step.
        writer.blank(to, held_after, self.held);
        writer.finish(held_after)
    }

    /// The marks that are left to a record.
    fn left(&self, earlier: &Request, marks: u32) -> u32 {
        if marks & self.closing == 0 {
            return marks;
        }
        marks & !(self.closing & self.policy.sharing(&self.context, &earlier.context))
    }
}

// ---------------------------------------------------------------------------------------------
// The closing

fn closed(policy: &[u8], table: &mut [u8], context: &[u8]) -> Answer<(Reply, u32)> {
    let policy = read_policy(policy)?;
    let held = count_records(&policy, table)?;
    let bytes: Option<&[u8; 16]> = context.try_into().ok();
    refuse_unless(bytes.is_some(), 21, 0, 0)?;
    let bytes = bytes.unwrap();
    let levels = [0, 1, 2, 3].map(|i| word(bytes, i));
    refuse_unless(good_context(&levels), 22, 0, 0)?;

    // A blank level asks for nothing. A record that is not as deep is blank where a level is used.
    let asked = levels.map(|level| if level == 0 { 0 } else { !0 });
    let left = |earlier: &Request, marks| {
        let off = (0..4).fold(0, |off, i| {
            off | (earlier.context[i] ^ levels[i]) & asked[i]
        });
        if off == 0 {
            0
        } else {
            marks
        }
    };
    let table = table.as_chunks_mut::<512>().0;
    let mut writer = Writer { table, altered: 0 };
    let behind = settle(&mut writer, held, left);
    let stay = behind.records();
    writer.blank(behind, stay, held);
    Ok((Reply::accept(held - stay), writer.finish(stay)))
}

// ---------------------------------------------------------------------------------------------
// Writing

/// Gives each of so many records the marks that are left to it, and closes up where none are; the
/// place behind the last record that stays.
fn settle(writer: &mut Writer, held: usize, left: impl Fn(&Request, u32) -> u32) -> Place {
    let (mut to, mut moved) = (Place::of(0), false);
    for block in 0..held.div_ceil(RECORDS_PER_BLOCK) {
        let count = held - RECORDS_PER_BLOCK * block;
        for index in 0..count.min(RECORDS_PER_BLOCK) {
            let bytes = writer.at(Place { block, index });
            let (earlier, marks) = read_record(bytes);
            let left = left(&earlier, marks);
            if left == 0 {
                moved = true;
                continue;
            }
            if moved || left != marks {
                let record = with_marks(bytes, left);
                writer.put(to, record);
            }
            to = to.next();
        }
    }
    to
}

/// A record as four numbers, by which it is compared and written whole.
type Whole = [u64; 4];

/// These bytes of a record, with other marks.
fn with_marks(bytes: &[u8; 32], marks: u32) -> Whole {
    let [first, second, third, last] = whole(bytes);
    [
        first,
        second,
        third,
        last << 32 >> 32 | u64::from(marks) << 32,
    ]
}

fn whole(bytes: &[u8; 32]) -> Whole {
    let numbers = bytes.as_chunks::<8>().0;
    [0, 1, 2, 3].map(|i| u64::from_le_bytes(numbers[i]))
}

/// Where a record stands: in which block, and as which of its records.
#[derive(Clone, Copy, PartialEq, Eq)]
struct Place {
    block: usize,
    index: usize,
}

impl Place {
    /// Of so many records, that of the next one.
    fn of(records: usize) -> Place {
        Place {
            block: records / RECORDS_PER_BLOCK,
            index: records % RECORDS_PER_BLOCK,
        }
    }

    /// How many records stand before it.
    fn records(self) -> usize {
        RECORDS_PER_BLOCK * self.block + self.index
    }

    fn next(self) -> Place {
        if self.index + 1 < RECORDS_PER_BLOCK {
            Place {
                index: self.index + 1,
                ..self
            }
        } else {
            Place {
                block: self.block + 1,
                index: 0,
            }
        }
    }
}

/// Writes records where others stood, and remembers which of the 128 blocks must get a new count and
/// check: those whose records differ, and no others.
struct Writer<'t> {
    table: &'t mut [Block],
    altered: u128,
}

impl Writer<'_> {
    fn at(&self, place: Place) -> &[u8; 32] {
        let from = 24 + 32 * place.index;
        self.table[place.block][from..].first_chunk().unwrap()
    }

    /// A record, or zero for a place that has none.
    fn put(&mut self, place: Place, record: Whole) {
        let from = 24 + 32 * place.index;
        let there: &mut [u8; 32] = self.table[place.block][from..].first_chunk_mut().unwrap();
        let stood = whole(there);
        // Number by number: as arrays they would have to be stored first, and read back.
        let differs = (0..4).fold(0, |some, i| some | stood[i] ^ record[i]);
        if differs != 0 {
            for (bytes, number) in there.as_chunks_mut().0.iter_mut().zip(record) {
                *bytes = number.to_le_bytes();
            }
            self.altered |= 1 << place.block;
        }
    }

    /// Makes zero the places that fall free from this one on, where so many records stay of so many.
    fn blank(&mut self, mut from: Place, stay: usize, held: usize) {
        for _ in stay..held {
            self.put(from, [0; 4]);
            from = from.next();
        }
    }

    /// Seals the altered blocks of a table that now holds so many records, and counts them.
    fn finish(self, held: usize) -> u32 {
        let mut written = 0;
        for (number, block) in self.table.iter_mut().enumerate() {
            if self.altered >> number & 1 == 1 {
                let before = RECORDS_PER_BLOCK * number;
                let count = held.saturating_sub(before).min(RECORDS_PER_BLOCK);
                put_word(block, 2, count as u32);
                seal(block);
                written += 1;
            }
        }
        written
    }
}
