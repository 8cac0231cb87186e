//! Policies, tables and requests: from bytes to what they say, and back.
//!
//! A reader gives what the image says or the first refusal that document 01 has for it.

use super::{refuse_unless, Answer};

pub const BLOCK: usize = 512;
pub const CHECKED: usize = 504;
pub const RECORDS_PER_BLOCK: usize = 15;
pub const RECORD: usize = 32;
pub const REQUEST: usize = 28;
pub const CONTEXT: usize = 16;

/// An operation on a target.
#[derive(Clone, Copy, PartialEq, Eq, PartialOrd, Ord, Debug)]
pub struct Privilege {
    pub operation: u16,
    pub target: u16,
}

#[derive(Clone, Copy, PartialEq, Eq, Debug)]
pub enum Mark {
    Fixed(u16),
    Every,
    Each,
    /// From a low value to a high one, both included.
    Range(u16, u16),
}

#[derive(Clone, Copy, PartialEq, Eq, Debug)]
pub struct Level {
    pub kind: u16,
    pub mark: Mark,
}

#[derive(Clone, PartialEq, Eq, Debug)]
pub enum Members {
    Roles(Vec<u16>),
    Privileges(Vec<Privilege>),
}

#[derive(Clone, PartialEq, Eq, Debug)]
pub struct Exclusion {
    pub m: usize,
    pub members: Members,
}

#[derive(Clone, PartialEq, Eq, Debug)]
pub struct Rule {
    pub levels: Vec<Level>,
    pub first: Option<Privilege>,
    pub last: Option<Privilege>,
    pub exclusions: Vec<Exclusion>,
}

#[derive(Clone, Copy, PartialEq, Eq, Debug)]
pub struct Permission {
    pub role: u16,
    pub privilege: Privilege,
}

/// Rules in order, then the permission blocks, each a list of entries.
#[derive(Clone, PartialEq, Eq, Debug)]
pub struct Policy {
    pub rules: Vec<Rule>,
    pub permissions: Vec<Vec<Permission>>,
}

/// Type and value of each used level, from the outermost on.
pub type Context = Vec<(u16, u16)>;

#[derive(Clone, PartialEq, Eq, Debug)]
pub struct Request {
    pub user: u32,
    pub roles: u32,
    pub privilege: Privilege,
    pub context: Context,
}

/// A granted request and the rules that still count it, rule r at bit r - 1.
#[derive(Clone, PartialEq, Eq, Debug)]
pub struct Record {
    pub request: Request,
    pub marks: u32,
}

// ---------------------------------------------------------------------------------------------
// Numbers and sums

fn u16_at(bytes: &[u8], at: usize) -> u16 {
    u16::from_le_bytes([bytes[at], bytes[at + 1]])
}

fn u32_at(bytes: &[u8], at: usize) -> u32 {
    u32::from_le_bytes([bytes[at], bytes[at + 1], bytes[at + 2], bytes[at + 3]])
}

fn all_zero(bytes: &[u8]) -> bool {
    bytes.iter().all(|&byte| byte == 0)
}

/// The two sums of document 01 over the words of `bytes`.
pub fn sums(bytes: &[u8]) -> (u32, u32) {
    let (mut a, mut b) = (1u32, 0u32);
    for word in bytes.chunks_exact(4) {
        a = a.wrapping_add(u32_at(word, 0));
        b = b.wrapping_add(a);
    }
    (a, b)
}

/// The eight bytes by which a check or a stamp stands in an image.
pub fn sums_bytes((a, b): (u32, u32)) -> [u8; 8] {
    let mut bytes = [0; 8];
    bytes[..4].copy_from_slice(&a.to_le_bytes());
    bytes[4..].copy_from_slice(&b.to_le_bytes());
    bytes
}

/// Writes the check of every block anew, so that a damaged image passes the first test.
pub fn reseal(image: &mut [u8]) {
    for block in image.chunks_exact_mut(BLOCK) {
        let check = sums_bytes(sums(&block[..CHECKED]));
        block[CHECKED..].copy_from_slice(&check);
    }
}

/// The number of blocks if the length is 512 times 1 to `most`.
fn block_count(length: usize, most: usize) -> Option<usize> {
    let blocks = length / BLOCK;
    (length.is_multiple_of(BLOCK) && (1..=most).contains(&blocks)).then_some(blocks)
}

fn check_is_right(block: &[u8]) -> bool {
    block[CHECKED..] == sums_bytes(sums(&block[..CHECKED]))
}

/// Whether bytes 4 to 7 say that this is block `number` of `total`.
fn numbered(block: &[u8], number: usize, total: usize) -> bool {
    u16_at(block, 4) as usize == number && u16_at(block, 6) as usize == total
}

// ---------------------------------------------------------------------------------------------
// The policy

pub const RULE_KIND: u32 = 1;
pub const TABLE_KIND: u32 = 2;
pub const PERMISSION_KIND: u32 = 3;

pub fn read_policy(image: &[u8]) -> Answer<Policy> {
    let total = block_count(image.len(), 64);
    refuse_unless(total.is_some(), 1, 0, 0)?;
    let total = total.unwrap_or_default();

    let mut policy = Policy {
        rules: vec![],
        permissions: vec![],
    };
    for (number, block) in image.chunks_exact(BLOCK).enumerate() {
        refuse_unless(check_is_right(block), 2, number, 0)?;
        let kind = u32_at(block, 0);
        let misplaced = kind == RULE_KIND && (!policy.permissions.is_empty() || number >= 32);
        let header = (kind == RULE_KIND || kind == PERMISSION_KIND)
            && numbered(block, number, total)
            && !misplaced;
        refuse_unless(header, 3, number, 0)?;
        if kind == RULE_KIND {
            policy.rules.push(read_rule(block, number)?);
        } else {
            policy.permissions.push(read_permissions(block, number)?);
        }
    }
    Ok(policy)
}

fn read_rule(block: &[u8], number: usize) -> Answer<Rule> {
    let outside = read_outside_exclusions(block);
    refuse_unless(outside.is_some(), 4, number, 0)?;
    let mut rule = outside.unwrap();
    let stated = block[9] as usize;
    for x in 0..8 {
        let bytes = &block[56 + 36 * x..][..36];
        if x < stated {
            let exclusion = read_exclusion(bytes);
            refuse_unless(exclusion.is_some(), 5, number, x + 1)?;
            rule.exclusions.extend(exclusion);
        } else {
            refuse_unless(all_zero(bytes), 5, number, x + 1)?;
        }
    }
    Ok(rule)
}

/// Everything of a rule block that number 4 is about; the exclusions are left empty.
fn read_outside_exclusions(block: &[u8]) -> Option<Rule> {
    let depth = block[8] as usize;
    let good = depth <= 4
        && (1..=8).contains(&block[9])
        && block[10] <= 1
        && block[11] <= 1
        && all_zero(&block[12..16])
        && all_zero(&block[344..CHECKED]);
    if !good {
        return None;
    }
    let mut levels = vec![];
    for i in 0..4 {
        let bytes = &block[16 + 8 * i..][..8];
        if i < depth {
            levels.push(read_level(bytes)?);
        } else if !all_zero(bytes) {
            return None;
        }
    }
    let first = read_step(&block[48..52], block[10] == 1)?;
    let last = read_step(&block[52..56], block[11] == 1)?;
    if first.is_some() && first == last {
        return None;
    }
    Some(Rule {
        levels,
        first,
        last,
        exclusions: vec![],
    })
}

fn read_level(bytes: &[u8]) -> Option<Level> {
    let kind = u16_at(bytes, 0);
    let (value, high) = (u16_at(bytes, 4), u16_at(bytes, 6));
    let mark = match (bytes[2], value, high) {
        (1, 1.., 0) => Mark::Fixed(value),
        (2, 0, 0) => Mark::Every,
        (3, 0, 0) => Mark::Each,
        (4, 1.., _) if value <= high => Mark::Range(value, high),
        _ => return None,
    };
    (kind != 0 && bytes[3] == 0).then_some(Level { kind, mark })
}

/// The step, or `None` for one that is not set; `None` outside for a bad one.
fn read_step(bytes: &[u8], set: bool) -> Option<Option<Privilege>> {
    if set {
        Some(Some(read_privilege(bytes)?))
    } else {
        all_zero(bytes).then_some(None)
    }
}

fn read_privilege(bytes: &[u8]) -> Option<Privilege> {
    let (operation, target) = (u16_at(bytes, 0), u16_at(bytes, 2));
    (operation != 0 && target != 0).then_some(Privilege { operation, target })
}

fn read_exclusion(bytes: &[u8]) -> Option<Exclusion> {
    let (kind, m, n) = (bytes[0], bytes[1] as usize, bytes[2] as usize);
    if !(2 <= m && m <= n && n <= 8) || bytes[3] != 0 {
        return None;
    }
    let (used, unused) = bytes[4..].split_at(4 * n);
    if !all_zero(unused) {
        return None;
    }
    let listed = used.chunks_exact(4);
    let members = match kind {
        1 => Members::Roles(distinct(listed.map(read_role).collect::<Option<_>>()?)?),
        2 => Members::Privileges(listed.map(read_privilege).collect::<Option<_>>()?),
        _ => return None,
    };
    Some(Exclusion { m, members })
}

fn read_role(bytes: &[u8]) -> Option<u16> {
    let role = u16_at(bytes, 0);
    ((1..=32).contains(&role) && all_zero(&bytes[2..4])).then_some(role)
}

fn distinct(roles: Vec<u16>) -> Option<Vec<u16>> {
    let repeats = (1..roles.len()).any(|i| roles[..i].contains(&roles[i]));
    (!repeats).then_some(roles)
}

fn read_permissions(block: &[u8], number: usize) -> Answer<Vec<Permission>> {
    let entries = u16_at(block, 8) as usize;
    let outside =
        entries <= 61 && all_zero(&block[10..16]) && all_zero(&block[16 + 8 * entries..CHECKED]);
    refuse_unless(outside, 6, number, 0)?;
    let mut permissions = vec![];
    for e in 0..entries {
        let permission = read_permission(&block[16 + 8 * e..][..8]);
        refuse_unless(permission.is_some(), 6, number, e + 1)?;
        permissions.extend(permission);
    }
    Ok(permissions)
}

fn read_permission(bytes: &[u8]) -> Option<Permission> {
    let role = u16_at(bytes, 0);
    let privilege = read_privilege(&bytes[2..6])?;
    ((1..=32).contains(&role) && all_zero(&bytes[6..8])).then_some(Permission { role, privilege })
}

/// The image of a policy. What breaks the limits is written all the same where it has a place,
/// so that tests can make bad images too.
pub fn write_policy(policy: &Policy) -> Vec<u8> {
    let total = policy.rules.len() + policy.permissions.len();
    let mut image = vec![0; total * BLOCK];
    let mut blocks = image.chunks_exact_mut(BLOCK).enumerate();
    for rule in &policy.rules {
        let (number, block) = blocks.next().unwrap();
        write_header(block, RULE_KIND, number, total);
        write_rule(block, rule);
    }
    for entries in &policy.permissions {
        let (number, block) = blocks.next().unwrap();
        write_header(block, PERMISSION_KIND, number, total);
        write_permissions(block, entries);
    }
    reseal(&mut image);
    image
}

fn put_u16(bytes: &mut [u8], at: usize, number: u16) {
    bytes[at..at + 2].copy_from_slice(&number.to_le_bytes());
}

fn put_u32(bytes: &mut [u8], at: usize, number: u32) {
    bytes[at..at + 4].copy_from_slice(&number.to_le_bytes());
}

fn put_privilege(bytes: &mut [u8], at: usize, privilege: Privilege) {
    put_u16(bytes, at, privilege.operation);
    put_u16(bytes, at + 2, privilege.target);
}

fn write_header(block: &mut [u8], kind: u32, number: usize, total: usize) {
    put_u32(block, 0, kind);
    put_u16(block, 4, number as u16);
    put_u16(block, 6, total as u16);
}

fn write_rule(block: &mut [u8], rule: &Rule) {
    block[8] = rule.levels.len() as u8;
    block[9] = rule.exclusions.len() as u8;
    block[10] = rule.first.is_some() as u8;
    block[11] = rule.last.is_some() as u8;
    for (i, level) in rule.levels.iter().enumerate() {
        let at = 16 + 8 * i;
        put_u16(block, at, level.kind);
        let (mark, value, high) = match level.mark {
            Mark::Fixed(value) => (1, value, 0),
            Mark::Every => (2, 0, 0),
            Mark::Each => (3, 0, 0),
            Mark::Range(low, high) => (4, low, high),
        };
        block[at + 2] = mark;
        put_u16(block, at + 4, value);
        put_u16(block, at + 6, high);
    }
    for (at, step) in [(48, rule.first), (52, rule.last)] {
        if let Some(privilege) = step {
            put_privilege(block, at, privilege);
        }
    }
    for (x, exclusion) in rule.exclusions.iter().enumerate() {
        write_exclusion(&mut block[56 + 36 * x..][..36], exclusion);
    }
}

fn write_exclusion(bytes: &mut [u8], exclusion: &Exclusion) {
    bytes[1] = exclusion.m as u8;
    match &exclusion.members {
        Members::Roles(roles) => {
            bytes[0] = 1;
            bytes[2] = roles.len() as u8;
            for (i, &role) in roles.iter().enumerate() {
                put_u16(bytes, 4 + 4 * i, role);
            }
        }
        Members::Privileges(privileges) => {
            bytes[0] = 2;
            bytes[2] = privileges.len() as u8;
            for (i, &privilege) in privileges.iter().enumerate() {
                put_privilege(bytes, 4 + 4 * i, privilege);
            }
        }
    }
}

fn write_permissions(block: &mut [u8], entries: &[Permission]) {
    put_u16(block, 8, entries.len() as u16);
    for (e, entry) in entries.iter().enumerate() {
        put_u16(block, 16 + 8 * e, entry.role);
        put_privilege(block, 18 + 8 * e, entry.privilege);
    }
}

// ---------------------------------------------------------------------------------------------
// The request

pub fn read_request(bytes: &[u8]) -> Answer<Request> {
    refuse_unless(bytes.len() == REQUEST, 21, 0, 0)?;
    let request = read_fields(bytes);
    refuse_unless(request.is_some(), 22, 0, 0)?;
    Ok(request.unwrap())
}

fn read_fields(bytes: &[u8]) -> Option<Request> {
    let request = Request {
        user: u32_at(bytes, 0),
        roles: u32_at(bytes, 4),
        privilege: read_privilege(&bytes[8..12])?,
        context: read_context(&bytes[12..28])?,
    };
    (request.user != 0 && request.roles != 0).then_some(request)
}

/// The context of a closing: "a length other than 16 gives 21, a bad context 22".
pub fn read_closing(bytes: &[u8]) -> Answer<Context> {
    refuse_unless(bytes.len() == CONTEXT, 21, 0, 0)?;
    let context = read_context(bytes);
    refuse_unless(context.is_some(), 22, 0, 0)?;
    Ok(context.unwrap())
}

fn read_context(bytes: &[u8]) -> Option<Context> {
    let levels: Vec<(u16, u16)> = bytes
        .chunks_exact(4)
        .map(|level| (u16_at(level, 0), u16_at(level, 2)))
        .collect();
    let used = levels.iter().position(|&l| l == (0, 0)).unwrap_or(4);
    let (used, unused) = levels.split_at(used);
    let whole = used.iter().all(|&(kind, value)| kind != 0 && value != 0);
    let blank = unused.iter().all(|&level| level == (0, 0));
    (whole && blank).then_some(used.to_vec())
}

pub fn write_request(request: &Request) -> [u8; REQUEST] {
    let mut bytes = [0; REQUEST];
    put_u32(&mut bytes, 0, request.user);
    put_u32(&mut bytes, 4, request.roles);
    put_privilege(&mut bytes, 8, request.privilege);
    bytes[12..].copy_from_slice(&write_context(&request.context));
    bytes
}

pub fn write_context(context: &[(u16, u16)]) -> [u8; CONTEXT] {
    let mut bytes = [0; CONTEXT];
    for (i, &(kind, value)) in context.iter().enumerate() {
        put_u16(&mut bytes, 4 * i, kind);
        put_u16(&mut bytes, 4 * i + 2, value);
    }
    bytes
}

// ---------------------------------------------------------------------------------------------
// The table

/// The places of a table with so many blocks.
pub fn places(blocks: usize) -> usize {
    RECORDS_PER_BLOCK * blocks
}

/// The number of blocks of a table's image, or 11.
pub fn table_blocks(length: usize) -> Answer<usize> {
    let blocks = block_count(length, 128);
    refuse_unless(blocks.is_some(), 11, 0, 0)?;
    Ok(blocks.unwrap_or_default())
}

/// The records of a table that stands under `policy`, whose stamp is `stamp`. A record may be
/// marked for a rule only if `fits` says that its context fits it.
pub fn read_table(
    policy: &Policy,
    stamp: (u32, u32),
    image: &[u8],
    fits: impl Fn(&Rule, &Context) -> bool,
) -> Answer<Vec<Record>> {
    let total = table_blocks(image.len())?;
    let mut records = vec![];
    for (number, block) in image.chunks_exact(BLOCK).enumerate() {
        refuse_unless(check_is_right(block), 12, number, 0)?;
        let count = u16_at(block, 8) as usize;
        let gap = count > 0 && records.len() < places(number);
        let shape = u32_at(block, 0) == TABLE_KIND
            && numbered(block, number, total)
            && count <= RECORDS_PER_BLOCK
            && !gap
            && all_zero(&block[10..16])
            && all_zero(&block[24 + RECORD * count..CHECKED]);
        refuse_unless(shape, 13, number, 0)?;
        refuse_unless(block[16..24] == sums_bytes(stamp), 14, number, 0)?;
        for i in 0..count {
            let record = read_record(policy, &block[24 + RECORD * i..][..RECORD], &fits);
            refuse_unless(record.is_some(), 15, number, i + 1)?;
            records.extend(record);
        }
    }
    Ok(records)
}

fn read_record(
    policy: &Policy,
    bytes: &[u8],
    fits: impl Fn(&Rule, &Context) -> bool,
) -> Option<Record> {
    let request = read_fields(&bytes[..REQUEST])?;
    let marks = u32_at(bytes, REQUEST);
    let fitting = |r: usize| {
        let rule = policy.rules.get(r);
        rule.is_some_and(|rule| fits(rule, &request.context))
    };
    let good = marks != 0 && (0..32).all(|r| marks >> r & 1 == 0 || fitting(r));
    good.then_some(Record { request, marks })
}

/// The image of these records in a table of so many blocks.
pub fn write_table(stamp: (u32, u32), records: &[Record], blocks: usize) -> Vec<u8> {
    assert!(records.len() <= places(blocks));
    let mut image = vec![0; blocks * BLOCK];
    let mut rest = records;
    for (number, block) in image.chunks_exact_mut(BLOCK).enumerate() {
        let (here, later) = rest.split_at(rest.len().min(RECORDS_PER_BLOCK));
        rest = later;
        write_header(block, TABLE_KIND, number, blocks);
        put_u16(block, 8, here.len() as u16);
        block[16..24].copy_from_slice(&sums_bytes(stamp));
        for (i, record) in here.iter().enumerate() {
            let at = 24 + RECORD * i;
            block[at..at + REQUEST].copy_from_slice(&write_request(&record.request));
            put_u32(block, at + REQUEST, record.marks);
        }
    }
    reseal(&mut image);
    image
}
