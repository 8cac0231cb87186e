//! Policies made so that their rules meet, and the requests to put to them.
//!
//! A world has few users, roles, privileges and context values, so that the same run place is come
//! back to, by the same people and by others, and so that one step is the first of one rule and the
//! last of another.

use super::chance::Chance;
use crate::independent::images::*;
use crate::independent::judge::fits;

pub struct World {
    pub policy: Policy,
    pub image: Vec<u8>,
    users: Vec<u32>,
    roles: Vec<u16>,
    privileges: Vec<Privilege>,
    /// The type of each level, by which rules and contexts mostly go.
    kinds: Vec<u16>,
    values: Vec<u16>,
}

/// One thing of an episode.
pub enum Asked {
    Request(Request),
    Closing(Context),
}

/// How big a world is made.
struct Size {
    rules: usize,
    exclusions: (usize, usize),
    users: usize,
    roles: usize,
    privileges: usize,
    values: usize,
    /// The permission blocks, and the most entries of one.
    permissions: (usize, usize),
    /// What the depth of a rule is picked from.
    depths: &'static [usize],
    /// How many of a hundred levels have a fixed value.
    fixed: usize,
    /// The fewest members of an exclusion.
    members: usize,
    /// In how many of a hundred exclusions m is n; in the others it is anything.
    lenient: usize,
    /// How many of a hundred rules have a first, a last step.
    first: usize,
    last: usize,
}

impl Size {
    const LARGE: Size = Size {
        rules: 32,
        exclusions: (8, 8),
        users: 40,
        roles: 16,
        privileges: 40,
        values: 12,
        permissions: (32, 61),
        depths: &[1, 2, 2, 3, 3, 4],
        fixed: 20,
        members: 6,
        lenient: 100,
        first: 0,
        last: 10,
    };
}

impl World {
    /// A world in which the same few things meet again and again.
    pub fn small(chance: &mut Chance) -> World {
        let size = Size {
            rules: match chance.below(20) {
                0 => 0,
                1 => chance.from(6, 32),
                _ => chance.from(1, 5),
            },
            exclusions: (1, if chance.percent(10) { 8 } else { 3 }),
            users: chance.from(1, 5),
            roles: chance.from(2, 9),
            privileges: chance.from(3, 9),
            values: chance.from(1, 3),
            permissions: (chance.from(1, 3), 12),
            depths: &[0, 1, 1, 1, 2, 2, 2, 3, 4],
            fixed: 20,
            members: 2,
            lenient: chance.pick(&[10, 60, 95]),
            first: chance.pick(&[0, 30, 60]),
            last: chance.pick(&[10, 50, 90]),
        };
        let mut world = World::of(chance, size);
        if chance.percent(2) {
            world.policy.permissions.clear();
        } else if chance.percent(10) {
            world.policy.permissions.push(vec![]);
        }
        if world.policy.rules.is_empty() && world.policy.permissions.is_empty() {
            world.policy.permissions.push(vec![]);
        }
        world.image = write_policy(&world.policy);
        world
    }

    /// A world of runs that first steps open, over few levels of contexts that go deeper, so that the
    /// steps of one run lie in several contexts.
    pub fn opened(chance: &mut Chance) -> World {
        let size = Size {
            rules: chance.from(1, 3),
            exclusions: (1, 2),
            users: chance.from(2, 4),
            roles: chance.from(3, 6),
            privileges: chance.from(3, 5),
            values: chance.from(1, 3),
            permissions: (2, 40),
            depths: &[0, 1, 1, 1, 2],
            fixed: 10,
            members: 3,
            lenient: 90,
            first: 90,
            last: 50,
        };
        World::of(chance, size)
    }

    /// The biggest policies: 32 rules of 8 exclusions, 64 blocks.
    pub fn large(chance: &mut Chance) -> World {
        let size = Size {
            users: chance.from(5, 40),
            privileges: chance.from(10, 40),
            values: chance.from(2, 12),
            fixed: chance.pick(&[20, 50, 80]),
            members: chance.from(2, 5),
            lenient: chance.pick(&[50, 90, 100]),
            first: chance.pick(&[0, 30]),
            last: chance.pick(&[0, 40, 100]),
            ..Size::LARGE
        };
        World::of(chance, size)
    }

    /// A big policy under which so much is granted and so little forgotten that 128 blocks fill up.
    pub fn lenient(chance: &mut Chance) -> World {
        World::of(chance, Size::LARGE)
    }

    /// The same world with ranges at many levels of its rules, and values that lie about their ends.
    pub fn with_ranges(mut self, chance: &mut Chance) -> World {
        self.values = about_a_range(chance);
        for level in self.policy.rules.iter_mut().flat_map(|r| &mut r.levels) {
            level.mark = match level.mark {
                _ if chance.percent(45) => range(chance, &self.values),
                Mark::Fixed(_) => Mark::Fixed(chance.pick(&self.values)),
                other => other,
            };
        }
        self.image = write_policy(&self.policy);
        self
    }

    /// A small world that has a range for certain.
    pub fn ranged(chance: &mut Chance) -> World {
        loop {
            let world = World::small(chance).with_ranges(chance);
            if world.policy.rules.iter().any(has_range) {
                return world;
            }
        }
    }

    /// A small world, which has a range in half of the cases.
    pub fn either(chance: &mut Chance) -> World {
        match chance.percent(50) {
            true => World::ranged(chance),
            false => World::small(chance),
        }
    }

    fn of(chance: &mut Chance, size: Size) -> World {
        let as_u16 = |numbers: Vec<usize>| numbers.iter().map(|&n| n as u16).collect::<Vec<_>>();
        // Some have the operation in common, some the target.
        let operations = as_u16(chance.different(size.privileges.div_ceil(2), 65535));
        let targets = as_u16(chance.different(3, 65535));
        let mut privileges = vec![];
        while privileges.len() < size.privileges {
            let (operation, target) = (chance.pick(&operations), chance.pick(&targets));
            let privilege = Privilege { operation, target };
            if !privileges.contains(&privilege) {
                privileges.push(privilege);
            }
        }
        let users = chance.different(size.users, u32::MAX as usize);
        let mut world = World {
            policy: Policy {
                rules: vec![],
                permissions: vec![],
            },
            image: vec![],
            users: users.iter().map(|&user| user as u32).collect(),
            roles: as_u16(chance.different(size.roles, 32)),
            privileges,
            kinds: as_u16(chance.different(4, 65535)),
            values: as_u16(chance.different(size.values, 65535)),
        };
        world.policy.rules = (0..size.rules).map(|_| world.rule(chance, &size)).collect();
        let (blocks, most) = size.permissions;
        world.policy.permissions = (0..blocks)
            .map(|_| {
                let entries = chance.from(most / 2, most);
                (0..entries).map(|_| world.permission(chance)).collect()
            })
            .collect();
        world.image = write_policy(&world.policy);
        world
    }

    fn rule(&self, chance: &mut Chance, size: &Size) -> Rule {
        let depth = chance.pick(size.depths);
        let levels = (0..depth)
            .map(|i| self.level(chance, i, size.fixed))
            .collect();
        let first = chance.percent(size.first).then(|| self.privilege(chance));
        let last = chance.percent(size.last).then(|| self.privilege(chance));
        let exclusions = chance.from(size.exclusions.0, size.exclusions.1);
        Rule {
            levels,
            first,
            last: last.filter(|_| last != first),
            exclusions: (0..exclusions)
                .map(|_| self.exclusion(chance, size))
                .collect(),
        }
    }

    fn level(&self, chance: &mut Chance, i: usize, fixed: usize) -> Level {
        let mark = if chance.percent(fixed) {
            Mark::Fixed(self.value(chance))
        } else {
            chance.pick(&[Mark::Every, Mark::Each])
        };
        let kind = self.kind(chance, i);
        Level { kind, mark }
    }

    fn exclusion(&self, chance: &mut Chance, size: &Size) -> Exclusion {
        let of_roles = chance.percent(40);
        let most = if of_roles { self.roles.len().min(8) } else { 8 };
        let n = chance.from(size.members.min(most), most);
        let m = if chance.percent(size.lenient) {
            n
        } else {
            chance.from(2, n)
        };
        let members = if of_roles {
            let mut roles = self.roles.clone();
            while roles.len() > n {
                roles.swap_remove(chance.below(roles.len()));
            }
            Members::Roles(roles)
        } else {
            // Few different ones, so that many are listed more than once.
            let different: Vec<Privilege> = (0..chance.from(1, n))
                .map(|_| self.privilege(chance))
                .collect();
            Members::Privileges((0..n).map(|_| chance.pick(&different)).collect())
        };
        Exclusion { m, members }
    }

    fn permission(&self, chance: &mut Chance) -> Permission {
        Permission {
            role: chance.pick(&self.roles),
            privilege: self.privilege(chance),
        }
    }

    fn privilege(&self, chance: &mut Chance) -> Privilege {
        chance.pick(&self.privileges)
    }

    fn value(&self, chance: &mut Chance) -> u16 {
        chance.pick(&self.values)
    }

    /// The type that belongs at a level; now and then another one.
    fn kind(&self, chance: &mut Chance, level: usize) -> u16 {
        if chance.percent(96) {
            self.kinds[level]
        } else {
            chance.pick(&self.kinds)
        }
    }

    /// A good request. Most are for something that one of the roles is permitted.
    pub fn request(&self, chance: &mut Chance) -> Request {
        if !self.policy.rules.is_empty() && chance.percent(30) {
            return self.request_for_a_rule(chance);
        }
        let (role, privilege) = if chance.percent(92) {
            let privilege = self.permitted_privilege(chance);
            (self.role_for(chance, privilege), privilege)
        } else {
            (chance.pick(&self.roles), self.privilege(chance))
        };
        let depth = chance.pick(&[0, 1, 1, 2, 2, 2, 3, 3, 4, 4, 4]);
        Request {
            user: chance.pick(&self.users),
            roles: self.with_others(chance, role),
            privilege,
            context: self.context(chance, depth),
        }
    }

    /// A request whose context fits some rule, or is one past its range; often for the rule's first or
    /// last step.
    fn request_for_a_rule(&self, chance: &mut Chance) -> Request {
        let rule = chance.pick(&self.policy.rules);
        let step = chance.pick(&[rule.first, rule.last, rule.last]);
        let privilege = step.unwrap_or_else(|| self.permitted_privilege(chance));
        let depth = chance.from(rule.levels.len(), 4);
        let context = self.context_for(chance, &rule, depth);
        self.request_in(chance, privilege, context)
    }

    /// A context at least as deep as the rule's, which fits it or is one past its range.
    fn context_for(&self, chance: &mut Chance, rule: &Rule, depth: usize) -> Context {
        let mut context = self.context(chance, depth);
        for (level, (kind, value)) in rule.levels.iter().zip(&mut context) {
            *kind = level.kind;
            match level.mark {
                Mark::Fixed(wanted) => *value = wanted,
                Mark::Range(low, high) => *value = about(chance, low, high),
                Mark::Every | Mark::Each => {}
            }
        }
        context
    }

    /// Somebody asks for this in some role that is permitted it.
    fn request_in(&self, chance: &mut Chance, privilege: Privilege, context: Context) -> Request {
        let role = self.role_for(chance, privilege);
        Request {
            user: chance.pick(&self.users),
            roles: self.with_others(chance, role),
            privilege,
            context,
        }
    }

    /// What may happen to one run: its first step, other steps of its place in several contexts, the
    /// closing of one of these, and what is asked for after it.
    pub fn episode(&self, chance: &mut Chance) -> Vec<Asked> {
        let rule = chance.pick(&self.policy.rules);
        let base = self.context_for(chance, &rule, rule.levels.len());
        let there = |chance: &mut Chance| {
            let more = chance.from(base.len(), 4);
            let deeper = self.context(chance, more);
            [&base, &deeper[base.len()..]].concat()
        };
        let others: Vec<Privilege> = (self.privileges.iter().copied())
            .filter(|&one| Some(one) != rule.first && Some(one) != rule.last)
            .collect();
        let other = |chance: &mut Chance| match (rule.last, chance.below(12)) {
            (Some(last), 0) => last,
            (_, 1) => self.privilege(chance),
            _ if others.is_empty() => self.privilege(chance),
            _ => chance.pick(&others),
        };
        let opening = if chance.percent(30) {
            base.clone()
        } else {
            there(chance)
        };
        let mut contexts = vec![opening];
        let first = rule.first.unwrap_or_else(|| other(chance));
        let mut asked = vec![self.request_in(chance, first, contexts[0].clone())];
        for _ in 0..chance.from(1, 6) {
            contexts.push(there(chance));
            let (privilege, context) = (other(chance), contexts[contexts.len() - 1].clone());
            asked.push(self.request_in(chance, privilege, context));
        }
        let mut closed = contexts[chance.pick(&[0, 0, 1])].clone();
        closed.truncate(chance.from(base.len(), closed.len()));
        let mut episode: Vec<Asked> = asked.into_iter().map(Asked::Request).collect();
        episode.push(Asked::Closing(closed));
        for _ in 0..chance.from(1, 5) {
            let privilege = match (rule.last, chance.below(4)) {
                (Some(last), 0) => last,
                _ => other(chance),
            };
            let context = there(chance);
            episode.push(Asked::Request(self.request_in(chance, privilege, context)));
        }
        episode
    }

    fn permitted_privilege(&self, chance: &mut Chance) -> Privilege {
        let block = self.policy.permissions.iter().find(|b| !b.is_empty());
        match block {
            Some(block) => chance.pick(block).privilege,
            None => self.privilege(chance),
        }
    }

    /// A role that is permitted the privilege, if there is one.
    fn role_for(&self, chance: &mut Chance, privilege: Privilege) -> u16 {
        let permitted: Vec<u16> = (self.policy.permissions.iter().flatten())
            .filter(|entry| entry.privilege == privilege)
            .map(|entry| entry.role)
            .collect();
        if permitted.is_empty() {
            chance.pick(&self.roles)
        } else {
            chance.pick(&permitted)
        }
    }

    /// A set of active roles: this one, and now and then others.
    fn with_others(&self, chance: &mut Chance, role: u16) -> u32 {
        let mut roles = 1 << (role - 1);
        while chance.percent(20) {
            roles |= 1 << (chance.pick(&self.roles) - 1);
        }
        roles
    }

    fn context(&self, chance: &mut Chance, depth: usize) -> Context {
        (0..depth)
            .map(|i| (self.kind(chance, i), self.value(chance)))
            .collect()
    }

    /// Records that pass a table's check, of any users in any order and with any marks that fit;
    /// mostly no list of requests leads to them. Fewer if no rule fits what chance brings.
    pub fn records(&self, chance: &mut Chance, count: usize) -> Vec<Record> {
        let marks_mask = chance.next() as u32 | chance.next() as u32;
        (0..count)
            .filter_map(|_| {
                let request = self.request(chance);
                let fitting = (self.policy.rules.iter().enumerate())
                    .filter(|(_, rule)| fits(rule, &request.context))
                    .fold(0, |set, (r, _)| set | 1 << r);
                let some = fitting & chance.next() as u32 & marks_mask;
                let marks = if some == 0 { fitting } else { some };
                (marks != 0).then_some(Record { request, marks })
            })
            .collect()
    }

    pub fn stamp(&self) -> (u32, u32) {
        sums(&self.image)
    }
}

pub fn has_range(rule: &Rule) -> bool {
    (rule.levels.iter()).any(|level| matches!(level.mark, Mark::Range(..)))
}

/// Few values, in order: one below a range, its low, one between, its high, one above.
fn about_a_range(chance: &mut Chance) -> Vec<u16> {
    const LAST: usize = u16::MAX as usize;
    let width = chance.pick(&[0, 1, 1, 2, 3, 99, 40_000]);
    let low = match chance.below(4) {
        0 => 1,
        1 => LAST - width,
        _ => chance.from(1, LAST - width),
    };
    let high = low + width;
    let mut values = vec![low - 1, low, low + width / 2, high, high + 1];
    values.retain(|value| (1..=LAST).contains(value));
    values.dedup();
    values.iter().map(|&value| value as u16).collect()
}

/// A range that ends at two of these values or next to them, so that several of them overlap, touch
/// and nest; some begin with 1, some end with 65535.
pub fn range(chance: &mut Chance, values: &[u16]) -> Mark {
    let [one, other] = [(); 2].map(|()| {
        let value = chance.pick(values);
        match chance.below(6) {
            0 => (value - 1).max(1),
            1 => value.saturating_add(1),
            _ => value,
        }
    });
    let (low, high) = (one.min(other), one.max(other));
    match chance.below(12) {
        0 => Mark::Range(1, high),
        1 => Mark::Range(low, u16::MAX),
        _ => Mark::Range(low, high),
    }
}

/// A value at an end of a range or between; now and then one past an end.
fn about(chance: &mut Chance, low: u16, high: u16) -> u16 {
    match chance.below(10) {
        0..=3 => low,
        4..=6 => high,
        7 => chance.from(low.into(), high.into()) as u16,
        8 => (low - 1).max(1),
        _ => high.saturating_add(1),
    }
}

/// A request's bytes; a few in a hundred are damaged in length or content.
pub fn request_bytes(chance: &mut Chance, request: &Request, damaged: usize) -> Vec<u8> {
    let mut bytes = write_request(request).to_vec();
    if !chance.percent(damaged) {
        return bytes;
    }
    match chance.below(8) {
        0 => bytes.truncate(chance.below(REQUEST)),
        1 => bytes.extend((0..chance.from(1, 40)).map(|_| 0)),
        2 => bytes[..4].fill(0),
        3 => bytes[4..8].fill(0),
        4 => {
            let field = 8 + 2 * chance.below(10);
            bytes[field..field + 2].fill(0);
        }
        5 => {
            let level = 12 + 4 * chance.below(4);
            bytes[level..level + 4].fill(0);
        }
        6 => {
            let field = 12 + 2 * chance.below(8);
            bytes[field] ^= 1;
        }
        _ => {
            let at = chance.below(REQUEST);
            bytes[at] = chance.pick(&[0, 1, 2, 255]);
        }
    }
    bytes
}

/// The bytes of a context to be closed, after one in which something is done: mostly a beginning of it,
/// often its first level alone; now and then no level, other numbers, one level more. A few in a
/// hundred are damaged in length or content.
pub fn closing_bytes(chance: &mut Chance, near: &Context) -> Vec<u8> {
    let mut levels = near.clone();
    levels.truncate(match chance.below(20) {
        0 => 0,
        1..=8 => 1,
        9..=13 => 2,
        14..=16 => 3,
        _ => 4,
    });
    match chance.below(20) {
        0 if !levels.is_empty() => {
            let i = chance.below(levels.len());
            levels[i].0 = chance.pick(&levels).1;
        }
        1 if !levels.is_empty() => {
            let i = chance.below(levels.len());
            levels[i].1 = chance.from(1, 65535) as u16;
        }
        2 if levels.len() > 1 => levels.swap(0, 1),
        3 if levels.len() < 4 => levels.push((chance.from(1, 5) as u16, chance.from(1, 5) as u16)),
        4 if !levels.is_empty() => {
            let i = chance.below(levels.len());
            levels[i].0 ^= 1 << chance.below(16);
            levels[i].0 = levels[i].0.max(1);
        }
        _ => {}
    }
    damaged_context(chance, write_context(&levels).to_vec(), 6)
}

/// So many of a hundred are damaged in length or content.
pub fn damaged_context(chance: &mut Chance, mut bytes: Vec<u8>, damaged: usize) -> Vec<u8> {
    if !chance.percent(damaged) {
        return bytes;
    }
    match chance.below(8) {
        0 => bytes.truncate(chance.below(CONTEXT)),
        1 => bytes.extend((0..chance.from(1, 20)).map(|_| 0)),
        2 => bytes.resize(chance.pick(&[0, 15, 17, REQUEST, RECORD]), 1),
        3 | 4 => {
            let field = 2 * chance.below(8);
            bytes[field..field + 2].fill(0);
        }
        5 => {
            let level = 4 * chance.below(4);
            bytes[level..level + 4].fill(0);
        }
        6 => bytes[2 * chance.below(8)] ^= 1,
        _ => bytes[chance.below(CONTEXT)] = chance.pick(&[0, 1, 2, 255]),
    }
    bytes
}
