//! Tables in which one to three users have done much, and policies that count it closely.
//!
//! What was done comes first, the exclusions after it: under most of them the user that most
//! requests are of stands just below m, under a few at m. So an answer becomes another as soon as
//! one role or one privilege is counted wrongly.

use super::chance::Chance;
use super::world::range;
use crate::independent::images::*;
use crate::independent::judge::{fits, place, Tally};
use std::collections::BTreeSet;

// ---------------------------------------------------------------------------------------------
// Privileges

/// What the privileges of a table are drawn from; each is there for something in the engine's way
/// of counting (crates/tally, crates/verdict).
#[derive(Clone, Copy, PartialEq, Eq)]
pub enum Pool {
    /// Thousands, operations and targets both varying.
    Thousands,
    /// Several hundred, all of which the engine looks for in one tree.
    OneTree,
    /// 55 to 66, where the engine has room for 60 at first.
    Sixty,
    /// Three, each done 10 to 20 times, where the engine counts up to 15.
    Three,
}

/// The engine's trees, by the remainder of a privilege's word.
const TREES: u32 = 1021;

fn tree_of(privilege: Privilege) -> usize {
    let word = u32::from(privilege.operation) | u32::from(privilege.target) << 16;
    (word % TREES) as usize
}

impl Pool {
    pub const ALL: [Pool; 4] = [Pool::Thousands, Pool::OneTree, Pool::Sixty, Pool::Three];

    pub fn name(self) -> &'static str {
        match self {
            Pool::Thousands => "pool of thousands",
            Pool::OneTree => "pool of one tree",
            Pool::Sixty => "pool of about sixty",
            Pool::Three => "pool of three",
        }
    }

    /// The blocks of a table.
    fn blocks(self, chance: &mut Chance) -> usize {
        let (first, last) = match self {
            Pool::Three => (1, 12),
            Pool::Sixty if chance.percent(80) => (4, 16),
            _ => chance.pick(&[(1, 8), (1, 8), (9, 24), (9, 24), (25, 64), (65, 128)]),
        };
        chance.from(first, last)
    }

    fn privileges(self, chance: &mut Chance) -> Vec<Privilege> {
        let count = match self {
            Pool::Thousands => chance.from(2_000, 4_000),
            Pool::OneTree => chance.from(200, 900),
            Pool::Sixty => chance.from(55, 66),
            Pool::Three => 3,
        };
        let one_tree = match self {
            Pool::Thousands => false,
            Pool::OneTree => true,
            Pool::Sixty | Pool::Three => chance.percent(25),
        };
        let any = chance.below(TREES as usize) as u32;
        let tree = chance.pick(&[0, TREES - 1, any, any]);
        let (mut all, mut different) = (vec![], BTreeSet::new());
        while all.len() < count {
            let privilege = if one_tree {
                privilege_in(chance, tree)
            } else {
                any_privilege(chance)
            };
            if different.insert(privilege) {
                all.push(privilege);
            }
        }
        all
    }
}

/// Some have the operation in common, some the target.
fn any_privilege(chance: &mut Chance) -> Privilege {
    let (operations, targets) = (chance.pick(&[60, 65535]), chance.pick(&[60, 65535]));
    Privilege {
        operation: chance.from(1, operations) as u16,
        target: chance.from(1, targets) as u16,
    }
}

fn privilege_in(chance: &mut Chance, tree: u32) -> Privilege {
    let target = chance.from(1, 65535) as u32;
    let lowest = (tree + TREES - (target << 16) % TREES) % TREES;
    // Never the lowest, which may be 0.
    let operation = lowest + TREES * chance.from(1, 63) as u32;
    Privilege {
        operation: operation as u16,
        target: target as u16,
    }
}

// ---------------------------------------------------------------------------------------------
// Marks and roles

/// The rules for which the records of a table are marked.
#[derive(Clone, Copy)]
enum Marks {
    /// All that fit.
    All,
    /// Any of them.
    Any,
    /// One of them.
    One,
    /// More and more of them from record to record.
    Growing,
}

impl Marks {
    /// Marks out of `fitting`, which is not empty, for record i of `count`. Growing ones begin with
    /// rule `from`.
    fn of(self, chance: &mut Chance, fitting: u32, i: usize, count: usize, from: u32) -> u32 {
        let marks = match self {
            Marks::All => fitting,
            Marks::Any => fitting & chance.next() as u32,
            Marks::One => 0,
            Marks::Growing => fitting & (u32::MAX >> (31 - 32 * i / count)).rotate_left(from),
        };
        if marks == 0 {
            let from = chance.below(32) as u32;
            let turned = fitting.rotate_right(from);
            (turned & turned.wrapping_neg()).rotate_left(from)
        } else {
            marks
        }
    }
}

/// The sets of active roles that a table's records have: one set for all, a few, each role for
/// itself, or any sets, of which hardly two are the same.
fn role_sets(chance: &mut Chance) -> Vec<u32> {
    let count = if chance.percent(5) {
        32
    } else {
        chance.from(1, 24)
    };
    let roles = chance.different(count, 32);
    let with = |set, role: &usize| set | 1 << (role - 1);
    let some = |chance: &mut Chance, of_a_hundred| {
        let one = chance.pick(&roles);
        let others = roles.iter().filter(|_| chance.percent(of_a_hundred));
        others.fold(with(0, &one), with)
    };
    match chance.below(4) {
        0 => vec![some(chance, 50)],
        1 => (0..chance.from(2, 4)).map(|_| some(chance, 30)).collect(),
        2 => roles.iter().map(|role| with(0, role)).collect(),
        _ => (0..2_000).map(|_| some(chance, 30)).collect(),
    }
}

// ---------------------------------------------------------------------------------------------
// Policy, records and requests

pub struct Busy {
    pub policy: Policy,
    pub image: Vec<u8>,
    pub blocks: usize,
    pub records: Vec<Record>,
    /// The first user and the first context are those of most records and requests.
    users: Vec<u32>,
    contexts: Vec<Context>,
    privileges: Vec<Privilege>,
    /// The first and last steps.
    steps: [Privilege; 3],
    /// What requests are for, and a role that is permitted all of it and that no exclusion has.
    asked: Vec<Privilege>,
    plain: u16,
}

/// What was done: by which user, in which context.
struct Deed {
    user: usize,
    context: usize,
    privilege: Privilege,
}

impl Busy {
    pub fn new(chance: &mut Chance, pool: Pool) -> Busy {
        // Now and then as many privileges as a table can hold, by one user in one context.
        let most = pool == Pool::Thousands && chance.percent(6);
        let alone = most || chance.percent(40);
        let users = if alone { 1 } else { chance.from(1, 3) };
        let users = chance.different(users, u32::MAX as usize);
        let privileges = pool.privileges(chance);
        let done = chance.pick(&privileges);
        let steps = [any_privilege(chance), done, any_privilege(chance)];
        let mut busy = Busy {
            policy: Policy {
                rules: vec![],
                permissions: vec![],
            },
            image: vec![],
            blocks: if most { 128 } else { pool.blocks(chance) },
            records: vec![],
            users: users.iter().map(|&user| user as u32).collect(),
            contexts: vec![],
            privileges,
            steps,
            asked: vec![],
            plain: chance.from(1, 32) as u16,
        };
        busy.add_rules(chance, alone);
        let places = places(busy.blocks);
        let count = match chance.below(8) {
            _ if most => places,
            0 => 0,
            1 => chance.from(0, places),
            2..=4 => places - chance.below(places.min(5)),
            _ => places - chance.below(places / 4),
        };
        let deeds = match pool {
            Pool::Three => busy.deeds_by_lots(chance, count),
            _ => busy.deeds(chance, count, most),
        };
        busy.add_records(chance, &deeds);
        busy.add_exclusions(chance);
        busy.add_permissions(chance);
        busy.image = write_policy(&busy.policy);
        busy
    }

    pub fn stamp(&self) -> (u32, u32) {
        sums(&self.image)
    }

    /// Rules, as yet without exclusions, and contexts that some of them fit.
    fn add_rules(&mut self, chance: &mut Chance, alone: bool) {
        let as_u16 = |numbers: Vec<usize>| numbers.iter().map(|&n| n as u16).collect::<Vec<_>>();
        let kinds = as_u16(chance.different(4, 65535));
        let values = chance.from(1, 3);
        let values = as_u16(chance.different(values, 65535));
        let contexts = if alone { 1 } else { chance.from(1, 6) };
        for _ in 0..contexts {
            let depth = chance.pick(&[1, 2, 3, 4, 4, 4, 4]);
            let used = kinds[..depth].iter();
            let context = used.map(|&kind| (kind, chance.pick(&values)));
            self.contexts.push(context.collect());
        }
        let rules = match chance.below(4) {
            0 | 1 => chance.from(1, 4),
            2 => chance.from(5, 16),
            _ => chance.from(17, 32),
        };
        // Of a hundred levels so many have a fixed value, so many tell run places apart, so many are
        // ranges.
        let (fixed, each, ranged) = chance.pick(&[(0, 0, 0), (0, 40, 0), (15, 30, 0), (5, 20, 40)]);
        let (first, last) = (chance.pick(&[0, 0, 0, 40]), chance.pick(&[0, 30, 100]));
        let one_last = chance.percent(50);
        for _ in 0..rules {
            let used = kinds[..chance.below(5)].iter();
            let levels = used.map(|&kind| {
                let mark = match chance.below(100) {
                    one if one < fixed => Mark::Fixed(chance.pick(&values)),
                    one if one < fixed + each => Mark::Each,
                    one if one < fixed + each + ranged => range(chance, &values),
                    _ => Mark::Every,
                };
                Level { kind, mark }
            });
            let levels = levels.collect();
            let step = if one_last { 0 } else { chance.below(3) };
            let last = chance.percent(last).then_some(self.steps[step]);
            let first = chance.percent(first).then(|| chance.pick(&self.steps));
            self.policy.rules.push(Rule {
                levels,
                first: first.filter(|_| first != last),
                last,
                exclusions: vec![],
            });
        }
        let rules = &mut self.policy.rules;
        if !rules.iter().any(|rule| fits(rule, &self.contexts[0])) {
            rules[0].levels.clear();
        }
        let useful = |context: &Context| rules.iter().any(|rule| fits(rule, context));
        self.contexts.retain(useful);
    }

    /// So many deeds of what there is, each user's in turn or by chance.
    fn deeds(&self, chance: &mut Chance, count: usize, in_turn: bool) -> Vec<Deed> {
        let in_turn = in_turn || chance.percent(70);
        let mut turns: Vec<usize> = (self.users.iter())
            .map(|_| chance.below(self.privileges.len()))
            .collect();
        let deed = |_| {
            let (user, context) = self.somebody(chance);
            let at = if in_turn {
                turns[user] += 1;
                turns[user] % self.privileges.len()
            } else {
                chance.below(self.privileges.len())
            };
            Deed {
                user,
                context,
                privilege: self.privileges[at],
            }
        };
        (0..count).map(deed).collect()
    }

    /// So many deeds in lots of one user and one context, in which each privilege is done 10 to 20
    /// times.
    fn deeds_by_lots(&self, chance: &mut Chance, count: usize) -> Vec<Deed> {
        let mut deeds = vec![];
        let (mut user, mut context) = (0, 0);
        while deeds.len() < count {
            for &privilege in &self.privileges {
                deeds.extend((0..chance.from(10, 20)).map(|_| Deed {
                    user,
                    context,
                    privilege,
                }));
            }
            user = chance.below(self.users.len());
            context = chance.below(self.contexts.len());
        }
        deeds.truncate(count);
        chance.shuffle(&mut deeds);
        deeds
    }

    /// A user and a context, mostly the first ones.
    fn somebody(&self, chance: &mut Chance) -> (usize, usize) {
        let some = |chance: &mut Chance, count| {
            if chance.percent(60) {
                0
            } else {
                chance.below(count)
            }
        };
        let user = some(chance, self.users.len());
        (user, some(chance, self.contexts.len()))
    }

    fn add_records(&mut self, chance: &mut Chance, deeds: &[Deed]) {
        let sets = role_sets(chance);
        let marks = chance.pick(&[Marks::All, Marks::Any, Marks::One, Marks::Growing]);
        let from = chance.below(32) as u32;
        for (i, deed) in deeds.iter().enumerate() {
            let context = self.contexts[deed.context].clone();
            let fitting = self.fitting(&context);
            self.records.push(Record {
                request: Request {
                    user: self.users[deed.user],
                    roles: chance.pick(&sets),
                    privilege: deed.privilege,
                    context,
                },
                marks: marks.of(chance, fitting, i, deeds.len(), from),
            });
        }
    }

    /// The rules that a context fits, rule r at bit r - 1.
    fn fitting(&self, context: &Context) -> u32 {
        (self.policy.rules.iter().enumerate())
            .filter(|(_, rule)| fits(rule, context))
            .fold(0, |set, (r, _)| set | 1 << r)
    }

    /// Gives each rule its exclusions, by what the first user did in the first context.
    fn add_exclusions(&mut self, chance: &mut Chance) {
        // Of a hundred exclusions so many have m reached.
        let rules = self.policy.rules.len();
        let reached = if chance.percent(45) {
            40 / rules + 1
        } else {
            0
        };
        let most = chance.pick(&[1, 3, 8]);
        for r in 0..rules {
            let run = self.run(r);
            let exclusions = (0..chance.from(1, most))
                .map(|_| self.exclusion(chance, &run, reached))
                .collect();
            self.policy.rules[r].exclusions = exclusions;
        }
    }

    /// What the first user did in the run of a rule (from 0) in the first context.
    fn run(&self, r: usize) -> Vec<Request> {
        let (rule, context) = (&self.policy.rules[r], &self.contexts[0]);
        if !fits(rule, context) {
            return vec![];
        }
        let here = place(rule, context);
        (self.records.iter())
            .filter(|record| record.marks >> r & 1 == 1)
            .map(|record| &record.request)
            .filter(|done| done.user == self.users[0] && place(rule, &done.context) == here)
            .cloned()
            .collect()
    }

    /// An exclusion under which a user who did this has one less than m, mostly; of a hundred so
    /// many have m reached.
    fn exclusion(&self, chance: &mut Chance, run: &[Request], reached: usize) -> Exclusion {
        let reached = chance.percent(reached);
        let n = chance.pick(&[2, 3, 4, 5, 6, 7, 8, 8, 8]);
        let members = if reached && !run.is_empty() && chance.percent(50) {
            Members::Privileges(vec![run[chance.below(run.len())].privilege; n])
        } else if chance.percent(40) {
            Members::Roles(self.member_roles(chance, run, n))
        } else {
            Members::Privileges(self.member_privileges(chance, run, n))
        };
        let mut exclusion = Exclusion { m: n, members };
        let mut counted = count(&exclusion, run);
        if counted == n && !reached {
            if let Members::Privileges(members) = &mut exclusion.members {
                members[chance.below(n)] = self.new_privilege(chance, run);
            }
            counted = count(&exclusion, run);
        }
        let next = n.min(counted + 1);
        let m = match chance.below(4) {
            0 if reached => counted.div_ceil(2),
            _ if reached => counted,
            0 => chance.from(next, n),
            _ => next,
        };
        exclusion.m = m.clamp(2, n);
        exclusion
    }

    /// Roles, not all of which were active if that can be.
    fn member_roles(&self, chance: &mut Chance, run: &[Request], n: usize) -> Vec<u16> {
        let active = run.iter().fold(0, |all, done| all | done.roles);
        let (mut known, mut new): (Vec<u16>, Vec<u16>) = (1..=32)
            .filter(|&role| role != self.plain)
            .partition(|role| active >> (role - 1) & 1 == 1);
        chance.shuffle(&mut known);
        chance.shuffle(&mut new);
        let rest = known.split_off(chance.below(n).min(known.len()));
        let mut roles: Vec<u16> = (known.into_iter().chain(new).chain(rest)).take(n).collect();
        chance.shuffle(&mut roles);
        roles
    }

    /// Few different ones, so that many are listed more than once.
    fn member_privileges(&self, chance: &mut Chance, run: &[Request], n: usize) -> Vec<Privilege> {
        let different: Vec<Privilege> = (0..chance.from(1, 4))
            .map(|_| {
                if run.is_empty() || chance.percent(25) {
                    self.new_privilege(chance, run)
                } else {
                    run[chance.below(run.len())].privilege
                }
            })
            .collect();
        (0..n).map(|_| chance.pick(&different)).collect()
    }

    /// A privilege that was not done, mostly: one of the pool, one in the tree of such a one, or any.
    fn new_privilege(&self, chance: &mut Chance, run: &[Request]) -> Privilege {
        let one = chance.pick(&self.privileges);
        if run.iter().all(|done| done.privilege != one) && chance.percent(60) {
            return one;
        }
        if chance.percent(50) {
            privilege_in(chance, tree_of(one) as u32)
        } else {
            any_privilege(chance)
        }
    }

    /// Permits what is asked for: members of exclusions, above all those that the first user has
    /// not done, other privileges that were done or not, and steps.
    fn add_permissions(&mut self, chance: &mut Chance) {
        let done: BTreeSet<Privilege> = (self.records.iter())
            .filter(|record| record.request.user == self.users[0])
            .map(|record| record.request.privilege)
            .collect();
        let exclusions = self.policy.rules.iter().flat_map(|rule| &rule.exclusions);
        let members: Vec<Privilege> = exclusions
            .filter_map(|exclusion| match &exclusion.members {
                Members::Roles(_) => None,
                Members::Privileges(members) => Some(members),
            })
            .flatten()
            .copied()
            .collect();
        let new: Vec<Privilege> = members
            .iter()
            .filter(|one| !done.contains(one))
            .copied()
            .collect();
        let done: Vec<Privilege> = done.into_iter().collect();
        let mut asked = self.steps.to_vec();
        for _ in 0..8 {
            for list in [&members, &new, &done, &self.privileges] {
                if !list.is_empty() {
                    asked.push(chance.pick(list));
                }
            }
            asked.push(any_privilege(chance));
        }
        let permit = |role| {
            let entry = |&privilege: &Privilege| Permission { role, privilege };
            asked.iter().map(entry).collect()
        };
        let other = chance.from(1, 32) as u16;
        self.policy.permissions = vec![permit(self.plain), permit(other)];
        self.asked = asked;
    }

    pub fn request(&self, chance: &mut Chance) -> Request {
        let user = match chance.below(20) {
            0 => chance.from(1, 50) as u32,
            1..=3 => chance.pick(&self.users),
            _ => self.users[0],
        };
        let mut context = if chance.percent(15) {
            chance.pick(&self.contexts)
        } else {
            self.contexts[0].clone()
        };
        if chance.percent(5) {
            context.truncate(chance.below(4));
        }
        let privilege = match chance.below(20) {
            0 => chance.pick(&self.steps),
            1..=2 => self.steps[0],
            _ => chance.pick(&self.asked),
        };
        Request {
            user,
            roles: self.request_roles(chance),
            privilege,
            context,
        }
    }

    /// Mostly the plain role, with or without others; some of these were active before.
    fn request_roles(&self, chance: &mut Chance) -> u32 {
        let plain = 1 << (self.plain - 1);
        let any = 1 << chance.below(32);
        match (chance.below(20), self.records.len()) {
            (0, _) => any,
            (1..=4, _) => plain | any,
            (5..=7, 1..) => plain | any | chance.pick(&self.records).request.roles,
            _ => plain,
        }
    }

    // -----------------------------------------------------------------------------------------
    // What the engine meets with

    /// What there is to count for a request: some of [`MET`].
    pub fn meets(&self, records: &[Record], request: &Request) -> BTreeSet<&'static str> {
        let rules = &self.policy.rules;
        let fitting = self.fitting(&request.context);
        let counting = |record: &Record| {
            let (one, other) = (&request.context, &record.request.context);
            bits(record.marks & fitting)
                .filter(|&r| place(&rules[r], one) == place(&rules[r], other))
                .fold(0, |set, r| set | 1 << r)
        };
        let counted: Vec<Counted> = (records.iter())
            .filter(|record| record.request.user == request.user)
            .map(|record| (&record.request, counting(record)))
            .filter(|&(_, rules)| rules != 0)
            .collect();
        let mut met = BTreeSet::new();
        meets_privileges(&counted, &mut met);
        meets_roles(&counted, &mut met);
        for r in bits(fitting) {
            for exclusion in &rules[r].exclusions {
                meets_times(&counted, r, exclusion, &mut met);
            }
        }
        met
    }
}

/// A record of the user, and the rules that count it for the request.
type Counted<'r> = (&'r Request, u32);

/// What the tables here are there for.
pub const MET: [&str; 11] = [
    "60 privileges",
    "61 privileges",
    "62 privileges or more",
    "1,920 privileges",
    "100 privileges in a tree",
    "a role known under all rules so far under a new one",
    "a member done 15 times",
    "a member done 16 times",
    "a member done 17 times",
    "a member done 18 times or more",
    "a member listed 8 times, to be done 8 times, done 7 times or more",
];

fn meets_privileges(counted: &[Counted], met: &mut BTreeSet<&'static str>) {
    let different: BTreeSet<Privilege> = counted.iter().map(|(done, _)| done.privilege).collect();
    met.extend(match different.len() {
        60 => Some(MET[0]),
        61 => Some(MET[1]),
        62..1_920 => Some(MET[2]),
        1_920 => Some(MET[3]),
        _ => None,
    });
    let mut trees = [0; TREES as usize];
    for privilege in different {
        trees[tree_of(privilege)] += 1;
    }
    met.extend(trees.iter().any(|&long| long >= 100).then_some(MET[4]));
}

fn meets_roles(counted: &[Counted], met: &mut BTreeSet<&'static str>) {
    let (mut active, mut ever) = ([0; 32], 0);
    for &(done, rules) in counted {
        let new = ever != 0 && rules & !ever != 0;
        for role in bits(done.roles) {
            met.extend((new && active[role] == ever).then_some(MET[5]));
            active[role] |= rules;
        }
        ever |= rules;
    }
}

/// How often an exclusion of a rule (from 0) lists its first member, and how often that was done.
fn meets_times(
    counted: &[Counted],
    r: usize,
    exclusion: &Exclusion,
    met: &mut BTreeSet<&'static str>,
) {
    let Members::Privileges(members) = &exclusion.members else {
        return;
    };
    let times = (counted.iter())
        .filter(|(done, rules)| done.privilege == members[0] && rules >> r & 1 == 1)
        .count();
    met.extend(match times {
        15 => Some(MET[6]),
        16 => Some(MET[7]),
        17 => Some(MET[8]),
        18.. => Some(MET[9]),
        _ => None,
    });
    let all_of_eight = exclusion.m == 8 && members[..] == [members[0]; 8];
    met.extend((all_of_eight && times >= 7).then_some(MET[10]));
}

/// What an exclusion counts of this.
fn count(exclusion: &Exclusion, run: &[Request]) -> usize {
    let tally = Tally::new(exclusion);
    let tally = run.iter().fold(tally, |tally, done| tally.take_in(done));
    tally.count()
}

/// The members of a set, from 0.
fn bits(set: u32) -> impl Iterator<Item = usize> {
    (0..32).filter(move |i| set >> i & 1 == 1)
}
