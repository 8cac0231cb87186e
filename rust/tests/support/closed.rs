//! What a closing meets with, and what decisions meet with after it.

use crate::independent::images::*;
use crate::independent::judge::{begins_with, fits, place, Place};
use crate::independent::Reply;
use std::collections::{BTreeMap, BTreeSet};

/// What of [`MET`] and [`MET_OPENED`] a closing met with that was not refused.
pub fn meets(
    policy: &[u8],
    before: &[u8],
    after: &[u8],
    context: &[u8],
    reply: Reply,
) -> BTreeSet<&'static str> {
    let mut met = BTreeSet::new();
    if !reply.is_refusal() {
        let closing = Closing::read(policy, before, after, context);
        closing.meets_table(before.len() / BLOCK, &mut met);
        closing.meets_records(&mut met);
        closing.meets_runs(&mut met);
    }
    met
}

struct Closing {
    policy: Policy,
    levels: Context,
    before: Vec<Record>,
    after: Vec<Record>,
}

impl Closing {
    fn read(policy: &[u8], before: &[u8], after: &[u8], context: &[u8]) -> Closing {
        let (read, stamp) = (read_policy(policy).expect("a good policy"), sums(policy));
        let records = |table| read_table(&read, stamp, table, fits).expect("a good table");
        Closing {
            levels: read_closing(context).expect("a good context"),
            before: records(before),
            after: records(after),
            policy: read,
        }
    }

    /// How much of the table goes.
    fn meets_table(&self, blocks: usize, met: &mut BTreeSet<&'static str>) {
        let (before, after) = (self.before.len(), self.after.len());
        let (some, by_levels) = (after < before, !self.levels.is_empty());
        note(met, EMPTY, before == 0);
        note(met, NONE, before != 0 && !some);
        note(met, SOME, some && after != 0);
        note(met, ALL, some && after == 0 && by_levels);
        note(met, WHOLE, some && !by_levels);
        note(met, FULL, some && before == places(blocks));
        if some && by_levels {
            met.insert(BY_LEVELS[self.levels.len() - 1]);
        }
    }

    /// How single records lie to the context.
    fn meets_records(&self, met: &mut BTreeSet<&'static str>) {
        let depth = self.levels.len();
        for record in &self.before {
            let context = &record.request.context;
            if begins_with(context, &self.levels) {
                note(met, EQUAL, context.len() == depth);
                note(met, DEEPER, context.len() > depth);
                note(met, OF_TWO_RULES, record.marks.count_ones() > 1);
            } else if context.len() < depth {
                note(met, SHALLOWER, begins_with(&self.levels, context));
            } else {
                let pairs = || self.levels.iter().zip(context);
                let apart: Vec<usize> = (0..depth)
                    .filter(|&i| self.levels[i] != context[i])
                    .collect();
                note(
                    met,
                    OTHER_TYPE,
                    pairs().all(|(one, other)| one.1 == other.1),
                );
                note(
                    met,
                    OTHER_VALUE,
                    pairs().all(|(one, other)| one.0 == other.0),
                );
                if let [alone] = apart[..] {
                    note(met, APART_FIRST, alone == 0 && depth > 1);
                    note(met, APART_MIDDLE, 0 < alone && alone + 1 < depth);
                    note(met, APART_LAST, alone > 0 && alone + 1 == depth);
                }
            }
        }
    }

    /// What it does to the runs.
    fn meets_runs(&self, met: &mut BTreeSet<&'static str>) {
        for (r, rule) in self.policy.rules.iter().enumerate() {
            let after = runs(rule, r, &self.after);
            for (at, run) in runs(rule, r, &self.before) {
                let left = after.get(&at).map_or(&[][..], |run| run);
                note(met, PART, !left.is_empty() && left.len() < run.len());
                if let Some(first) = rule.first {
                    self.meets_opened(first, &run, left, met);
                }
            }
        }
    }

    /// What it does to a run that needed a first step.
    fn meets_opened(
        &self,
        first: Privilege,
        run: &[&Request],
        left: &[&Request],
        met: &mut BTreeSet<&'static str>,
    ) {
        let opens = |one: &&Request| one.privilege == first;
        let ahead = |one: &&Request| {
            one.context.len() < self.levels.len() && begins_with(&self.levels, &one.context)
        };
        note(met, ENDED, left.is_empty());
        if left.is_empty() || left.len() == run.len() {
            return;
        }
        let lost = run.iter().any(opens) && !left.iter().any(opens);
        note(met, LOST, lost);
        note(met, LOST_FROM_ABOVE, lost && left.iter().any(ahead));
        let kept = left.iter().all(opens);
        note(met, KEPT, kept);
        note(met, KEPT_ABOVE, kept && left.iter().any(ahead));
    }
}

fn note(met: &mut BTreeSet<&'static str>, what: &'static str, so: bool) {
    met.extend(so.then_some(what));
}

/// The runs of a rule, rule r + 1, as these records have them.
fn runs<'r>(rule: &Rule, r: usize, records: &'r [Record]) -> BTreeMap<Place, Vec<&'r Request>> {
    let mut runs: BTreeMap<Place, Vec<&Request>> = BTreeMap::new();
    for record in records.iter().filter(|record| record.marks >> r & 1 == 1) {
        let request = &record.request;
        let run = runs.entry(place(rule, &request.context)).or_default();
        run.push(request);
    }
    runs
}

// ---------------------------------------------------------------------------------------------
// After a closing, in a list from a fresh table

/// What a list from a fresh table has come to by its closings.
#[derive(Default)]
pub struct Since {
    /// Whether there was one at all. Before it nothing is looked at, which spares time.
    closed: bool,
    /// The run places in which a closing has ended the run of a rule (from 0) with a first step.
    ended: BTreeSet<(usize, Place)>,
    /// Whether the last closing has removed some of a full table, and nothing was recorded since.
    made_room: bool,
    /// Whether the last call was a grant that removed some.
    just_removed: bool,
}

/// One call that altered a table, or was refused.
pub struct Step<'s> {
    pub policy: &'s [u8],
    pub before: &'s [u8],
    pub after: &'s [u8],
    pub bytes: &'s [u8],
    pub reply: Reply,
}

impl Since {
    /// Takes down a closing: what of [`MET_AFTER`] it met with.
    pub fn closing(&mut self, step: &Step) -> BTreeSet<&'static str> {
        let mut met = BTreeSet::new();
        if step.reply.is_refusal() {
            return met;
        }
        let closing = Closing::read(step.policy, step.before, step.after, step.bytes);
        for (r, rule) in closing.policy.rules.iter().enumerate() {
            let after = runs(rule, r, &closing.after);
            let gone = runs(rule, r, &closing.before).into_keys();
            let gone = gone.filter(|at| rule.first.is_some() && !after.contains_key(at));
            self.ended.extend(gone.map(|at| (r, at)));
        }
        let (removed, all) = (step.reply.first as usize, closing.before.len());
        note(&mut met, AFTER_LAST, self.just_removed);
        self.made_room = removed > 0 && all == places(step.before.len() / BLOCK);
        self.just_removed = false;
        self.closed = true;
        met
    }

    /// Takes down a decision: what of [`MET_AFTER`] it met with.
    pub fn decision(&mut self, step: &Step) -> BTreeSet<&'static str> {
        let mut met = BTreeSet::new();
        let Reply { number, first, .. } = step.reply;
        let granted = number == 0;
        self.just_removed = granted && step.reply.second > 0;
        if self.closed && [0, 32, 33].contains(&number) {
            let policy = read_policy(step.policy).expect("a good policy");
            let records = read_table(&policy, sums(step.policy), step.before, fits);
            let records = records.expect("a good table");
            let request = read_request(step.bytes).expect("a good request");
            for (r, rule) in policy.rules.iter().enumerate() {
                let Some(opening) = rule.first.filter(|_| fits(rule, &request.context)) else {
                    continue;
                };
                let at = place(rule, &request.context);
                let run = runs(rule, r, &records).remove(&at).unwrap_or_default();
                if run.is_empty() {
                    let opens = request.privilege == opening;
                    let ended = granted && self.ended.contains(&(r, at));
                    note(&mut met, SILENT, ended && !opens);
                    note(&mut met, REOPENED, ended && opens);
                    if granted && opens {
                        self.ended.remove(&(r, at));
                    }
                } else if run.iter().all(|one| one.privilege != opening) {
                    // From a fresh table, only a closing takes the first step out of a run.
                    let last = rule.last == Some(request.privilege);
                    note(&mut met, JOINED, granted && !last);
                    note(&mut met, ENDED_LATER, granted && last);
                    let refused = !granted && first as usize == r + 1;
                    note(&mut met, REFUSED, refused);
                }
            }
        }
        if granted && first == 1 {
            note(&mut met, ROOM_TAKEN, self.made_room);
            self.made_room = false;
        }
        met
    }
}

const EMPTY: &str = "a closing of an empty table";
const NONE: &str = "a closing removes none of the records there are";
const SOME: &str = "a closing removes some records and leaves some";
const ALL: &str = "a closing by its levels removes all records";
const WHOLE: &str = "a closing of no level removes all records";
const FULL: &str = "a closing removes some of a full table";
const BY_LEVELS: [&str; 4] = [
    "a closing by one level removes some",
    "a closing by two levels removes some",
    "a closing by three levels removes some",
    "a closing by four levels removes some",
];
const EQUAL: &str = "a record of just the closed context goes";
const DEEPER: &str = "a record of a deeper context goes";
const OF_TWO_RULES: &str = "a record goes that several rules count";
const SHALLOWER: &str = "a record of a context that the closed one begins with stays";
const OTHER_TYPE: &str = "a record stays that has each value but not each type";
const OTHER_VALUE: &str = "a record stays that has each type but not each value";
const APART_FIRST: &str = "a record stays that differs at the first level alone";
const APART_MIDDLE: &str = "a record stays that differs at a middle level alone";
const APART_LAST: &str = "a record stays that differs at the last level alone";
const PART: &str = "a run loses some of its requests to a closing and keeps some";
const ENDED: &str = "a run with a first step loses all its requests to a closing";
const LOST: &str = "a run loses its first step to a closing and keeps others";
const LOST_FROM_ABOVE: &str = "a run loses its first step and keeps one above the closed context";
const KEPT: &str = "a run keeps nothing but first steps after a closing";
const KEPT_ABOVE: &str = "a run keeps its first step, which is above the closed context";

/// What a closing can meet with.
pub const MET: [&str; 21] = [
    EMPTY,
    NONE,
    SOME,
    ALL,
    WHOLE,
    FULL,
    BY_LEVELS[0],
    BY_LEVELS[1],
    BY_LEVELS[2],
    BY_LEVELS[3],
    EQUAL,
    DEEPER,
    OF_TWO_RULES,
    SHALLOWER,
    OTHER_TYPE,
    OTHER_VALUE,
    APART_FIRST,
    APART_MIDDLE,
    APART_LAST,
    PART,
    ENDED,
];

/// The rest of it, where runs are opened by first steps.
pub const MET_OPENED: [&str; 4] = [LOST, LOST_FROM_ABOVE, KEPT, KEPT_ABOVE];

const AFTER_LAST: &str = "a closing directly after a last step that removed some";
const JOINED: &str = "a grant joins a run that has lost its first step to a closing";
const REFUSED: &str = "refused by a rule whose run has lost its first step to a closing";
const ENDED_LATER: &str = "a last step ends a run that has lost its first step to a closing";
const SILENT: &str = "a rule with a first step is silent again where a closing ended its run";
const REOPENED: &str = "a first step opens a run again that a closing ended";
const ROOM_TAKEN: &str = "a request is recorded after a closing of a full table";

/// All that is met with in a list from a fresh table after a closing.
pub const MET_AFTER: [&str; 7] = [
    AFTER_LAST,
    JOINED,
    REFUSED,
    ENDED_LATER,
    SILENT,
    REOPENED,
    ROOM_TAKEN,
];

/// Of both, what is met with where a table is full before the first closing.
pub const MET_WHEN_FULL: [&str; 3] = [SOME, FULL, ROOM_TAKEN];
