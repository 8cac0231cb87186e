//! What a decision meets with where rules have ranges.

use super::world::has_range;
use crate::independent::images::*;
use crate::independent::judge::{fits, place, Tally};
use crate::independent::Reply;
use std::collections::BTreeSet;

/// What of [`MET`] a decision met with that the judge has answered; nothing under a policy without a
/// range.
pub fn meets(policy: &[u8], table: &[u8], request: &[u8], reply: Reply) -> BTreeSet<&'static str> {
    let mut met = BTreeSet::new();
    let judged = [0, 32, 33, 34].contains(&reply.number);
    if judged && some_byte_is_a_range(policy) {
        let decision = Decision::read(policy, table, request, reply);
        let ranged = || (decision.rules()).filter(|(_, rule)| has_range(rule));
        for (r, rule) in ranged() {
            decision.meets_context(rule, &mut met);
            decision.meets_rule(r, rule, &mut met);
            for (_, other) in ranged().filter(|&(q, _)| q != r) {
                decision.meets_two(rule, other, &mut met);
            }
        }
    }
    met
}

/// Spares reading the policies that have no range.
fn some_byte_is_a_range(policy: &[u8]) -> bool {
    (policy.chunks_exact(BLOCK))
        .any(|block| block[0] == 1 && (0..4).any(|i| block[18 + 8 * i] == 4))
}

struct Decision {
    policy: Policy,
    records: Vec<Record>,
    request: Request,
    reply: Reply,
}

impl Decision {
    fn read(policy: &[u8], table: &[u8], request: &[u8], reply: Reply) -> Decision {
        let read = read_policy(policy).expect("a good policy");
        Decision {
            records: read_table(&read, sums(policy), table, fits).expect("a good table"),
            policy: read,
            request: read_request(request).expect("a good request"),
            reply,
        }
    }

    /// The rules, from 0.
    fn rules(&self) -> impl Iterator<Item = (usize, &Rule)> {
        self.policy.rules.iter().enumerate()
    }

    /// Where the context lies at the ranges of a rule.
    fn meets_context(&self, rule: &Rule, met: &mut BTreeSet<&'static str>) {
        let context = &self.request.context;
        for (i, level) in rule.levels.iter().enumerate() {
            let (Mark::Range(low, high), Some(&(kind, value))) = (level.mark, context.get(i))
            else {
                continue;
            };
            if !fits_but_at(rule, context, i) {
                continue;
            }
            let (same, within) = (kind == level.kind, low <= value && value <= high);
            let wide = low < high;
            note(met, AT_LOW, same && wide && value == low);
            note(met, AT_HIGH, same && wide && value == high);
            note(met, BETWEEN, same && low < value && value < high);
            note(met, ONE_WIDE, same && !wide && within);
            note(met, AT_1, same && low == 1 && value == 1);
            note(met, AT_65535, same && high == u16::MAX && value == u16::MAX);
            note(met, BELOW, same && value.checked_add(1) == Some(low));
            note(met, ABOVE, same && high.checked_add(1) == Some(value));
            note(met, OTHER_TYPE, !same && within);
        }
    }

    /// What a rule with a range (from 0) makes of the request.
    fn meets_rule(&self, r: usize, rule: &Rule, met: &mut BTreeSet<&'static str>) {
        let (step, context) = (Some(self.request.privilege), &self.request.context);
        if !fits(rule, context) {
            return;
        }
        let run = self.run(r, rule);
        let (begins, opened) = (rule.first == step, !run.is_empty());
        if !(rule.first.is_none() || begins || opened) {
            return;
        }
        let elsewhere = |one: &&Request| self.is_elsewhere(rule, one);
        let shared = run.iter().any(elsewhere);
        let opened_elsewhere = opened && run.iter().all(elsewhere);
        note(met, JUDGES, true);
        note(met, AT_SEVERAL, at_ranges(rule, context).len() > 1);
        note(met, SHARED, shared);
        let needs_opening = rule.first.is_some() && !begins;
        note(met, OPENED, needs_opening && opened_elsewhere);
        match self.reply.number {
            0 => note(met, CLEARED, rule.last == step && shared),
            32 | 33 if self.reply.first as usize == r + 1 => self.meets_refusal(rule, &run, met),
            _ => {}
        }
    }

    /// The requests that count for a rule (from 0) in the run place of this one.
    fn run(&self, r: usize, rule: &Rule) -> Vec<&Request> {
        let here = place(rule, &self.request.context);
        (self.records.iter())
            .filter(|record| record.marks >> r & 1 == 1)
            .map(|record| &record.request)
            .filter(|earlier| place(rule, &earlier.context) == here)
            .collect()
    }

    /// Whether another request has another value at a range of the rule.
    fn is_elsewhere(&self, rule: &Rule, other: &Request) -> bool {
        at_ranges(rule, &other.context) != at_ranges(rule, &self.request.context)
    }

    /// What a rule that refuses the request has counted in this run.
    fn meets_refusal(&self, rule: &Rule, run: &[&Request], met: &mut BTreeSet<&'static str>) {
        note(met, BY_32, self.reply.number == 32);
        note(met, BY_33, self.reply.number == 33);
        let exclusion = &rule.exclusions[self.reply.second as usize - 1];
        let done_here = (run.iter())
            .filter(|one| one.user == self.request.user && !self.is_elsewhere(rule, one))
            .fold(Tally::new(exclusion), |tally, one| tally.take_in(one))
            .take_in(&self.request);
        note(met, FOR_ELSEWHERE, !done_here.reaches_m());
    }

    /// How two rules with ranges part: the second fits, or not, by one level's range alone.
    fn meets_two(&self, fitting: &Rule, other: &Rule, met: &mut BTreeSet<&'static str>) {
        let context = &self.request.context;
        if !fits(fitting, context) {
            return;
        }
        for (i, (one, two)) in fitting.levels.iter().zip(&other.levels).enumerate() {
            let (Mark::Range(low, high), Mark::Range(from, to)) = (one.mark, two.mark) else {
                continue;
            };
            if one.kind != two.kind || !fits_but_at(other, context, i) {
                continue;
            }
            let fit_both = from <= context[i].1 && context[i].1 <= to;
            let overlap =
                (low < from && from < high && high < to) || (from < low && low < to && to < high);
            note(met, OVERLAP, overlap && !fit_both);
            note(met, OVERLAP_BOTH, overlap && fit_both);
            note(met, NESTED, low <= from && to <= high && !fit_both);
            note(
                met,
                TOUCH,
                high == from && low < high && from < to && fit_both,
            );
            let side_by_side = high.checked_add(1) == Some(from) || to.checked_add(1) == Some(low);
            note(met, SIDE_BY_SIDE, side_by_side);
        }
    }
}

fn note(met: &mut BTreeSet<&'static str>, what: &'static str, so: bool) {
    met.extend(so.then_some(what));
}

/// Whether a context fits a rule when nothing is asked of this level.
fn fits_but_at(rule: &Rule, context: &Context, level: usize) -> bool {
    let mut rule = rule.clone();
    let mut context = context.clone();
    if level < context.len() {
        rule.levels.remove(level);
        context.remove(level);
    }
    fits(&rule, &context)
}

/// The values of a fitting context at the ranges of a rule.
fn at_ranges(rule: &Rule, context: &Context) -> Vec<u16> {
    (rule.levels.iter().zip(context))
        .filter(|(level, _)| matches!(level.mark, Mark::Range(..)))
        .map(|(_, &(_, value))| value)
        .collect()
}

const JUDGES: &str = "a rule with a range judges";
const AT_SEVERAL: &str = "a rule with two ranges or more judges";
const BY_32: &str = "refused by 32 by a rule with a range";
const BY_33: &str = "refused by 33 by a rule with a range";
const FOR_ELSEWHERE: &str = "refused for what was done at another value of a range";
const SHARED: &str = "a run place shared by two values of a range";
const OPENED: &str = "a run that was opened at another value of a range";
const CLEARED: &str = "a last step clears the mark of a record at another value of a range";
const AT_LOW: &str = "a context at the low of a range";
const AT_HIGH: &str = "a context at the high of a range";
const BETWEEN: &str = "a context between the ends of a range";
const ONE_WIDE: &str = "a context in a range of one value";
const AT_1: &str = "a context at 1 in a range from 1";
const AT_65535: &str = "a context at 65535 in a range to 65535";
const BELOW: &str = "a context that does not fit as it is one below a range";
const ABOVE: &str = "a context that does not fit as it is one above a range";
const OTHER_TYPE: &str = "a context that does not fit as its value in a range is of another type";
const OVERLAP: &str = "of two ranges that overlap one fits";
const OVERLAP_BOTH: &str = "two ranges that overlap fit";
const NESTED: &str = "of two ranges that nest the outer one fits";
const TOUCH: &str = "two ranges fit that have but that value in common";
const SIDE_BY_SIDE: &str = "of two ranges side by side one fits";

/// Of these, what tables must meet in which a user has done much.
pub const COUNTED: [&str; 4] = [JUDGES, BY_32, BY_33, SHARED];

/// What tables must meet from which last steps clear marks.
pub const ENDED: [&str; 3] = [JUDGES, SHARED, CLEARED];

/// All of it.
pub const MET: [&str; 22] = [
    JUDGES,
    AT_SEVERAL,
    BY_32,
    BY_33,
    FOR_ELSEWHERE,
    SHARED,
    OPENED,
    CLEARED,
    AT_LOW,
    AT_HIGH,
    BETWEEN,
    ONE_WIDE,
    AT_1,
    AT_65535,
    BELOW,
    ABOVE,
    OTHER_TYPE,
    OVERLAP,
    OVERLAP_BOTH,
    NESTED,
    TOUCH,
    SIDE_BY_SIDE,
];
