//! The full register of document 01, with the closings of document 02: the list of all granted requests
//! and of all closings, nothing dropped.
//!
//! It knows the policy and the number of blocks, and never sees a table.

use super::images::*;
use super::judge::{begins_with, fits, judging_rules, place, Place, Tally};
use super::{refuse_unless, Answer, Reply};
use std::collections::{BTreeMap, BTreeSet};

/// "In the register a closing is an entry of its own kind."
enum Entry {
    Grant(Request),
    Closing(Context),
}

/// The requests of a run, each with where it stands in the list.
type Run<'e> = Vec<(usize, &'e Request)>;

pub struct Register {
    policy: Policy,
    stamp: (u32, u32),
    blocks: usize,
    entries: Vec<Entry>,
    /// For each entry the rules that have it in a run, rule r at bit r - 1; none for a closing. It
    /// follows from `entries`, and is kept only to spare working it out twice.
    counted: Vec<u32>,
}

impl Register {
    /// The empty register of an accepted policy and a table of so many blocks.
    pub fn new(policy: &[u8], blocks: usize) -> Register {
        Register {
            policy: read_policy(policy).expect("the policy is accepted"),
            stamp: sums(policy),
            blocks,
            entries: vec![],
            counted: vec![],
        }
    }

    /// The answer to a request of any bytes and length; a grant is taken down.
    pub fn answer(&mut self, request: &[u8]) -> Reply {
        match self.judge(request) {
            Ok((grant, entry, counted)) => {
                self.entries.push(entry);
                self.counted = counted;
                grant
            }
            Err(refusal) => refusal,
        }
    }

    /// What [`Register::answer`] would say; nothing is taken down.
    pub fn preview(&self, request: &[u8]) -> Reply {
        match self.judge(request) {
            Ok((grant, ..)) => grant,
            Err(refusal) => refusal,
        }
    }

    /// The answer to a closing of any bytes and length: "21 or 22 by its bytes alone, else how many
    /// entries no longer lie in any run". It is an entry though that be none.
    pub fn close(&mut self, context: &[u8]) -> Reply {
        match read_closing(context) {
            Ok(context) => {
                self.entries.push(Entry::Closing(context));
                let before = std::mem::take(&mut self.counted);
                self.counted = self.counted_with(None);
                Reply::accept(gone(&before, &self.counted))
            }
            Err(refusal) => refusal,
        }
    }

    /// A grant, the entry that it makes, and what `counted` is with that appended.
    fn judge(&self, request: &[u8]) -> Answer<(Reply, Entry, Vec<u32>)> {
        let request = read_request(request)?;
        judging_rules(&self.policy, &request, |r, at| self.run(r, at))?;

        let entry = Entry::Grant(request);
        let counted = self.counted_with(Some(&entry));
        let held = counted.iter().filter(|&&marks| marks != 0).count();
        refuse_unless(held <= places(self.blocks), 34, 0, 0)?;

        let removed = gone(&self.counted, &counted);
        let recorded = counted.last().is_some_and(|&marks| marks != 0);
        let grant = Reply::grant(recorded as usize, removed, held);
        Ok((grant, entry, counted))
    }

    /// The requests of the run of a rule (from 0) at a place.
    fn run(&self, r: usize, at: Place) -> Vec<&Request> {
        let rule = &self.policy.rules[r];
        let there =
            |request: &Request| fits(rule, &request.context) && place(rule, &request.context) == at;
        let mut run = vec![];
        for (entry, one) in self.entries.iter().enumerate() {
            match one {
                Entry::Grant(request) if there(request) => {
                    one_more_grant(rule, &mut run, entry, request);
                }
                Entry::Grant(_) => {}
                Entry::Closing(levels) => one_more_closing(&mut run, levels),
            }
        }
        run.into_iter().map(|(_, request)| request).collect()
    }

    /// For each entry of the list, with this one appended, the rules that have it in some run.
    fn counted_with(&self, appended: Option<&Entry>) -> Vec<u32> {
        let list = || self.entries.iter().chain(appended);
        let mut counted = vec![0; list().count()];
        for (r, rule) in self.policy.rules.iter().enumerate() {
            for (entry, _) in runs(rule, list()).into_values().flatten() {
                counted[entry] |= 1 << r;
            }
        }
        counted
    }

    /// The table that demand 3 prescribes: "B blocks, the policy's stamp and one record for each
    /// register entry in some run, in the register's order, bit r - 1 set exactly when a run of
    /// rule r has it".
    pub fn image(&self) -> Vec<u8> {
        let records: Vec<Record> = (self.entries.iter().zip(&self.counted))
            .filter_map(|(entry, &marks)| match entry {
                Entry::Grant(request) if marks != 0 => Some(Record {
                    request: request.clone(),
                    marks,
                }),
                _ => None,
            })
            .collect();
        write_table(self.stamp, &records, self.blocks)
    }

    /// Demand 3's last claim for the runs as they stand: no user has reached the forbidden number.
    pub fn nobody_has_reached_m(&self) -> bool {
        self.policy.rules.iter().all(|rule| {
            runs(rule, self.entries.iter()).values().all(|run| {
                let users: BTreeSet<u32> = run.iter().map(|(_, request)| request.user).collect();
                users.iter().all(|&user| {
                    let of_user = || run.iter().filter(|(_, request)| request.user == user);
                    rule.exclusions.iter().all(|exclusion| {
                        let tally = of_user().fold(Tally::new(exclusion), |tally, (_, request)| {
                            tally.take_in(request)
                        });
                        !tally.reaches_m()
                    })
                })
            })
        })
    }

    /// Demand 3's last claim at the moment of a grant: whether, if `request` were granted now, its
    /// user would have reached no forbidden number, "the run before it, with the request added if
    /// the rule judges it in that run place". To be asked before [`Register::answer`].
    pub fn could_take(&self, request: &[u8]) -> bool {
        let Ok(request) = read_request(request) else {
            return false;
        };
        (self.policy.rules.iter().enumerate())
            .filter(|(_, rule)| fits(rule, &request.context))
            .all(|(r, rule)| {
                let run = self.run(r, place(rule, &request.context));
                let silent = rule.first.is_some_and(|first| first != request.privilege);
                if silent && run.is_empty() {
                    return true;
                }
                rule.exclusions.iter().all(|exclusion| {
                    let tally = (run.iter().copied().chain([&request]))
                        .filter(|one| one.user == request.user)
                        .fold(Tally::new(exclusion), Tally::take_in);
                    !tally.reaches_m()
                })
            })
    }

    /// Grants and closings.
    pub fn entries(&self) -> usize {
        self.entries.len()
    }

    /// Where the list has no closing: whether its runs are those of document 01's own words.
    pub fn is_document_01s(&self) -> Option<bool> {
        let granted: Option<Vec<&Request>> = (self.entries.iter())
            .map(|entry| match entry {
                Entry::Grant(request) => Some(request),
                Entry::Closing(_) => None,
            })
            .collect();
        let granted = granted?;
        let same = |rule| runs(rule, self.entries.iter()) == runs_of_grants(rule, &granted);
        Some(self.policy.rules.iter().all(same))
    }
}

/// How many entries lay in some run and do so no longer.
fn gone(before: &[u32], now: &[u32]) -> usize {
    (before.iter().zip(now))
        .filter(|(&before, &now)| before != 0 && now == 0)
        .count()
}

// ---------------------------------------------------------------------------------------------
// Runs, step by step

/// All runs of a rule that have a request.
fn runs<'e>(rule: &Rule, list: impl Iterator<Item = &'e Entry>) -> BTreeMap<Place, Run<'e>> {
    let mut runs: BTreeMap<Place, Run> = BTreeMap::new();
    for (at, entry) in list.enumerate() {
        match entry {
            Entry::Grant(request) if fits(rule, &request.context) => {
                let run = runs.entry(place(rule, &request.context)).or_default();
                one_more_grant(rule, run, at, request);
            }
            Entry::Grant(_) => {}
            Entry::Closing(levels) => {
                let each = runs.values_mut();
                each.for_each(|run| one_more_closing(run, levels));
            }
        }
    }
    runs.retain(|_, run| !run.is_empty());
    runs
}

/// A last step ends the run. Anything else joins where no first step is set, where it is the first
/// step, and "while that run has a request".
fn one_more_grant<'e>(rule: &Rule, run: &mut Run<'e>, at: usize, request: &'e Request) {
    let step = Some(request.privilege);
    if rule.last == step {
        *run = vec![];
    } else if rule.first.is_none() || rule.first == step || !run.is_empty() {
        run.push((at, request));
    }
}

/// "After which the requests it names lie in no run and the rest keep their standing, even if the
/// first step that opened their run is gone." A run that has no request left is over.
fn one_more_closing(run: &mut Run, levels: &Context) {
    run.retain(|(_, request)| !begins_with(&request.context, levels));
}

// ---------------------------------------------------------------------------------------------
// Runs in document 01's own words, of a list that has no closing

/// Of the list's requests that fit the rule and are of one place, in order, those of the run:
/// "without all up to and including the latest last step; and, where a first step is set, without
/// all before the earliest first step remaining (empty if none remains)".
fn cut_to_run<'e>(rule: &Rule, there: &[(usize, &'e Request)]) -> Run<'e> {
    let is = |request: &Request, step: Privilege| request.privilege == step;
    let mut run = there;
    if let Some(last) = rule.last {
        let latest = run.iter().rposition(|(_, request)| is(request, last));
        run = latest.map_or(run, |latest| &run[latest + 1..]);
    }
    if let Some(first) = rule.first {
        let earliest = run.iter().position(|(_, request)| is(request, first));
        run = earliest.map_or(&[], |earliest| &run[earliest..]);
    }
    run.to_vec()
}

/// All runs of a rule that have a request.
fn runs_of_grants<'e>(rule: &Rule, granted: &[&'e Request]) -> BTreeMap<Place, Run<'e>> {
    let mut by_place: BTreeMap<Place, Run> = BTreeMap::new();
    for (at, request) in granted.iter().enumerate() {
        if fits(rule, &request.context) {
            let there = by_place.entry(place(rule, &request.context)).or_default();
            there.push((at, request));
        }
    }
    for there in by_place.values_mut() {
        *there = cut_to_run(rule, there);
    }
    by_place.retain(|_, run| !run.is_empty());
    by_place
}
