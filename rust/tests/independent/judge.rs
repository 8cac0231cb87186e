//! The judge of document 01, in its words, over what [`super::images`] has read.

use super::images::*;
use super::{refuse_unless, Answer, Reply};

/// "A context fits a rule if it has at least the rule's depth and, at each rule level, the same
/// type, and for mark 1 the same value." And document 02, for mark 4: "A context fits when its value
/// is from low to high, both included."
pub fn fits(rule: &Rule, context: &Context) -> bool {
    context.len() >= rule.levels.len()
        && rule
            .levels
            .iter()
            .zip(context)
            .all(|(level, &(kind, value))| {
                level.kind == kind
                    && match level.mark {
                        Mark::Fixed(wanted) => value == wanted,
                        Mark::Every | Mark::Each => true,
                        Mark::Range(low, high) => low <= value && value <= high,
                    }
            })
}

/// "Every record whose context begins with those levels": the same type and the same value at each of
/// them; what comes behind them does not matter.
pub fn begins_with(context: &Context, levels: &Context) -> bool {
    context.len() >= levels.len() && levels.iter().zip(context).all(|(one, other)| one == other)
}

/// A run place: the value at each mark 3, and 0 at the other levels. Two fitting contexts share one
/// if these are equal. So "all values in the range share a run place".
pub type Place = [u16; 4];

/// The run place of a fitting context.
pub fn place(rule: &Rule, context: &Context) -> Place {
    let mut place = [0; 4];
    for (i, (level, &(_, value))) in rule.levels.iter().zip(context).enumerate() {
        if level.mark == Mark::Each {
            place[i] = value;
        }
    }
    place
}

/// Whether some active role has the permission.
pub fn permitted(policy: &Policy, request: &Request) -> bool {
    policy.permissions.iter().flatten().any(|entry| {
        request.roles >> (entry.role - 1) & 1 == 1 && entry.privilege == request.privilege
    })
}

/// What an exclusion has counted so far. It takes in the requests of one user one by one.
pub struct Tally<'e> {
    exclusion: &'e Exclusion,
    roles: u32,
    done: Vec<Privilege>,
}

impl<'e> Tally<'e> {
    pub fn new(exclusion: &'e Exclusion) -> Tally<'e> {
        Tally {
            exclusion,
            roles: 0,
            done: vec![],
        }
    }

    pub fn take_in(mut self, request: &Request) -> Self {
        self.roles |= request.roles;
        self.done.push(request.privilege);
        self
    }

    /// "Kind 1: how many member roles appear among all their active roles. Kind 2: each different
    /// member counts min(times listed, times done), summed."
    pub fn count(&self) -> usize {
        let times = |list: &[Privilege], one| list.iter().filter(|&&p| p == one).count();
        match &self.exclusion.members {
            Members::Roles(roles) => roles
                .iter()
                .filter(|&&role| self.roles >> (role - 1) & 1 == 1)
                .count(),
            Members::Privileges(listed) => {
                let mut different = listed.clone();
                different.sort();
                different.dedup();
                different
                    .iter()
                    .map(|&member| times(listed, member).min(times(&self.done, member)))
                    .sum()
            }
        }
    }

    pub fn reaches_m(&self) -> bool {
        self.count() >= self.exclusion.m
    }
}

/// Steps 1 to 3. `run` gives, for a rule (from 0) and a run place, the requests that count there:
/// the marked records for the judge, the run for the full register. The result is the judging
/// rules (from 0) in order.
pub fn judging_rules<'r>(
    policy: &Policy,
    request: &Request,
    run: impl Fn(usize, Place) -> Vec<&'r Request>,
) -> Answer<Vec<usize>> {
    refuse_unless(permitted(policy, request), 31, 0, 0)?;

    let mut judging = vec![];
    for (r, rule) in policy.rules.iter().enumerate() {
        if !fits(rule, &request.context) {
            continue;
        }
        let counted = run(r, place(rule, &request.context));
        let judges =
            rule.first.is_none() || rule.first == Some(request.privilege) || !counted.is_empty();
        if !judges {
            continue;
        }
        judging.push(r);
        for (x, exclusion) in rule.exclusions.iter().enumerate() {
            let tally = counted
                .iter()
                .filter(|earlier| earlier.user == request.user)
                .fold(Tally::new(exclusion), |tally, one| tally.take_in(one))
                .take_in(request);
            let number = match exclusion.members {
                Members::Roles(_) => 32,
                Members::Privileges(_) => 33,
            };
            refuse_unless(!tally.reaches_m(), number, r + 1, x + 1)?;
        }
    }
    Ok(judging)
}

/// The records that count for a rule (from 0) in a run place.
fn marked<'r>(policy: &Policy, records: &'r [Record], r: usize, at: Place) -> Vec<&'r Request> {
    records
        .iter()
        .filter(|record| record.marks >> r & 1 == 1)
        .map(|record| &record.request)
        .filter(|earlier| place(&policy.rules[r], &earlier.context) == at)
        .collect()
}

/// Steps 1 to 5 on the records of a table with so many places: the grant and the new records.
fn judge(
    policy: &Policy,
    places: usize,
    records: &[Record],
    request: &Request,
) -> Answer<(Reply, Vec<Record>)> {
    let judging = judging_rules(policy, request, |r, at| marked(policy, records, r, at))?;

    let mut after = records.to_vec();
    let mut marks = 0;
    for r in judging {
        let rule = &policy.rules[r];
        if rule.last == Some(request.privilege) {
            let here = place(rule, &request.context);
            for record in &mut after {
                if record.marks >> r & 1 == 1 && place(rule, &record.request.context) == here {
                    record.marks &= !(1 << r);
                }
            }
        } else {
            marks |= 1 << r;
        }
    }
    after.retain(|record| record.marks != 0);
    let removed = records.len() - after.len();
    let recorded = marks != 0;
    if recorded {
        let request = request.clone();
        after.push(Record { request, marks });
    }
    refuse_unless(after.len() <= places, 34, 0, 0)?;
    let reply = Reply::grant(recorded as usize, removed, after.len());
    Ok((reply, after))
}

// ---------------------------------------------------------------------------------------------
// The entry points

pub fn check_policy(policy: &[u8]) -> Reply {
    match read_policy(policy) {
        Ok(policy) => Reply::accept(policy.rules.len()),
        Err(refusal) => refusal,
    }
}

pub fn check_table(policy: &[u8], table: &[u8]) -> Reply {
    let records = read_policy(policy)
        .and_then(|read| read_table(&read, sums(policy), table, fits))
        .map(|records| records.len());
    match records {
        Ok(records) => Reply::accept(records),
        Err(refusal) => refusal,
    }
}

pub fn fresh_table(policy: &[u8], table: &mut [u8]) -> Reply {
    match read_policy(policy).and_then(|_| table_blocks(table.len())) {
        Ok(blocks) => {
            table.copy_from_slice(&write_table(sums(policy), &[], blocks));
            Reply::accept(places(blocks))
        }
        Err(refusal) => refusal,
    }
}

pub fn decide(policy: &[u8], table: &mut [u8], request: &[u8]) -> Reply {
    match decided(policy, table, request) {
        Ok((grant, after)) => {
            table.copy_from_slice(&after);
            grant
        }
        Err(refusal) => refusal,
    }
}

/// "It returns what the decision would return on a copy of the table, and the lent table is
/// unaltered."
pub fn preview(policy: &[u8], table: &[u8], request: &[u8]) -> Reply {
    decide(policy, &mut table.to_vec(), request)
}

/// Document 02, W2: "Every record whose context begins with those levels is removed, and the number
/// removed is returned .. Other records keep the marks they had."
pub fn close(policy: &[u8], table: &mut [u8], context: &[u8]) -> Reply {
    match closed(policy, table, context) {
        Ok((reply, after)) => {
            table.copy_from_slice(&after);
            reply
        }
        Err(refusal) => refusal,
    }
}

/// The answer to a closing and the table's image after it.
fn closed(policy: &[u8], table: &[u8], context: &[u8]) -> Answer<(Reply, Vec<u8>)> {
    let read = read_policy(policy)?;
    let stamp = sums(policy);
    let records = read_table(&read, stamp, table, fits)?;
    let levels = read_closing(context)?;
    let mut after = records.clone();
    after.retain(|record| !begins_with(&record.request.context, &levels));
    let reply = Reply::accept(records.len() - after.len());
    Ok((reply, write_table(stamp, &after, table.len() / BLOCK)))
}

/// A grant and the table's image after it.
fn decided(policy: &[u8], table: &[u8], request: &[u8]) -> Answer<(Reply, Vec<u8>)> {
    let read = read_policy(policy)?;
    let stamp = sums(policy);
    let records = read_table(&read, stamp, table, fits)?;
    let request = read_request(request)?;
    let blocks = table.len() / BLOCK;
    let (grant, after) = judge(&read, places(blocks), &records, &request)?;
    Ok((grant, write_table(stamp, &after, blocks)))
}
