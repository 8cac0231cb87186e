//! Tables in which few different requests stand many times over, one behind the other, so that a
//! block may come out the same although its records have moved.
//!
//! Nobody is ever excluded here: what counts is which records a last step clears, and where.

use super::chance::Chance;
use crate::independent::images::*;
use crate::independent::judge::fits;

const DEPOT: u16 = 1;
const JOB: u16 = 2;

/// Two steps that end no run, and two that may.
const WORK: [u16; 2] = [1, 2];
const LAST: [u16; 2] = [11, 12];

pub struct Repeated {
    pub policy: Policy,
    pub image: Vec<u8>,
    pub blocks: usize,
    pub records: Vec<Record>,
    requests: Vec<Request>,
}

fn privilege(operation: u16) -> Privilege {
    Privilege {
        operation,
        target: 1,
    }
}

impl Repeated {
    pub fn new(chance: &mut Chance) -> Repeated {
        let rules = match chance.below(12) {
            0 => 32,
            _ => chance.from(2, 5),
        };
        let may = |operation: &u16| Permission {
            role: 1,
            privilege: privilege(*operation),
        };
        let apart = chance.percent(30);
        let policy = Policy {
            rules: (0..rules).map(|_| rule(chance, apart)).collect(),
            permissions: vec![WORK.iter().chain(&LAST).map(may).collect()],
        };
        let sizes = chance.pick(&[
            (2, 4),
            (2, 4),
            (2, 4),
            (5, 12),
            (5, 12),
            (13, 40),
            (41, 128),
        ]);
        let mut repeated = Repeated {
            image: write_policy(&policy),
            policy,
            blocks: chance.from(sizes.0, sizes.1),
            records: vec![],
            requests: requests(chance),
        };
        let count = held(chance, repeated.blocks);
        if chance.percent(35) {
            repeated.restorable(chance, count);
        }
        repeated.fill(chance, count);
        repeated
    }

    pub fn stamp(&self) -> (u32, u32) {
        sums(&self.image)
    }

    /// One of the few; mostly one that ends a run.
    pub fn request(&self, chance: &mut Chance) -> Request {
        let ends = |request: &&Request| self.ending(request) != 0;
        let ending: Vec<&Request> = self.requests.iter().filter(ends).collect();
        if ending.is_empty() || chance.percent(25) {
            chance.pick(&self.requests)
        } else {
            chance.pick(&ending).clone()
        }
    }

    /// The rules whose last step this is.
    fn ending(&self, request: &Request) -> u32 {
        self.rules(|rule| fits(rule, &request.context) && rule.last == Some(request.privilege))
    }

    /// Adds stretches of records alike until there are so many. There may be fewer: none where no
    /// rule fits any of the requests.
    fn fill(&mut self, chance: &mut Chance, count: usize) {
        const LENGTHS: [usize; 12] = [1, 1, 1, 2, 3, 14, 15, 16, 30, 31, 45, 300];
        for _ in 0..count {
            let free = count - self.records.len();
            if free == 0 {
                return;
            }
            let request = chance.pick(&self.requests);
            let fitting = self.rules(|rule| fits(rule, &request.context));
            let marks = some_of(chance, fitting);
            if marks != 0 {
                let length = chance.pick(&LENGTHS).min(free);
                let record = Record { request, marks };
                self.records.extend(vec![record; length]);
            }
        }
    }

    /// Fills the table so that a last step removes one record and is put behind as what stood there:
    /// the same step, recorded earlier. Nothing is done where the step picked ends no run or would get
    /// no mark.
    fn restorable(&mut self, chance: &mut Chance, count: usize) {
        let request = chance.pick(&self.requests);
        let step = Some(request.privilege);
        let ending = self.ending(&request);
        let judging =
            self.rules(|rule| fits(rule, &request.context) && [None, step].contains(&rule.first));
        let given = judging & !ending;
        if ending == 0 || given == 0 || count < 2 {
            return;
        }
        let ahead = chance.below(count.min(40) - 1);
        self.fill(chance, ahead);
        let record = |marks| Record {
            request: request.clone(),
            marks,
        };
        self.records.push(record(ending));
        self.records.resize(count, record(given));
    }

    /// The rules, as marks, of which this holds.
    fn rules(&self, holds: impl Fn(&Rule) -> bool) -> u32 {
        (self.policy.rules.iter().enumerate())
            .filter(|(_, rule)| holds(rule))
            .fold(0, |set, (r, _)| set | 1 << r)
    }
}

/// How many records a table holds: often as many as it can, or so many that its last block is full or
/// has but one.
fn held(chance: &mut Chance, blocks: usize) -> usize {
    let (all, whole) = (places(blocks), places(chance.from(1, blocks - 1)));
    match chance.below(6) {
        0 => all,
        1 => all - chance.below(RECORDS_PER_BLOCK),
        2 => whole,
        3 | 4 => whole + 1,
        _ => chance.from(1, all),
    }
}

/// A rule that excludes nobody. Where levels tell the rules `apart`, a last step without a job ends
/// all that it fits, and gives no mark; what was done in a job is marked for others too, which stay.
fn rule(chance: &mut Chance, apart: bool) -> Rule {
    let level = |kind, mark| Level { kind, mark };
    let depot_mark = chance.pick(&[
        Mark::Every,
        Mark::Each,
        Mark::Fixed(1),
        Mark::Range(1, 2),
        Mark::Range(2, 9),
    ]);
    let depot = level(DEPOT, depot_mark);
    let job = level(JOB, chance.pick(&[Mark::Every, Mark::Each]));
    let levels = chance.pick(&[vec![], vec![depot], vec![depot], vec![depot, job]]);
    let first = chance.percent(15).then(|| chance.pick(&WORK));
    let last = chance.percent(65).then(|| chance.pick(&LAST));
    let (first, last) = match levels.len() {
        _ if !apart => (first, last),
        2 => (None, None),
        _ => (None, Some(LAST[0])),
    };
    Rule {
        levels,
        first: first.map(privilege),
        last: last.map(privilege),
        exclusions: vec![Exclusion {
            m: 2,
            members: Members::Roles(vec![31, 32]),
        }],
    }
}

/// Few requests, some of which differ in but one thing.
fn requests(chance: &mut Chance) -> Vec<Request> {
    (0..chance.from(2, 6))
        .map(|_| {
            let context = [
                (DEPOT, chance.from(1, 2) as u16),
                (JOB, chance.from(1, 2) as u16),
            ];
            let depth = chance.pick(&[0, 1, 2, 2]);
            let operations = chance.pick(&[WORK, LAST, LAST]);
            Request {
                user: chance.from(1, 2) as u32,
                roles: 1,
                privilege: privilege(chance.pick(&operations)),
                context: context[..depth].to_vec(),
            }
        })
        .collect()
}

/// One of these marks, all of them, or any.
fn some_of(chance: &mut Chance, marks: u32) -> u32 {
    let any = marks & chance.next() as u32;
    let lowest = |set: u32| set & set.wrapping_neg();
    match chance.below(4) {
        0 => marks,
        1 => lowest(any),
        _ if any == 0 => marks,
        _ => any,
    }
}
