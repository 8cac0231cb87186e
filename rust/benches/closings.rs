//! Closings on tables of the typical works, beside last steps that remove the same records: W2's issue
//! asks that a closing cost no more than such a step.

use super::*;

/// Each depot has one job, which has the depot's number: so the last step of a job removes what a closing
/// of its depot removes.
const DEPOTS: u16 = 12;
/// The depot that is closed. It has no rule of its own.
const CLOSED: u16 = 7;
/// Who has done nothing at all, and so may close any job.
const STRANGER: u32 = 8;

/// A full table, by where the records of the depots stand in it.
struct Full {
    name: &'static str,
    blocks: usize,
    /// The depot of record i.
    depot: fn(usize, &mut Chance) -> u16,
}

/// By turns: a twelfth of the records is of each depot, and every block has some of it.
const IN_TURN: Full = Full {
    name: "full, 128",
    blocks: 128,
    depot: |i, _| 1 + i as u16 % DEPOTS,
};

/// One depot behind the other.
const IN_PARTS: Full = Full {
    name: "full, 128, in parts",
    depot: |i, _| 1 + i as u16 / 160,
    ..IN_TURN
};

/// The same, the closed one in front, so that all others move.
const IN_FRONT: Full = Full {
    name: "full, 128, in front",
    depot: |i, _| 1 + (i as u16 / 160 + CLOSED - 1) % DEPOTS,
    ..IN_TURN
};

const BY_CHANCE: Full = Full {
    name: "full, 128, by chance",
    depot: |_, chance| chance.from(1, DEPOTS.into()) as u16,
    ..IN_TURN
};

/// One of fifteen records is of the closed depot.
const SMALL: Full = Full {
    name: "full, 1",
    blocks: 1,
    ..IN_TURN
};

impl Full {
    fn records(&self) -> Vec<Record> {
        let mut chance = Chance::new(7);
        (0..places(self.blocks))
            .map(|i| {
                let depot = (self.depot)(i, &mut chance);
                let mut record = touched::work(&mut chance, depot);
                record.request.context[1].1 = depot;
                record
            })
            .collect()
    }
}

pub struct Closings {
    policy: Vec<u8>,
}

impl Closings {
    pub fn new() -> Closings {
        Closings {
            policy: write_policy(&typical_policy()),
        }
    }

    pub fn workloads(&self) -> Vec<Workload> {
        let mut workloads = vec![];
        for full in [IN_TURN, SMALL] {
            workloads.push(self.closing(&full, &[CLOSED]));
            workloads.push(self.last_step(&full));
            workloads.push(self.closing(&full, &[DEPOTS + 1]));
            workloads.push(self.closing(&full, &[]));
        }
        workloads
    }

    /// Prints closings beside the last steps that leave the same table.
    pub fn table(&self) {
        let fulls = [IN_TURN, IN_PARTS, IN_FRONT, BY_CHANCE, SMALL];
        let beside = fulls.map(|full| {
            let (closing, step) = (self.closing(&full, &[CLOSED]), self.last_step(&full));
            let [mut closed, mut ended] = [&closing, &step].map(|one| one.table.clone());
            closing.by_rust(&mut closed);
            step.by_rust(&mut ended);
            assert!(closed == ended, "{}: they leave other tables", full.name);
            (closing, Some(Beside::LastStep(Box::new(step))))
        });
        heading(&beside[0].1);
        for (closing, step) in &beside {
            row(closing, step);
        }
    }

    /// A closing of these levels of depot and job.
    fn closing(&self, full: &Full, values: &[u16]) -> Workload {
        let levels: Context = (DEPOT..).zip(values.iter().copied()).collect();
        let records = full.records();
        let named = |record: &&Record| record.request.context.starts_with(&levels);
        let removed = records.iter().filter(named).count();
        Workload {
            name: format!("{}: closing, {removed} removed", full.name),
            call: Call::Close,
            request: write_context(&levels).to_vec(),
            expected: Reply::accept(removed),
            ..self.on(full, &records)
        }
    }

    /// The job of the closed depot gets its last step. Nothing is recorded: no other rule judges it.
    fn last_step(&self, full: &Full) -> Workload {
        let Reply { first: removed, .. } = self.closing(full, &[CLOSED]).expected;
        let held = places(full.blocks) - removed as usize;
        Workload {
            name: format!("{}: last step, {removed} removed", full.name),
            call: Call::Decide,
            request: request(STRANGER, 2, CLOSE, &[(DEPOT, CLOSED), (JOB, CLOSED)]),
            expected: Reply::grant(0, removed as usize, held),
            ..self.on(full, &full.records())
        }
    }

    fn on(&self, full: &Full, records: &[Record]) -> Workload {
        Workload {
            name: String::new(),
            call: Call::Close,
            policy: self.policy.clone(),
            table: write_table(sums(&self.policy), records, full.blocks),
            request: vec![],
            names: vec![],
            expected: Reply::accept(0),
            written: None,
        }
    }
}
