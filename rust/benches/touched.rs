//! Last steps on a full table of 128 blocks, by how many blocks they touch: document 02, W3, has only
//! blocks written whose records differ.

use super::*;

const DEPOTS: usize = 10;
/// The depot in which a count ends. It has no rule of its own.
const COUNTED: u16 = 7;
/// Who has checked an instrument there during the count, and who has done nothing at all.
const CHECKER: u32 = 9;
const STRANGER: u32 = 8;

/// How many blocks the end of a count touches.
const TOUCHED: [usize; 3] = [1, 12, 64];

/// The typical works, where who has checked something during a count may not end it either.
pub struct Touched {
    policy: Vec<u8>,
}

impl Touched {
    pub fn new() -> Touched {
        let mut policy = typical_policy();
        let count = &mut policy.rules[1];
        count.exclusions.push(privileges(2, &[CHECK, END_COUNT]));
        Touched {
            policy: write_policy(&policy),
        }
    }

    pub fn workloads(&self) -> Vec<Workload> {
        let mut workloads = vec![];
        for blocks in TOUCHED {
            workloads.push(self.end_of_count(blocks));
            workloads.push(self.refused(blocks));
        }
        workloads.push(self.one_removed("one removed, rest alike", 2, |_| alike()));
        workloads.push(self.one_removed("one removed, all differ", 128, |chance| {
            let depot = other_depot(chance);
            work(chance, depot)
        }));
        workloads
    }

    /// The stranger ends the count: each record of the depot loses the count's mark, keeps the one of
    /// its job, and so stays. Nothing is recorded: no other rule fits a depot without a job.
    fn end_of_count(&self, blocks: usize) -> Workload {
        Workload {
            name: format!("full, 128: last step, marks cleared in {blocks} blocks"),
            request: request(STRANGER, 3, END_COUNT, &[(DEPOT, COUNTED)]),
            expected: Reply::grant(0, 0, places(128)),
            written: Some(blocks as u32),
            ..self.on(&self.counting(blocks))
        }
    }

    /// The same request on the same table, by who may not: all but steps 4 and 5.
    fn refused(&self, blocks: usize) -> Workload {
        Workload {
            name: format!("full, 128: the same refused by 33, {blocks} blocks"),
            request: request(CHECKER, 3, END_COUNT, &[(DEPOT, COUNTED)]),
            expected: Reply::refuse(33, 2, 2),
            written: Some(0),
            ..self.end_of_count(blocks)
        }
    }

    /// A job is closed whose only record stands in front of all others, which stay.
    fn one_removed(
        &self,
        name: &str,
        written: u32,
        others: impl Fn(&mut Chance) -> Record,
    ) -> Workload {
        let mut chance = Chance::new(7);
        let job = [(DEPOT, COUNTED), (JOB, 900)];
        let mut first = work(&mut chance, COUNTED);
        first.request.context = job.to_vec();
        let behind = (1..places(128)).map(|_| others(&mut chance));
        let records: Vec<Record> = [first].into_iter().chain(behind).collect();
        Workload {
            name: format!("full, 128: last step, {name}"),
            request: request(STRANGER, 2, CLOSE, &job),
            expected: Reply::grant(0, 1, places(128) - 1),
            written: Some(written),
            ..self.on(&records)
        }
    }

    fn on(&self, records: &[Record]) -> Workload {
        Workload {
            name: String::new(),
            call: Call::Decide,
            policy: self.policy.clone(),
            table: write_table(sums(&self.policy), records, 128),
            request: vec![],
            names: vec![],
            expected: Reply::grant(0, 0, 0),
            written: None,
        }
    }

    /// A full table of which so many blocks, spread over it, are of the depot alone, with a count going
    /// on there; the others are of other depots, in some of which a count is going on too.
    fn counting(&self, touched: usize) -> Vec<Record> {
        let mut chance = Chance::new(7);
        let apart = 128 / touched;
        let is_touched = |block: usize| block % apart == apart / 2 && block / apart < touched;
        let mut records: Vec<Record> = (0..places(128))
            .map(|place| {
                let block = place / RECORDS_PER_BLOCK;
                let depot = if is_touched(block) {
                    COUNTED
                } else {
                    other_depot(&mut chance)
                };
                counted(work(&mut chance, depot))
            })
            .collect();
        let first = &mut records[RECORDS_PER_BLOCK * (apart / 2)].request;
        (first.user, first.roles, first.privilege) = (CHECKER, 1 << 1, privilege(CHECK));
        records
    }
}

fn other_depot(chance: &mut Chance) -> u16 {
    let depot = chance.from(1, DEPOTS - 1) as u16;
    depot + u16::from(depot >= COUNTED)
}

/// Work on some job of a depot by some person, with the marks of the rules for jobs.
pub fn work(chance: &mut Chance, depot: u16) -> Record {
    let (role, operation) = chance.pick(&[(1, ADJUST), (2, CHECK), (4, PACK)]);
    let of_depot = if depot <= 5 { 1 << (2 + depot) } else { 0 };
    Record {
        request: Request {
            user: chance.from(10, 60) as u32,
            roles: 1 << (role - 1),
            privilege: privilege(operation),
            context: vec![(DEPOT, depot), (JOB, chance.from(1, 800) as u16)],
        },
        marks: 1 | of_depot,
    }
}

/// The same while its depot is counted, as every depot with an odd number is.
fn counted(mut record: Record) -> Record {
    if record.request.context[0].1 % 2 == 1 {
        record.marks |= 1 << 1;
    }
    record
}

/// One person adjusts one thing, again and again.
fn alike() -> Record {
    Record {
        request: Request {
            user: 10,
            roles: 1,
            privilege: privilege(ADJUST),
            context: vec![(DEPOT, 8), (JOB, 1)],
        },
        marks: 1,
    }
}

// ---------------------------------------------------------------------------------------------
// What a touched block costs

/// Who is asked.
enum By<'e> {
    Engine,
    Rust,
    Before(&'e Earlier),
}

impl By<'_> {
    fn name(&self) -> &'static str {
        match self {
            By::Engine => "engine",
            By::Rust => "Rust",
            By::Before(_) => "before",
        }
    }

    fn time(&self, workload: &Workload, tables: &mut [Vec<u8>]) -> f64 {
        match self {
            By::Engine => workload.time(tables, |w, table| w.by_engine(table)),
            By::Rust => workload.time(tables, |w, table| w.by_rust(table)),
            By::Before(earlier) => workload.time(tables, |w, table| w.by_earlier(earlier, table)),
        }
    }
}

impl Touched {
    /// Prints, for each number of touched blocks, a last step beside the refusal of the same request
    /// and the cost of writing so many blocks. All of it is measured in the same rounds.
    pub fn table(&self, before: &Option<Beside>) {
        println!(
            "| blocks | by     | last step | refused | one block | last step/(refused + blocks) |"
        );
        println!(
            "|-------:|--------|----------:|--------:|----------:|-----------------------------:|"
        );
        let mut by = vec![By::Engine, By::Rust];
        if let Some(Beside::Earlier { before, .. }) = before {
            by.push(By::Before(before));
        }
        for blocks in TOUCHED {
            for (by, [last_step, refused, fresh, policy]) in
                by.iter().zip(self.measure(blocks, &by))
            {
                let block = (fresh - policy) / 128.0;
                println!(
                    "| {blocks:>6} | {:<6} | {last_step:>9.2} | {refused:>7.2} | {block:>9.3} | {:>28.3} |",
                    by.name(),
                    last_step / (refused + blocks as f64 * block)
                );
            }
        }
    }

    /// Microseconds for the last step, its refusal, a fresh table and a check of the policy, by each.
    fn measure(&self, blocks: usize, by: &[By]) -> Vec<[f64; 4]> {
        let last_step = self.end_of_count(blocks);
        let fresh = Workload {
            call: Call::FreshTable,
            expected: Reply::accept(places(128)),
            ..last_step.clone()
        };
        let policy = Workload {
            call: Call::CheckPolicy,
            table: vec![],
            expected: Reply::accept(8),
            ..last_step.clone()
        };
        let workloads = [last_step, self.refused(blocks), fresh, policy];
        workloads.iter().for_each(Workload::agree);
        let mut tables = workloads.each_ref().map(Workload::copies);
        let mut times: Vec<[Vec<f64>; 4]> = by.iter().map(|_| Default::default()).collect();
        for _ in 0..ROUNDS {
            for (by, times) in by.iter().zip(&mut times) {
                for (i, workload) in workloads.iter().enumerate() {
                    times[i].push(by.time(workload, &mut tables[i]));
                }
            }
        }
        times.into_iter().map(|times| times.map(median)).collect()
    }
}
