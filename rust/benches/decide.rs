//! How long the engine takes, beside the independent judge in plain Rust and beside the bare sums.
//!
//!     cargo bench --offline
//!
//! The bare sums are what no engine can spare: the check of every block of policy and table and the
//! policy's stamp, word after word as document 01 tells them. A ratio to them says what an engine
//! adds on any machine.
//!
//! Each workload is measured in rounds: in every round the engine, the Rust judge and the sums each
//! get some calls, every call on a copy of the table of its own that was made before the clock ran.
//! Printed is the median over the rounds of the time of one call.
//!
//!     SOD_BEFORE=/path/to/libsod.so cargo bench --offline
//!
//! measures an earlier engine, as a shared library, in the same rounds. With `SOD_AFTER` beside it, the
//! engine is one, too, but for previews and blocks touched: then both are called in the same way, and
//! tools/places can put them where it likes.
//!
//! Each decision is then measured as a preview, with the decision itself in the same rounds; a policy of
//! ranges, with the same one of fixed values in the same rounds; closings, with the last step that removes
//! the same records in the same rounds ([`closings`]); what a last step costs for each block that it
//! touches ([`touched`]); and how reading rules from a text grows with the text ([`grown`]).

#[path = "../tests/support/chance.rs"]
#[allow(dead_code)]
mod chance;
mod closings;
mod earlier;
#[path = "../tests/support/engine.rs"]
mod engine;
mod grown;
#[path = "../tests/independent/mod.rs"]
mod independent;
#[path = "../tests/support/plain.rs"]
mod plain;
mod texts;
mod touched;

use chance::Chance;
use closings::Closings;
use earlier::Earlier;
use hastovimen::raw;
use independent::images::*;
use independent::{quick, quick_xml, Reply};
use std::hint::black_box;
use std::time::Instant;
use texts::Texts;
use touched::Touched;

fn main() {
    let (typical, touched, closings) = (Typical::new(), Touched::new(), Closings::new());
    let texts = Texts::new();
    let mut workloads = typical.workloads();
    workloads.extend(touched.workloads());
    workloads.extend(closings.workloads());
    workloads.extend(worst_workloads());
    workloads.extend(texts.workloads());
    // `cargo bench --offline -- WORD` measures only the workloads that have the word in their name.
    let word = std::env::args().skip(1).find(|a| !a.starts_with("--"));
    if let Some(word) = &word {
        workloads.retain(|workload| workload.name.contains(word));
    }
    let before = Earlier::load("SOD_BEFORE").map(|before| Beside::Earlier {
        before,
        after: Earlier::load("SOD_AFTER"),
    });
    if let Some(Beside::Earlier { before, .. }) = &before {
        workloads.retain(|workload| before.has(workload.call));
    }
    println!("Median time of one call in microseconds; the last columns are ratios.\n");
    table(&workloads, &before);
    println!("\nPreviews, beside the engine's decision with the same answer.\n");
    let previews: Vec<Workload> = workloads.iter().filter_map(Workload::preview).collect();
    table(&previews, &Some(Beside::Decision));
    if before.is_none() && word.as_ref().is_none_or(|word| "ranges".contains(word)) {
        println!(
            "\nRanges at all four levels of 32 rules, beside fixed values on the same records.\n"
        );
        ranges();
    }
    if before.is_none() && word.as_ref().is_none_or(|word| "closings".contains(word)) {
        println!("\nClosings, beside the last step that removes the same records.\n");
        closings.table();
    }
    if word.as_ref().is_none_or(|word| "touched".contains(word)) {
        println!("\nBlocks touched: last steps on a full table of 128, and what a written block costs.\n");
        touched.table(&before);
    }
    if word.is_none() {
        println!("\nGrowth: a refusal by 33 on a full table, by its blocks.\n");
        table(&typical.growth(), &before);
    }
    if before.is_none() && word.as_ref().is_none_or(|word| "text".contains(word)) {
        println!("\nTexts that grow: a call's time, and what each byte more than the shortest has costs.\n");
        grown::table(&texts);
    }
}

/// What the worst tables have in common: the records count alike, each in another context.
const ALIKE: Kind = Kind {
    name: "worst",
    roles: |_| 0x7F,
    operation: |i| 1 + i as u16 % DONE,
    marks: |_| u32::MAX,
    mark: |_| Mark::Every,
    value: |_, chance| chance.from(1, 65535) as u16,
};

fn worst_workloads() -> Vec<Workload> {
    // No two records have the same active roles, privilege or marks.
    let roles = Kind {
        name: "roles",
        roles: |i| 0x7F | (i as u32) << 16,
        ..ALIKE
    };
    let privileges = Kind {
        name: "privileges",
        operation: other,
        ..ALIKE
    };
    // Here rule 1 has no mark at all, so that no role was ever active under all rules.
    let marks = Kind {
        name: "marks",
        marks: |i| 0xFFFF_FFFE ^ (i as u32) << 8,
        ..ALIKE
    };
    let kinds = [ALIKE, roles, privileges, marks];
    (kinds.iter())
        .flat_map(|kind| Worst::new(kind).workloads())
        .collect()
}

/// The worst table in a single context, which four fixed values ask for, and four ranges take in.
fn ranges() {
    let fixed = Kind {
        mark: Mark::Fixed,
        value: |kind, _| kind,
        ..ALIKE
    };
    let ranged = Kind {
        name: "ranges",
        mark: |kind| Mark::Range(kind, 40_000 + kind),
        ..fixed
    };
    let [fixed, ranged] = [fixed, ranged].map(|kind| Worst::new(&kind).workloads());
    let beside: Vec<_> = (fixed.into_iter())
        .map(|one| Some(Beside::Fixed(Box::new(one))))
        .collect();
    heading(&beside[0]);
    for (workload, fixed) in ranged.iter().zip(&beside) {
        row(workload, fixed);
    }
}

/// The operation of record i, where all are different.
fn other(i: usize) -> u16 {
    match i as u16 {
        i @ 0..DONE => 1 + i,
        i => 10_000 + i,
    }
}

/// The width of a workload's name.
const NAME: usize = 48;

fn table(workloads: &[Workload], beside: &Option<Beside>) {
    heading(beside);
    for workload in workloads {
        row(workload, beside);
    }
}

fn heading(beside: &Option<Beside>) {
    print!(
        "| {:<NAME$} | {:>8} | {:>8} | {:>8} | {:>11} | {:>11} | {:>9} |",
        "workload", "engine", "Rust", "sums", "engine/Rust", "engine/sums", "Rust/sums"
    );
    if let Some(beside) = beside {
        let name = beside.name();
        print!(" {name:>8} | {:>13} |", format!("engine/{name}"));
    }
    print!(
        "\n|-{:-<NAME$}-|{:->10}|{:->10}|{:->10}|{:->13}|{:->13}|{:->11}|",
        "", ":", ":", ":", ":", ":", ":"
    );
    if beside.is_some() {
        print!("{:->10}|{:->15}|", ":", ":");
    }
    println!();
}

fn row(workload: &Workload, beside: &Option<Beside>) {
    let [engine, rust, sums, other] = workload.measure(beside);
    print!(
        "| {:<NAME$} | {:>8.2} | {:>8.2} | {:>8.2} | {:>11.2} | {:>11.2} | {:>9.2} |",
        workload.name,
        engine,
        rust,
        sums,
        engine / rust,
        engine / sums,
        rust / sums
    );
    if beside.is_some() {
        print!(" {other:>8.3} | {:>13.3} |", engine / other);
    }
    println!();
}

// ---------------------------------------------------------------------------------------------
// Measuring

#[derive(Clone, Copy, PartialEq, Eq)]
enum Call {
    CheckPolicy,
    CheckTable,
    FreshTable,
    Decide,
    Preview,
    Close,
    ReadRules,
    WriteRules,
}

/// What else is measured in the same rounds.
enum Beside {
    /// The same call of an earlier engine, which need not have a preview; and the engine, if it is a
    /// shared library as well.
    Earlier {
        before: Earlier,
        after: Option<Earlier>,
    },
    /// The engine's decision of the same request.
    Decision,
    /// The engine's call where values are fixed.
    Fixed(Box<Workload>),
    /// The engine's last step that removes the same records.
    LastStep(Box<Workload>),
}

impl Beside {
    fn name(&self) -> &'static str {
        match self {
            Beside::Earlier { .. } => "before",
            Beside::Decision => "decide",
            Beside::Fixed(_) => "fixed",
            Beside::LastStep(_) => "step",
        }
    }

    /// Another call of the engine.
    fn other(&self) -> Option<&Workload> {
        match self {
            Beside::Fixed(other) | Beside::LastStep(other) => Some(other),
            Beside::Earlier { .. } | Beside::Decision => None,
        }
    }
}

#[derive(Clone)]
struct Workload {
    name: String,
    call: Call,
    /// Of a reading, the second image.
    policy: Vec<u8>,
    /// Of a reading or writing, the output.
    table: Vec<u8>,
    /// A request; the context of a closing; the text of a reading.
    request: Vec<u8>,
    /// The list of a reading or writing.
    names: Vec<u8>,
    /// What must come of it, so that the right thing is measured.
    expected: Reply,
    /// How many blocks a decision or a closing must write, where that is what is measured.
    written: Option<u32>,
}

const ROUNDS: usize = 301;

impl Workload {
    /// The preview of what is decided here.
    fn preview(&self) -> Option<Workload> {
        (self.call == Call::Decide).then(|| Workload {
            call: Call::Preview,
            ..self.clone()
        })
    }

    /// Microseconds for engine, Rust, sums, and what stands beside them if there is something.
    fn measure(&self, beside: &Option<Beside>) -> [f64; 4] {
        self.agree();
        if let Some(other) = beside.as_ref().and_then(Beside::other) {
            other.agree();
        }
        let mut tables = self.copies();
        let mut times = [const { vec![] }; 4];
        for _ in 0..self.rounds() {
            times[0].push(match beside {
                Some(Beside::Earlier {
                    after: Some(after), ..
                }) => self.time(&mut tables, |w, table| w.by_earlier(after, table)),
                _ => self.time(&mut tables, |w, table| w.by_engine(table)),
            });
            times[1].push(self.time(&mut tables, |w, table| w.by_rust(table)));
            times[2].push(self.time(&mut tables, |w, table| w.by_sums(table)));
            times[3].push(match beside {
                None => 0.0,
                Some(Beside::Earlier { before, .. }) => {
                    self.time(&mut tables, |w, table| w.by_earlier(before, table))
                }
                Some(Beside::Decision) => self.time(&mut tables, |w, table| w.decided(table)),
                Some(Beside::Fixed(other) | Beside::LastStep(other)) => {
                    other.time(&mut tables, |w, table| w.by_engine(table))
                }
            });
        }
        times.map(median)
    }

    /// As many copies of the table as stay in the caches near the processor.
    fn copies(&self) -> Vec<Vec<u8>> {
        vec![self.table.clone(); self.calls()]
    }

    /// The calls of a round.
    fn calls(&self) -> usize {
        let lent = self.table.len() + self.request.len() + self.names.len();
        (256 * 1024 / (lent + 1)).clamp(1, 64)
    }

    /// Fewer where a call takes milliseconds, as only long texts have it.
    fn rounds(&self) -> usize {
        match self.calls() {
            1 => ROUNDS / 5,
            _ => ROUNDS,
        }
    }

    /// Microseconds of one call, when each of the tables gets one.
    fn time<T>(&self, tables: &mut [Vec<u8>], call: impl Fn(&Workload, &mut [u8]) -> T) -> f64 {
        for table in &mut *tables {
            table.copy_from_slice(&self.table);
        }
        let begin = Instant::now();
        for table in &mut *tables {
            black_box(call(black_box(self), table));
        }
        begin.elapsed().as_secs_f64() * 1e6 / tables.len() as f64
    }

    fn by_earlier(&self, earlier: &Earlier, table: &mut [u8]) -> earlier::Reply {
        match self.call {
            Call::CheckPolicy => earlier.check_policy(&self.policy),
            Call::CheckTable => earlier.check_table(&self.policy, table),
            Call::FreshTable => earlier.fresh_table(&self.policy, table),
            Call::Decide => earlier.decide(&self.policy, table, &self.request),
            Call::Preview => unreachable!("an earlier engine is not asked for it"),
            Call::Close => earlier.close(&self.policy, table, &self.request),
            Call::ReadRules => earlier.read_rules(&self.request, &self.names, &self.policy, table),
            Call::WriteRules => earlier.write_rules(&self.policy, &self.names, table),
        }
    }

    fn decided(&self, table: &mut [u8]) -> Reply {
        plain::grant(raw::decide(&self.policy, table, &self.request))
    }

    fn by_engine(&self, table: &mut [u8]) -> Reply {
        match self.call {
            Call::CheckPolicy => plain::count(raw::check_policy(&self.policy)),
            Call::CheckTable => plain::count(raw::check_table(&self.policy, table)),
            Call::FreshTable => plain::count(raw::fresh_table(&self.policy, table)),
            Call::Decide => self.decided(table),
            Call::Preview => plain::preview(raw::preview(&self.policy, table, &self.request)),
            Call::Close => engine::close(&self.policy, table, &self.request),
            Call::ReadRules => engine::read_rules(&self.request, &self.names, &self.policy, table),
            Call::WriteRules => engine::write_rules(&self.policy, &self.names, table),
        }
    }

    fn by_rust(&self, table: &mut [u8]) -> Reply {
        match self.call {
            Call::CheckPolicy => quick::check_policy(&self.policy),
            Call::CheckTable => quick::check_table(&self.policy, table),
            Call::FreshTable => quick::fresh_table(&self.policy, table),
            Call::Decide => quick::decide(&self.policy, table, &self.request),
            Call::Preview => quick::preview(&self.policy, table, &self.request),
            Call::Close => quick::close(&self.policy, table, &self.request),
            Call::ReadRules => {
                quick_xml::read_rules(&self.request, &self.names, &self.policy, table)
            }
            Call::WriteRules => quick_xml::write_rules(&self.policy, &self.names, table),
        }
    }

    /// The check of every block, those written included, and the stamp where the call needs it.
    fn by_sums(&self, table: &mut [u8]) -> u32 {
        let checks = block_sums(&self.policy);
        match self.call {
            Call::CheckPolicy | Call::WriteRules => checks,
            Call::ReadRules => checks ^ block_sums(table),
            _ => checks ^ fold(bare_sums(&self.policy)) ^ block_sums(table),
        }
    }

    /// Engine and Rust give the expected answer and the same table.
    fn agree(&self) {
        let (mut by_engine, mut by_rust) = (self.table.clone(), self.table.clone());
        let engine = self.by_engine(&mut by_engine);
        let rust = self.by_rust(&mut by_rust);
        assert_eq!(
            (engine, rust),
            (self.expected, self.expected),
            "{}",
            self.name
        );
        assert!(by_engine == by_rust, "{}: the tables differ", self.name);
        if matches!(self.call, Call::Decide | Call::Close) {
            self.agree_on_blocks(&by_engine);
        }
    }

    /// The engine's probe and the Rust judge have written the blocks that differ, as many as expected.
    fn agree_on_blocks(&self, after: &[u8]) {
        let blocks = self.table.chunks(BLOCK).zip(after.chunks(BLOCK));
        let differing = blocks.filter(|(before, after)| before != after).count() as u32;
        let expected = self.written.unwrap_or(differing);
        let (mut by_probe, mut by_rust) = (self.table.clone(), self.table.clone());
        let (probed, (_, rust)) = if self.call == Call::Close {
            (
                probe::close(&self.policy, &mut by_probe, &self.request),
                quick::close_counting(&self.policy, &mut by_rust, &self.request),
            )
        } else {
            (
                probe::decide(&self.policy, &mut by_probe, &self.request),
                quick::decide_counting(&self.policy, &mut by_rust, &self.request),
            )
        };
        let told = [differing, probed as u32, rust];
        assert_eq!(told, [expected; 3], "{}: blocks", self.name);
        assert!(by_probe == after, "{}: the probe's table", self.name);
    }
}

fn median(mut times: Vec<f64>) -> f64 {
    times.sort_by(f64::total_cmp);
    times[times.len() / 2]
}

fn bare_sums(bytes: &[u8]) -> (u32, u32) {
    let (mut a, mut b) = (1u32, 0u32);
    for word in bytes.as_chunks().0 {
        a = a.wrapping_add(u32::from_le_bytes(*word));
        b = b.wrapping_add(a);
    }
    (a, b)
}

fn fold((a, b): (u32, u32)) -> u32 {
    a ^ b
}

fn block_sums(image: &[u8]) -> u32 {
    let blocks = image.as_chunks::<512>().0.iter();
    blocks.fold(0, |all, block| all ^ fold(bare_sums(&block[..504])))
}

// ---------------------------------------------------------------------------------------------
// What is measured: typical

const DEPOT: u16 = 1;
const JOB: u16 = 2;
const ADJUST: u16 = 1;
const CHECK: u16 = 2;
const PACK: u16 = 3;
const CLOSE: u16 = 4;
const BEGIN_COUNT: u16 = 5;
const END_COUNT: u16 = 6;
const CLEAN: u16 = 7;

fn privilege(operation: u16) -> Privilege {
    Privilege {
        operation,
        target: 1,
    }
}

fn roles(m: usize, roles: &[u16]) -> Exclusion {
    let members = Members::Roles(roles.to_vec());
    Exclusion { m, members }
}

fn privileges(m: usize, operations: &[u16]) -> Exclusion {
    let listed = operations.iter().map(|&o| privilege(o)).collect();
    let members = Members::Privileges(listed);
    Exclusion { m, members }
}

fn level(kind: u16, mark: Mark) -> Level {
    Level { kind, mark }
}

fn request(user: u32, role: u16, operation: u16, context: &[(u16, u16)]) -> Vec<u8> {
    request_of(user, role, privilege(operation), context)
}

fn request_of(user: u32, role: u16, privilege: Privilege, context: &[(u16, u16)]) -> Vec<u8> {
    let request = Request {
        user,
        roles: 1 << (role - 1),
        privilege,
        context: context.to_vec(),
    };
    write_request(&request).to_vec()
}

/// Eight rules of a works with depots and jobs: every job has rule 1, and those of the first five
/// depots have a rule of their own, so that a record has one mark or two.
fn typical_policy() -> Policy {
    let jobs = Rule {
        levels: vec![level(DEPOT, Mark::Every), level(JOB, Mark::Each)],
        first: None,
        last: Some(privilege(CLOSE)),
        exclusions: vec![
            privileges(2, &[ADJUST, CHECK, CHECK]),
            roles(2, &[1, 2]),
            privileges(3, &[ADJUST, PACK, CLOSE]),
        ],
    };
    let count = Rule {
        levels: vec![level(DEPOT, Mark::Each)],
        first: Some(privilege(BEGIN_COUNT)),
        last: Some(privilege(END_COUNT)),
        exclusions: vec![roles(2, &[1, 3])],
    };
    let yard = Rule {
        levels: vec![level(9, Mark::Every)],
        first: None,
        last: None,
        exclusions: vec![roles(2, &[4, 5])],
    };
    let of_depot = |depot| Rule {
        levels: vec![level(DEPOT, Mark::Fixed(depot)), level(JOB, Mark::Each)],
        first: None,
        last: Some(privilege(CLOSE)),
        exclusions: vec![privileges(2, &[CHECK, PACK]), roles(3, &[1, 2, 4])],
    };
    let may = |role, operation| Permission {
        role,
        privilege: privilege(operation),
    };
    Policy {
        rules: [jobs, count, yard]
            .into_iter()
            .chain((1..=5).map(of_depot))
            .collect(),
        permissions: vec![vec![
            may(1, ADJUST),
            may(2, CHECK),
            may(4, PACK),
            may(2, CLOSE),
            may(3, BEGIN_COUNT),
            may(3, END_COUNT),
            may(1, CLEAN),
        ]],
    }
}

struct Typical {
    policy: Vec<u8>,
}

impl Typical {
    fn new() -> Typical {
        Typical {
            policy: write_policy(&typical_policy()),
        }
    }

    /// A table of so many blocks with so many records, as work on many jobs leaves it: each job is
    /// adjusted, packed and checked by different people.
    fn table(&self, blocks: usize, records: usize) -> Vec<u8> {
        let mut chance = Chance::new(7);
        let mut table = write_table(sums(&self.policy), &[], blocks);
        let mut held = 0;
        while held < records {
            let user = chance.from(10, 60) as u32;
            let (role, operation) = chance.pick(&[(1, ADJUST), (2, CHECK), (4, PACK)]);
            let context = [
                (DEPOT, chance.from(1, 10) as u16),
                (JOB, chance.from(1, 800) as u16),
            ];
            let request = request(user, role, operation, &context);
            let reply = quick::decide(&self.policy, &mut table, &request);
            if !reply.is_refusal() {
                held = reply.third as usize;
            }
        }
        table
    }

    fn decide(&self, name: &str, table: &[u8], request: Vec<u8>, expected: Reply) -> Workload {
        Workload {
            name: name.to_string(),
            call: Call::Decide,
            policy: self.policy.clone(),
            table: table.to_vec(),
            request,
            names: vec![],
            expected,
            written: None,
        }
    }

    /// A request that rule 1 refuses by 33, as the first of these records is of its job.
    fn refused(&self, table: &[u8]) -> Vec<u8> {
        let bytes: &[u8; REQUEST] = table[24..].first_chunk().unwrap();
        let earlier = independent::images::read_request(bytes).unwrap();
        // Who has adjusted may not check; who has checked may not adjust, nor check again.
        let (role, operation) = match earlier.privilege.operation {
            ADJUST => (2, CHECK),
            CHECK => (2, CHECK),
            _ => unreachable!("the first record is not of packing"),
        };
        request(earlier.user, role, operation, &earlier.context)
    }

    fn workloads(&self) -> Vec<Workload> {
        let stamp = sums(&self.policy);
        let empty = |blocks| write_table(stamp, &[], blocks);
        let nearly = self.table(128, places(128) - 1);
        let full = self.table(128, places(128));
        let new_job = |operation| request(7, 1, operation, &[(DEPOT, 3), (JOB, 900)]);
        let by_33 = self.refused(&full);
        let closing = {
            let mut other = self.refused(&nearly);
            other[..4].copy_from_slice(&9u32.to_le_bytes());
            other[4..8].copy_from_slice(&2u32.to_le_bytes());
            other[8..10].copy_from_slice(&CLOSE.to_le_bytes());
            other
        };
        let closed = quick::decide(&self.policy, &mut nearly.clone(), &closing);
        // A grant that only appends writes one block.
        let appended = |name: &str, table: &[u8], held| Workload {
            written: Some(1),
            ..self.decide(name, table, new_job(ADJUST), Reply::grant(1, 0, held))
        };
        let check = |name: &str, call, table: &[u8], expected| Workload {
            call,
            ..self.decide(name, table, vec![], expected)
        };
        vec![
            appended("empty table, 1 block: grant, recorded", &empty(1), 1),
            appended("empty table, 128 blocks: grant, recorded", &empty(128), 1),
            appended("full but one, 128: grant, recorded", &nearly, places(128)),
            self.decide(
                "full but one, 128: last step, some removed",
                &nearly,
                closing,
                closed,
            ),
            self.decide(
                "full, 128: grant, not recorded",
                &full,
                request(7, 1, ADJUST, &[]),
                Reply::grant(0, 0, places(128)),
            ),
            self.decide(
                "full, 128: refused by 33",
                &full,
                by_33,
                Reply::refuse(33, 1, 1),
            ),
            self.decide(
                "full, 128: refused by 34",
                &full,
                new_job(ADJUST),
                Reply::refuse(34, 0, 0),
            ),
            self.decide(
                "full, 128: refused by 31",
                &full,
                new_job(CHECK),
                Reply::refuse(31, 0, 0),
            ),
            check(
                "check of the policy, 9 blocks",
                Call::CheckPolicy,
                &[],
                Reply::accept(8),
            ),
            check(
                "check of a full table, 128",
                Call::CheckTable,
                &full,
                Reply::accept(places(128)),
            ),
            check(
                "fresh table, 128",
                Call::FreshTable,
                &full,
                Reply::accept(places(128)),
            ),
        ]
    }

    fn growth(&self) -> Vec<Workload> {
        (0..8)
            .map(|power| {
                let blocks = 1 << power;
                let full = self.table(blocks, places(blocks));
                let request = self.refused(&full);
                let name = format!("{blocks} blocks");
                self.decide(&name, &full, request, Reply::refuse(33, 1, 1))
            })
            .collect()
    }
}

// ---------------------------------------------------------------------------------------------
// What is measured: the worst

/// 32 rules of 8 exclusions of 8, 32 blocks of 61 permissions, and 1920 records of one user, each in
/// another context and marked for every rule.
struct Worst {
    name: &'static str,
    policy: Vec<u8>,
    table: Vec<u8>,
    /// Where the request is made.
    context: Context,
}

/// The user does operations 1 to 56, seven of the eight members of each exclusion of privileges.
const DONE: u16 = 56;

/// What the records have, by the index of each; and by the type of a level, what the rules ask there and
/// which value a context has.
struct Kind {
    name: &'static str,
    roles: fn(usize) -> u32,
    operation: fn(usize) -> u16,
    marks: fn(usize) -> u32,
    mark: fn(u16) -> Mark,
    value: fn(u16, &mut Chance) -> u16,
}

impl Kind {
    fn context(&self, chance: &mut Chance) -> Context {
        (1..=4)
            .map(|kind| (kind, (self.value)(kind, chance)))
            .collect()
    }
}

impl Worst {
    fn new(kind: &Kind) -> Worst {
        let privileges = |operations: &[u16]| Exclusion {
            m: 8,
            members: Members::Privileges(operations.iter().map(|&o| privilege(o)).collect()),
        };
        let exclusion = |x: u16| {
            if x.is_multiple_of(2) {
                let mut listed: Vec<u16> = (1..=7).map(|i| 7 * x + i).collect();
                listed.push(1_000 + x);
                privileges(&listed)
            } else {
                roles(8, &[1, 2, 3, 4, 5, 6, 7, 8 + x])
            }
        };
        let rule = Rule {
            levels: (1..=4).map(|at| level(at, (kind.mark)(at))).collect(),
            first: Some(privilege(1)),
            last: Some(privilege(2_000)),
            exclusions: (0..8).map(exclusion).collect(),
        };
        let mut rules = vec![rule; 32];
        // The very last exclusion is one that a request can fail by.
        rules[31].exclusions[7] = privileges(&[1, 2, 3, 4, 5, 6, 7, 3_000]);
        let never = Permission {
            role: 32,
            privilege: privilege(60_000),
        };
        let mut permissions = vec![vec![never; 61]; 32];
        for (place, operation) in [2_000, 3_000, 4_000].into_iter().enumerate() {
            permissions[31][58 + place] = Permission {
                role: 1,
                privilege: privilege(operation),
            };
        }
        let policy = write_policy(&Policy { rules, permissions });
        let mut chance = Chance::new(7);
        let records: Vec<Record> = (0..places(128))
            .map(|i| Record {
                request: Request {
                    user: 7,
                    roles: (kind.roles)(i),
                    privilege: privilege((kind.operation)(i)),
                    context: kind.context(&mut chance),
                },
                marks: (kind.marks)(i),
            })
            .collect();
        let table = write_table(sums(&policy), &records, 128);
        Worst {
            name: kind.name,
            policy,
            table,
            context: kind.context(&mut Chance::new(8)),
        }
    }

    fn workloads(&self) -> Vec<Workload> {
        let workload = |name: &str, call, operation, expected| Workload {
            name: format!("{}: {name}", self.name),
            call,
            policy: self.policy.clone(),
            table: self.table.clone(),
            request: request_of(7, 1, privilege(operation), &self.context),
            names: vec![],
            expected,
            written: None,
        };
        let (all, none) = (places(128), Reply::refuse(31, 0, 0));
        vec![
            workload(
                "refused by 33 at the very last",
                Call::Decide,
                3_000,
                Reply::refuse(33, 32, 8),
            ),
            workload(
                "refused by 34",
                Call::Decide,
                4_000,
                Reply::refuse(34, 0, 0),
            ),
            workload(
                "last step of all, all removed",
                Call::Decide,
                2_000,
                Reply::grant(0, all, 0),
            ),
            workload("refused by 31", Call::Decide, 5_000, none),
            workload(
                "check of the policy, 64 blocks",
                Call::CheckPolicy,
                1,
                Reply::accept(32),
            ),
            workload(
                "check of the table",
                Call::CheckTable,
                1,
                Reply::accept(all),
            ),
        ]
    }
}
