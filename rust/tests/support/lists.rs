//! Lists of calls put to one table, and the shortest beginning of one that fails.

use super::chance::Chance;
use super::closed::{Since, Step};
use super::compare::{Comparing, Seen};
use super::plain::line;
use super::reread::{Lately, Reading, Rules, Writing};
use super::texts::WRITE;
use super::world::closing_bytes;
use super::written::differing_bytes;
use crate::independent::images::*;
use crate::independent::judge;
use crate::independent::register::Register;
use crate::independent::Reply;
use std::collections::BTreeSet;
use std::fmt::Write;
use std::panic::{catch_unwind, resume_unwind, set_hook, take_hook, AssertUnwindSafe};
use std::sync::Mutex;

pub struct List {
    pub policy: Vec<u8>,
    pub start: Start,
    pub calls: Vec<Call>,
    /// Whether anybody has reached m is asked after every so many grants.
    pub every: usize,
}

/// What is done with a request, or with a context, whose bytes these are; or with the list's policy.
pub enum Call {
    Decide(Vec<u8>),
    Preview(Vec<u8>),
    /// A preview, and directly after it the decision.
    Both(Vec<u8>),
    Close(Vec<u8>),
    /// The table is checked.
    Check,
    Read(Reading),
    Write(Writing),
}

impl Call {
    /// Decides these requests in their order, and previews some first. Now and then any other
    /// request of the list is previewed in between.
    pub fn with_previews(chance: &mut Chance, requests: Vec<Vec<u8>>) -> Vec<Call> {
        let mut calls = vec![];
        for request in &requests {
            if chance.percent(8) {
                calls.push(Call::Preview(chance.pick(&requests)));
            }
            let decide = if chance.percent(25) {
                Call::Both
            } else {
                Call::Decide
            };
            calls.push(decide(request.clone()));
        }
        calls
    }

    /// Before so many of a hundred calls a context is closed, mostly one that some request of the list
    /// is in; and now and then the table is checked.
    pub fn with_closings(chance: &mut Chance, calls: Vec<Call>, of_a_hundred: usize) -> Vec<Call> {
        let contexts: Vec<Context> = calls.iter().filter_map(Call::context).collect();
        let mut mixed = vec![];
        for call in calls {
            if chance.percent(of_a_hundred) && !contexts.is_empty() {
                let context = chance.pick(&contexts);
                mixed.push(Call::Close(closing_bytes(chance, &context)));
            }
            if chance.percent(1) {
                mixed.push(Call::Check);
            }
            mixed.push(call);
        }
        mixed
    }

    /// Before so many of a hundred calls the rules of the list's policy are read or written as text.
    pub fn with_texts(
        chance: &mut Chance,
        calls: Vec<Call>,
        policy: &[u8],
        of_a_hundred: usize,
    ) -> Vec<Call> {
        let mut rules = None;
        let mut mixed = vec![];
        for call in calls {
            if chance.percent(of_a_hundred) {
                let rules = rules.get_or_insert_with(|| Rules::of(chance, policy));
                mixed.push(match chance.percent(60) {
                    true => Call::Read(rules.reading(chance)),
                    false => Call::Write(rules.writing(chance)),
                });
            }
            mixed.push(call);
        }
        mixed
    }

    /// The context of a good request.
    fn context(&self) -> Option<Context> {
        match self {
            Call::Decide(request) | Call::Both(request) => {
                read_request(request).ok().map(|request| request.context)
            }
            _ => None,
        }
    }

    /// In words; what stands in front of the bytes where these are bad.
    fn text(&self) -> String {
        let request = |name: &str, bytes: &[u8]| {
            let words = hastovimen::Request::read(bytes);
            let words = words.map_or(format!("{bytes:?}"), |request| request.to_string());
            format!("{name}{words}")
        };
        match self {
            Call::Decide(bytes) => request("", bytes),
            Call::Preview(bytes) => request("preview of ", bytes),
            Call::Both(bytes) => request("preview and decision of ", bytes),
            Call::Close(bytes) => match read_closing(bytes) {
                Ok(levels) => format!("closing of {levels:?}"),
                Err(_) => format!("closing of {bytes:?}"),
            },
            Call::Check => "check of the table".to_string(),
            Call::Read(reading) => reading.text(),
            Call::Write(writing) => writing.text(),
        }
    }
}

pub enum Start {
    /// A fresh table is made in these bytes, and the register goes along.
    Fresh(Vec<u8>),
    /// A table that passes the check.
    Given(Vec<u8>),
}

impl List {
    /// Plays the whole list. Where it fails, its shortest failing beginning is printed.
    pub fn run(&self, comparing: &mut Comparing) {
        self.run_noting(comparing, |_, _, _| {});
    }

    /// The same; before each decision `note` sees the table and the request.
    pub fn run_noting(&self, comparing: &mut Comparing, note: impl Fn(&mut Seen, &[u8], &[u8])) {
        let all = self.calls.len();
        let played = catch_unwind(AssertUnwindSafe(|| {
            self.play(comparing, all, self.every, &note)
        }));
        if let Err(panic) = played {
            eprintln!("{}", self.text(shortest(all, |length| self.fails(length))));
            resume_unwind(panic);
        }
    }

    /// Plays the first calls, and panics at the first difference.
    fn play(
        &self,
        comparing: &mut Comparing,
        length: usize,
        every: usize,
        note: impl Fn(&mut Seen, &[u8], &[u8]),
    ) {
        let mut table = self.table().to_vec();
        let along = self.begin(comparing, &mut table, every);
        let mut play = Play {
            comparing,
            policy: self.policy.clone(),
            table,
            along,
            since: Since::default(),
            lately: Lately::default(),
        };
        for call in &self.calls[..length] {
            if let Call::Decide(request) | Call::Both(request) = call {
                note(&mut play.comparing.seen, &play.table, request);
            }
            play.call(call);
        }
        play.end();
    }

    /// Makes the table fresh, if it is to be.
    fn begin(&self, comparing: &mut Comparing, table: &mut [u8], every: usize) -> Option<Along> {
        let Start::Fresh(_) = self.start else {
            return None;
        };
        let blocks = table.len() / 512;
        let fresh = comparing.fresh_table(&self.policy, table);
        assert_eq!(fresh, Reply::accept(places(blocks)));
        let register = Register::new(&self.policy, blocks);
        assert!(table == register.image(), "a fresh table is another");
        Some(Along {
            register,
            every,
            recorded: 0,
            removed: 0,
        })
    }

    fn table(&self) -> &[u8] {
        match &self.start {
            Start::Fresh(bytes) | Start::Given(bytes) => bytes,
        }
    }

    /// Whether its beginning fails, with everything asked after every grant; in a long list, where that
    /// would take minutes, as often as ever.
    fn fails(&self, length: usize) -> bool {
        let long = self.calls.len() > 1_000;
        let every = if long { self.every } else { 1 };
        let play = || self.play(&mut Comparing::new(), length, every, |_, _, _| {});
        silently(|| catch_unwind(AssertUnwindSafe(play)).is_err())
    }

    /// Its first calls in words, with the answers of the independent judge.
    fn text(&self, length: usize) -> String {
        let mut text = format!("the shortest failing list has {length} calls\n");
        let policy = hastovimen::Policy::check(&self.policy);
        text += &policy.map_or_else(|bad| bad.to_string(), |policy| policy.to_string());
        let mut table = self.table().to_vec();
        let blocks = table.len() / 512;
        if let Start::Fresh(_) = self.start {
            judge::fresh_table(&self.policy, &mut table);
        }
        let held = judge::check_table(&self.policy, &table).first;
        writeln!(text, "blocks of the table: {blocks}; records: {held}").unwrap();
        for (i, call) in self.calls[..length].iter().enumerate() {
            let before = table.clone();
            let answer = match call {
                Call::Decide(request) | Call::Both(request) => {
                    line(judge::decide(&self.policy, &mut table, request))
                }
                Call::Preview(request) => line(judge::preview(&self.policy, &table, request)),
                Call::Close(context) => counted(judge::close(&self.policy, &mut table, context)),
                Call::Check => counted(judge::check_table(&self.policy, &table)),
                Call::Read(reading) => counted(reading.by_judge(&self.policy)),
                Call::Write(writing) => counted(writing.by_judge(&self.policy)),
            };
            let blocks = differing_bytes(&before, &table).len();
            let words = call.text();
            writeln!(text, "{} {words}: {answer}; blocks {blocks}", i + 1).unwrap();
        }
        text
    }
}

/// The answer in words of a call that counts: records, bytes.
fn counted(reply: Reply) -> String {
    match reply.number {
        0 => reply.first.to_string(),
        _ => line(reply),
    }
}

/// A list while it is played.
struct Play<'l> {
    comparing: &'l mut Comparing,
    /// The list's policy, from the first reading on that gives it the image that was read.
    policy: Vec<u8>,
    table: Vec<u8>,
    along: Option<Along>,
    since: Since,
    lately: Lately,
}

impl Play<'_> {
    fn call(&mut self, call: &Call) {
        match call {
            Call::Decide(request) => {
                self.decide(request);
            }
            Call::Preview(request) => {
                let reply = self.preview(request);
                if let Some(along) = &self.along {
                    assert_eq!(reply, along.register.preview(request), "the register");
                }
            }
            // The decision is compared with the register.
            Call::Both(request) => {
                let foreseen = self.preview(request);
                assert_eq!(foreseen, self.decide(request), "the preview");
            }
            Call::Close(context) => self.close(context),
            Call::Check => self.check(),
            Call::Read(reading) => self.read(reading),
            Call::Write(writing) => self.write(writing),
        }
    }

    fn preview(&mut self, request: &[u8]) -> Reply {
        let reply = (self.comparing).preview(&self.policy, &self.table, request);
        (self.lately).other("preview", reply, &mut self.comparing.seen);
        reply
    }

    fn decide(&mut self, request: &[u8]) -> Reply {
        let before = self.table.clone();
        let reply = (self.comparing).decide(&self.policy, &mut self.table, request);
        (self.lately).other("decide", reply, &mut self.comparing.seen);
        if let Some(along) = &mut self.along {
            along.take(request, reply, &self.table, &mut self.comparing.seen);
            self.note(&before, request, reply, Since::decision);
        }
        reply
    }

    fn close(&mut self, context: &[u8]) {
        let before = self.table.clone();
        let reply = (self.comparing).close(&self.policy, &mut self.table, context);
        (self.lately).other("close", reply, &mut self.comparing.seen);
        if let Some(along) = &mut self.along {
            along.close(context, reply, &self.table, &mut self.comparing.seen);
            self.note(&before, context, reply, Since::closing);
        }
    }

    /// Takes down what a list from a fresh table has met with by its closings.
    fn note(
        &mut self,
        before: &[u8],
        bytes: &[u8],
        reply: Reply,
        meets: impl Fn(&mut Since, &Step) -> BTreeSet<&'static str>,
    ) {
        let step = Step {
            policy: &self.policy,
            before,
            after: &self.table,
            bytes,
            reply,
        };
        for what in meets(&mut self.since, &step) {
            self.comparing.seen.note(what);
        }
    }

    /// What follows is lent the image that was read, if it is the list's policy.
    fn read(&mut self, reading: &Reading) {
        let read = reading.make(self.comparing, &self.policy, &self.table);
        (self.lately).reading(read, &mut self.policy, &mut self.comparing.seen);
    }

    fn write(&mut self, writing: &Writing) {
        let reply = writing.make(self.comparing, &self.policy, &self.table);
        (self.lately).other(WRITE, reply, &mut self.comparing.seen);
    }

    /// A table from a fresh one holds what was recorded and not removed.
    fn check(&mut self) {
        let held = self.comparing.check_table(&self.policy, &self.table);
        (self.lately).other("check_table", held, &mut self.comparing.seen);
        if let Some(along) = &self.along {
            assert_eq!(held, Reply::accept(along.held()));
        }
    }

    fn end(mut self) {
        if self.along.is_some() {
            self.check();
        }
    }
}

/// What is taken down where a list has no closing.
pub const BY_DOCUMENT_01: &str = "runs step by step are those of document 01's own words";

/// The register that goes along with a list from a fresh table, and what its answers add up to.
struct Along {
    register: Register,
    every: usize,
    recorded: u32,
    removed: u32,
}

impl Along {
    fn take(&mut self, request: &[u8], reply: Reply, table: &[u8], seen: &mut Seen) {
        let harmless = reply.is_refusal() || self.register.could_take(request);
        assert_eq!(reply, self.register.answer(request), "the register");
        self.same_image(table);
        if reply.is_refusal() {
            return;
        }
        assert!(harmless, "somebody has reached m with this step");
        self.nobody_has_reached_m(seen);
        self.recorded += reply.first;
        self.removed += reply.second;
        assert_eq!(self.held(), reply.third as usize);
    }

    fn close(&mut self, context: &[u8], reply: Reply, table: &[u8], seen: &mut Seen) {
        assert_eq!(reply, self.register.close(context), "the register");
        self.same_image(table);
        if !reply.is_refusal() {
            self.nobody_has_reached_m(seen);
            self.removed += reply.first;
        }
    }

    fn same_image(&self, table: &[u8]) {
        let same = table == self.register.image();
        assert!(same, "the register's image is another");
    }

    /// Asked after every so many entries; with it, whether the runs are document 01's.
    fn nobody_has_reached_m(&self, seen: &mut Seen) {
        if self.register.entries().is_multiple_of(self.every) {
            assert!(self.register.nobody_has_reached_m());
            if let Some(same) = self.register.is_document_01s() {
                assert!(same, "runs step by step are not document 01's");
                seen.note(BY_DOCUMENT_01);
            }
        }
    }

    fn held(&self) -> usize {
        (self.recorded - self.removed) as usize
    }
}

/// The smallest length that fails, if the whole does: what has failed goes on failing.
pub fn shortest(whole: usize, fails: impl Fn(usize) -> bool) -> usize {
    let (mut low, mut high) = (0, whole);
    while low < high {
        let middle = low + (high - low) / 2;
        if fails(middle) {
            high = middle;
        } else {
            low = middle + 1;
        }
    }
    low
}

/// Without the messages of panics, which would come once for every try.
fn silently<T>(work: impl FnOnce() -> T) -> T {
    static ONE_AT_A_TIME: Mutex<()> = Mutex::new(());
    let _guard = ONE_AT_A_TIME.lock();
    let hook = take_hook();
    set_hook(Box::new(|_| {}));
    let result = work();
    set_hook(hook);
    result
}
