//! One call put to the engine and to both independent judges, and all that comes of it compared.

use super::closed;
use super::engine;
use super::guarded::{Guarded, SHIFTS};
use super::lent::{Lay, Lent};
use super::plain;
use super::ranged;
use super::texts::{Texts, READ, WRITE};
use super::written::{differing_bytes, Change, NONE};
use crate::independent::images::{places, BLOCK};
use crate::independent::{judge, quick, Reply};
use hastovimen::raw;
use std::collections::BTreeMap;
use std::fmt;

/// How often each answer was seen, and whatever else a test takes down.
#[derive(Default)]
pub struct Seen {
    pub decisions: usize,
    pub previews: usize,
    pub closings: usize,
    pub readings: usize,
    pub writings: usize,
    refusals: BTreeMap<(&'static str, u32), usize>,
    grants: BTreeMap<(&'static str, Kind), usize>,
    notes: BTreeMap<(&'static str, &'static str), usize>,
}

/// A kind of grant: whether it recorded, removed some, and left some.
type Kind = (bool, bool, bool);

/// All kinds that there are: what records holds one at least.
pub const KINDS: [Kind; 6] = [
    (false, false, false),
    (false, false, true),
    (false, true, false),
    (false, true, true),
    (true, false, true),
    (true, true, true),
];

pub const POLICY_NUMBERS: [u32; 6] = [1, 2, 3, 4, 5, 6];
pub const TABLE_NUMBERS: [u32; 5] = [11, 12, 13, 14, 15];
pub const REQUEST_NUMBERS: [u32; 2] = [21, 22];
pub const JUDGE_NUMBERS: [u32; 4] = [31, 32, 33, 34];

/// What is taken down of previews.
pub const MAKES_ROOM: &str = "previews of a last step that makes room in a full table";

impl Seen {
    fn take(&mut self, call: &'static str, reply: Reply) {
        let (decides, previews) = (call == "decide", call == "preview");
        if reply.is_refusal() {
            *self.refusals.entry((call, reply.number)).or_default() += 1;
        } else if decides || previews {
            let kind = (reply.first != 0, reply.second != 0, reply.third != 0);
            *self.grants.entry((call, kind)).or_default() += 1;
        }
        self.decisions += usize::from(decides);
        self.previews += usize::from(previews);
        self.closings += usize::from(call == "close");
        self.readings += usize::from(call == READ);
        self.writings += usize::from(call == WRITE);
    }

    /// Takes down that a call met with this.
    pub fn note(&mut self, what: &'static str) {
        self.note_of("", what);
    }

    /// The same, of what is counted for each call by itself.
    pub fn note_of(&mut self, call: &'static str, what: &'static str) {
        *self.notes.entry((call, what)).or_default() += 1;
    }

    pub fn refused(&self, call: &'static str, number: u32) -> usize {
        self.refusals.get(&(call, number)).copied().unwrap_or(0)
    }

    /// Fails unless the call was refused by each of these numbers so many times.
    pub fn must_refuse(&self, call: &'static str, numbers: &[u32], times: usize) {
        for &number in numbers {
            let seen = self.refused(call, number);
            assert!(seen >= times, "{call} gave {number} {seen} times\n{self}");
        }
    }

    /// Fails unless the call gave each of these kinds of grant so many times.
    pub fn must_grant(&self, call: &'static str, kinds: &[Kind], times: usize) {
        for &kind in kinds {
            let seen = self.grants.get(&(call, kind)).copied().unwrap_or(0);
            assert!(
                seen >= times,
                "{call} granted {kind:?} {seen} times\n{self}"
            );
        }
    }

    /// Fails unless each of these was taken down so many times.
    pub fn must_note(&self, notes: &[&'static str], times: usize) {
        self.must_note_of("", notes, times);
    }

    /// The same, of what is counted for each call by itself.
    pub fn must_note_of(&self, call: &'static str, notes: &[&'static str], times: usize) {
        for &what in notes {
            let seen = self.notes.get(&(call, what)).copied().unwrap_or(0);
            assert!(seen >= times, "{call} {what}: {seen} times\n{self}");
        }
    }
}

impl fmt::Display for Seen {
    fn fmt(&self, f: &mut fmt::Formatter) -> fmt::Result {
        writeln!(
            f,
            "{} decisions, {} previews, {} closings, {} readings, {} writings",
            self.decisions, self.previews, self.closings, self.readings, self.writings
        )?;
        for ((call, (recorded, removed, held)), times) in &self.grants {
            let some = |yes: &bool| if *yes { "some" } else { "0" };
            let recorded = u8::from(*recorded);
            let (removed, held) = (some(removed), some(held));
            writeln!(
                f,
                "  {call} granted, recorded {recorded}, removed {removed}, held {held}: {times}"
            )?;
        }
        for ((call, number), times) in &self.refusals {
            writeln!(f, "  {call} refused by {number}: {times}")?;
        }
        for ((call, what), times) in &self.notes {
            let call = match *call {
                "" => String::new(),
                call => format!("{call}, "),
            };
            writeln!(f, "  {call}{what}: {times}")?;
        }
        Ok(())
    }
}

/// The calls that bring a table up to date; the bytes that each takes are a request, a context.
#[derive(Clone, Copy, PartialEq, Eq)]
enum Altering {
    Decide,
    Close,
}

impl Altering {
    fn name(self) -> &'static str {
        match self {
            Altering::Decide => "decide",
            Altering::Close => "close",
        }
    }

    fn by_engine(self, policy: &[u8], table: &mut [u8], bytes: &[u8]) -> Reply {
        match self {
            Altering::Decide => plain::grant(raw::decide(policy, table, bytes)),
            Altering::Close => engine::close(policy, table, bytes),
        }
    }

    fn by_judge(self, policy: &[u8], table: &mut [u8], bytes: &[u8]) -> Reply {
        match self {
            Altering::Decide => judge::decide(policy, table, bytes),
            Altering::Close => judge::close(policy, table, bytes),
        }
    }

    /// The answer, and how many blocks the quick judge has written.
    fn by_quick(self, policy: &[u8], table: &mut [u8], bytes: &[u8]) -> (Reply, usize) {
        let (reply, written) = match self {
            Altering::Decide => quick::decide_counting(policy, table, bytes),
            Altering::Close => quick::close_counting(policy, table, bytes),
        };
        (reply, written as usize)
    }

    /// How many blocks the engine has written.
    fn by_probe(self, policy: &[u8], table: &mut [u8], bytes: &[u8]) -> usize {
        match self {
            Altering::Decide => probe::decide(policy, table, bytes),
            Altering::Close => probe::close(policy, table, bytes),
        }
    }
}

/// Lends memory to the engine and compares.
pub struct Comparing {
    policy: Lent,
    table: Lent,
    /// A request, or the context of a closing.
    request: Lent,
    guarded: Guarded,
    /// Made for the first text; most tests have none.
    texts: Option<Texts>,
    calls: usize,
    pub seen: Seen,
}

/// More than the longest images, so that longer ones can be lent too.
const LONGEST_POLICY: usize = 512 * 66;
const LONGEST_TABLE: usize = 512 * 130;
const LONGEST_REQUEST: usize = 512;

/// Every so many calls a decision or a closing is made again on a guarded table, which takes time.
const GUARDED: usize = 4;

impl Comparing {
    pub fn new() -> Comparing {
        Comparing {
            policy: Lent::new(LONGEST_POLICY),
            table: Lent::new(LONGEST_TABLE),
            request: Lent::new(LONGEST_REQUEST),
            guarded: Guarded::new(LONGEST_TABLE),
            texts: None,
            calls: 0,
            seen: Seen::default(),
        }
    }

    pub fn check_policy(&mut self, policy: &[u8]) -> Reply {
        self.lay(policy, &[], &[]);
        let reply = plain::count(raw::check_policy(self.policy.bytes()));
        assert_eq!(reply, quick::check_policy(policy), "quick judge");
        assert_eq!(reply, judge::check_policy(policy), "judge");
        self.nothing_altered(policy, &[], &[]);
        self.done("check_policy", reply)
    }

    pub fn check_table(&mut self, policy: &[u8], table: &[u8]) -> Reply {
        self.lay(policy, table, &[]);
        let reply = plain::count(raw::check_table(self.policy.bytes(), self.table.bytes()));
        assert_eq!(reply, quick::check_table(policy, table), "quick judge");
        assert_eq!(reply, judge::check_table(policy, table), "judge");
        self.nothing_altered(policy, table, &[]);
        self.done("check_table", reply)
    }

    /// Makes a fresh table in `table`, whatever it holds.
    pub fn fresh_table(&mut self, policy: &[u8], table: &mut [u8]) -> Reply {
        self.lay(policy, table, &[]);
        let reply = plain::count(raw::fresh_table(
            self.policy.bytes(),
            self.table.bytes_mut(),
        ));
        let (mut by_quick, mut by_judge) = (table.to_vec(), table.to_vec());
        assert_eq!(reply, quick::fresh_table(policy, &mut by_quick), "quick");
        assert_eq!(reply, judge::fresh_table(policy, &mut by_judge), "judge");
        self.new_table(reply, policy, table, &[], &by_quick, &by_judge);
        self.done("fresh_table", reply)
    }

    /// Decides, and brings `table` up to date.
    pub fn decide(&mut self, policy: &[u8], table: &mut [u8], request: &[u8]) -> Reply {
        self.alter(Altering::Decide, policy, table, request)
    }

    /// Closes a context, and brings `table` up to date.
    pub fn close(&mut self, policy: &[u8], table: &mut [u8], context: &[u8]) -> Reply {
        self.alter(Altering::Close, policy, table, context)
    }

    /// Decides. The answer, and how many blocks were written; no other was written to.
    pub fn decide_guarded(
        &mut self,
        policy: &[u8],
        table: &mut [u8],
        request: &[u8],
    ) -> (Reply, usize) {
        self.alter_guarded(Altering::Decide, policy, table, request)
    }

    /// The same of a closing.
    pub fn close_guarded(
        &mut self,
        policy: &[u8],
        table: &mut [u8],
        context: &[u8],
    ) -> (Reply, usize) {
        self.alter_guarded(Altering::Close, policy, table, context)
    }

    fn alter(&mut self, call: Altering, policy: &[u8], table: &mut [u8], bytes: &[u8]) -> Reply {
        let before = table.to_vec();
        let (reply, _) = self.alter_and_probe(call, policy, table, bytes);
        if self.calls.is_multiple_of(GUARDED) {
            let shift = self.calls / GUARDED % SHIFTS;
            self.write_to_no_other(call, policy, [&before, table], bytes, shift);
        }
        reply
    }

    fn alter_guarded(
        &mut self,
        call: Altering,
        policy: &[u8],
        table: &mut [u8],
        bytes: &[u8],
    ) -> (Reply, usize) {
        let before = table.to_vec();
        let answer = self.alter_and_probe(call, policy, table, bytes);
        for shift in 0..SHIFTS {
            self.write_to_no_other(call, policy, [&before, table], bytes, shift);
        }
        answer
    }

    /// Makes the call, and asks the probe on a copy of the table how many blocks were written.
    fn alter_and_probe(
        &mut self,
        call: Altering,
        policy: &[u8],
        table: &mut [u8],
        bytes: &[u8],
    ) -> (Reply, usize) {
        let before = table.to_vec();
        let (reply, by_quick) = self.alter_alone(call, policy, table, bytes);
        let met = match call {
            Altering::Decide => ranged::meets(policy, &before, bytes, reply),
            Altering::Close => closed::meets(policy, &before, table, bytes, reply),
        };
        for what in met {
            self.seen.note(what);
        }
        let written = self.probe(call, policy, [&before, table], bytes);
        let differing = differing_bytes(&before, table);
        assert_eq!(written, differing.len(), "the probe: blocks that differ");
        assert_eq!(written, by_quick, "the probe: the quick judge's blocks");
        if reply.is_refusal() {
            assert_eq!(written, 0, "the probe: a refusal");
        } else if written == 0 {
            self.seen.note_of(call.name(), NONE);
        } else {
            let change = Change::read(policy, &before, table);
            assert_eq!(differing, change.differing(), "records differ elsewhere");
            let recorded = call == Altering::Decide && reply.first == 1;
            for what in change.meets(&differing, recorded) {
                self.seen.note_of(call.name(), what);
            }
        }
        (reply, written)
    }

    /// The number of blocks that the probe has written, when it has left the same table.
    fn probe(
        &mut self,
        call: Altering,
        policy: &[u8],
        [before, after]: [&[u8]; 2],
        bytes: &[u8],
    ) -> usize {
        self.lay(policy, before, bytes);
        let (policy_lent, bytes_lent) = (self.policy.bytes(), self.request.bytes());
        let written = call.by_probe(policy_lent, self.table.bytes_mut(), bytes_lent);
        assert!(self.table.bytes() == after, "the probe's table is another");
        self.nothing_altered(policy, after, bytes);
        written
    }

    /// Makes the call once more, where only blocks that differ afterwards may be written to.
    fn write_to_no_other(
        &mut self,
        call: Altering,
        policy: &[u8],
        [before, after]: [&[u8]; 2],
        bytes: &[u8],
        shift: usize,
    ) {
        let alter = |table: &mut [u8]| {
            let _same = call.by_engine(policy, table, bytes);
        };
        let differing = differing_bytes(before, after);
        let left = self.guarded.lend(before, shift, &differing, alter);
        assert!(left == after, "the table is another where it is guarded");
    }

    /// The answer, and how many blocks the quick judge has written.
    fn alter_alone(
        &mut self,
        call: Altering,
        policy: &[u8],
        table: &mut [u8],
        bytes: &[u8],
    ) -> (Reply, usize) {
        self.lay(policy, table, bytes);
        let (policy_lent, bytes_lent) = (self.policy.bytes(), self.request.bytes());
        let reply = call.by_engine(policy_lent, self.table.bytes_mut(), bytes_lent);
        let (mut by_quick, mut by_judge) = (table.to_vec(), table.to_vec());
        let (quick, written) = call.by_quick(policy, &mut by_quick, bytes);
        assert_eq!(reply, quick, "quick judge");
        let judge = call.by_judge(policy, &mut by_judge, bytes);
        assert_eq!(reply, judge, "judge");
        self.new_table(reply, policy, table, bytes, &by_quick, &by_judge);
        (self.done(call.name(), reply), written)
    }

    /// Previews; no lent byte is altered, whatever the answer.
    pub fn preview(&mut self, policy: &[u8], table: &[u8], request: &[u8]) -> Reply {
        self.lay(policy, table, request);
        let reply = plain::preview(raw::preview(
            self.policy.bytes(),
            self.table.bytes(),
            self.request.bytes(),
        ));
        let quick = quick::preview(policy, table, request);
        assert_eq!(reply, quick, "quick judge");
        let judge = judge::preview(policy, table, request);
        assert_eq!(reply, judge, "judge");
        self.nothing_altered(policy, table, request);
        if makes_room(reply, places(table.len() / BLOCK)) {
            self.seen.note(MAKES_ROOM);
        }
        self.done("preview", reply)
    }

    /// Reads or writes a text while a policy and a table lie where they are lent, and alters neither.
    pub fn beside(
        &mut self,
        call: &'static str,
        policy: &[u8],
        table: &[u8],
        work: impl FnOnce(&mut Texts) -> Result<Vec<u8>, Reply>,
    ) -> Result<Vec<u8>, Reply> {
        // Where the call before had them, in case that the engine has kept something of it.
        self.calls += 1;
        self.lay(policy, table, &[]);
        let given = work(self.texts.get_or_insert_with(Texts::new));
        self.nothing_altered(policy, table, &[]);
        let length = given.as_ref().map(Vec::len);
        self.done(call, length.map_or_else(|&refusal| refusal, Reply::accept));
        given
    }

    /// Compares what a call has made of the table; takes it over if the call was not refused.
    fn new_table(
        &mut self,
        reply: Reply,
        policy: &[u8],
        table: &mut [u8],
        request: &[u8],
        by_quick: &[u8],
        by_judge: &[u8],
    ) {
        if !reply.is_refusal() {
            table.copy_from_slice(by_judge);
        }
        assert!(by_quick == table, "the quick judge's table is another");
        assert!(by_judge == table, "a refused call altered the table");
        self.nothing_altered(policy, table, request);
    }

    fn lay(&mut self, policy: &[u8], table: &[u8], request: &[u8]) {
        let lay = match self.calls % 2 {
            0 => Lay::AtTheEnd,
            _ => Lay::AtTheBeginning,
        };
        self.policy.lay(policy, lay);
        self.table.lay(table, lay);
        self.request.lay(request, lay);
    }

    /// The lent buffers are as told, and so are the bytes around them.
    fn nothing_altered(&mut self, policy: &[u8], table: &[u8], request: &[u8]) {
        assert!(self.policy.bytes() == policy, "the policy was altered");
        assert!(self.table.bytes() == table, "the engine's table is another");
        assert!(self.request.bytes() == request, "the request was altered");
        let all = [&mut self.policy, &mut self.table, &mut self.request];
        for lent in all {
            assert!(lent.canaries_live(), "something outside was altered");
        }
    }

    fn done(&mut self, call: &'static str, reply: Reply) -> Reply {
        self.calls += 1;
        self.seen.take(call, reply);
        reply
    }
}

/// Whether a request is recorded in a table of so many places that was full, as others go.
fn makes_room(reply: Reply, places: usize) -> bool {
    let Reply {
        number,
        first: recorded,
        second: removed,
        third: held,
    } = reply;
    number == 0 && recorded == 1 && removed > 0 && (held - 1 + removed) as usize == places
}
