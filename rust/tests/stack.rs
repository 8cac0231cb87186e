//! The stack that a call takes, as include/sod.h states it: each call runs on a stack of just that
//! size, below which lies a page that may not be touched.

#[path = "support/engine.rs"]
mod engine;
mod independent;
#[path = "support/largest.rs"]
mod largest;
#[path = "support/plain.rs"]
mod plain;

use hastovimen::{raw, STACK};
use independent::images::*;
use independent::{xml, Reply};
use std::cell::Cell;
use std::ffi::{c_int, c_long, c_void};
use std::ptr::null_mut;

const PAGE: usize = 4096;
const PROT_NONE: c_int = 0;
const PROT_READ_WRITE: c_int = 3;
const MAP_PRIVATE_ANONYMOUS: c_int = 0x22;

/// glibc's `ucontext_t` on x86-64: where a context's stack and the next context stand is set by
/// hand, and the rest is the C library's.
#[repr(C, align(16))]
struct Context {
    flags: u64,
    link: *mut Context,
    stack: *mut c_void,
    stack_flags: u64,
    stack_size: usize,
    rest: [u64; 123],
}

impl Context {
    fn new() -> Context {
        Context {
            flags: 0,
            link: null_mut(),
            stack: null_mut(),
            stack_flags: 0,
            stack_size: 0,
            rest: [0; 123],
        }
    }
}

// Of the C library, which std links in any case.
extern "C" {
    fn mmap(
        at: *mut c_void,
        len: usize,
        prot: c_int,
        flags: c_int,
        fd: c_int,
        from: c_long,
    ) -> *mut c_void;
    fn mprotect(at: *mut c_void, len: usize, prot: c_int) -> c_int;
    fn getcontext(context: *mut Context) -> c_int;
    fn makecontext(context: *mut Context, start: extern "C" fn(), arguments: c_int);
    fn swapcontext(from: *mut Context, to: *const Context) -> c_int;
}

thread_local! {
    static LENT: Cell<*mut Lent> = const { Cell::new(null_mut()) };
}

struct Lent {
    call: Call,
    /// The second image of a reading too.
    policy: Vec<u8>,
    /// The output of a reading or a writing too.
    table: Vec<u8>,
    /// A request; the context of a closing; the text of a reading.
    request: Vec<u8>,
    /// The list of names of a reading or a writing.
    names: Vec<u8>,
    reply: Option<Reply>,
}

#[derive(Clone, Copy)]
enum Call {
    CheckPolicy,
    CheckTable,
    FreshTable,
    Decide,
    Preview,
    Close,
    ReadRules,
    WriteRules,
}

/// Runs on the small stack: nothing but the call.
extern "C" fn start() {
    // SAFETY: `on_small_stack` has set it, and waits.
    let lent = unsafe { &mut *LENT.get() };
    lent.reply = Some(match lent.call {
        Call::CheckPolicy => plain::count(raw::check_policy(&lent.policy)),
        Call::CheckTable => plain::count(raw::check_table(&lent.policy, &lent.table)),
        Call::FreshTable => plain::count(raw::fresh_table(&lent.policy, &mut lent.table)),
        Call::Decide => plain::grant(raw::decide(&lent.policy, &mut lent.table, &lent.request)),
        Call::Preview => plain::preview(raw::preview(&lent.policy, &lent.table, &lent.request)),
        Call::Close => engine::close(&lent.policy, &mut lent.table, &lent.request),
        Call::ReadRules => {
            engine::read_rules(&lent.request, &lent.names, &lent.policy, &mut lent.table)
        }
        Call::WriteRules => engine::write_rules(&lent.policy, &lent.names, &mut lent.table),
    });
}

/// The call's reply; the process ends where the stack does not suffice.
fn on_small_stack(call: Call, policy: &[u8], table: &[u8], request: &[u8]) -> Reply {
    run_on_small_stack(Lent {
        call,
        policy: policy.to_vec(),
        table: table.to_vec(),
        request: request.to_vec(),
        names: vec![],
        reply: None,
    })
}

fn run_on_small_stack(mut lent: Lent) -> Reply {
    let (mut here, mut there) = (Context::new(), Context::new());
    // SAFETY: the pages are mapped, the lowest may not be touched, and the context that runs on
    // the others comes back here before anything of this frame goes.
    unsafe {
        let pages = mmap(
            null_mut(),
            PAGE + STACK,
            PROT_READ_WRITE,
            MAP_PRIVATE_ANONYMOUS,
            -1,
            0,
        );
        assert_ne!(pages as isize, -1);
        assert_eq!(mprotect(pages, PAGE, PROT_NONE), 0);
        LENT.set(&mut lent);
        assert_eq!(getcontext(&mut there), 0);
        there.stack = pages.byte_add(PAGE);
        there.stack_size = STACK;
        there.link = &mut here;
        makecontext(&mut there, start, 0);
        assert_eq!(swapcontext(&mut here, &there), 0);
    }
    lent.reply.expect("the call came back")
}

fn privilege(operation: u16) -> Privilege {
    Privilege {
        operation,
        target: 1,
    }
}

/// 32 rules over these levels, of 8 exclusions; what is permitted are operations 1 to 3, of which 2
/// ends every run.
fn largest_policy(levels: Vec<Level>) -> Vec<u8> {
    let exclusion = |x: u16| Exclusion {
        m: 2,
        members: if x.is_multiple_of(2) {
            Members::Privileges(vec![privilege(100 + x), privilege(200 + x)])
        } else {
            Members::Roles(vec![2, 3 + x])
        },
    };
    let rule = Rule {
        levels,
        first: None,
        last: Some(privilege(2)),
        exclusions: (0..8).map(exclusion).collect(),
    };
    let permission = |operation| Permission {
        role: 1,
        privilege: privilege(operation),
    };
    write_policy(&Policy {
        rules: vec![rule; 32],
        permissions: vec![(1..=3).map(permission).collect()],
    })
}

fn request(operation: u16) -> Request {
    Request {
        user: 7,
        roles: 1,
        privilege: privilege(operation),
        context: (1..=4).map(|kind| (kind, 9)).collect(),
    }
}

/// Four levels of this mark.
fn four(mark: Mark) -> Vec<Level> {
    (1..=4).map(|kind| Level { kind, mark }).collect()
}

/// The largest policy, and tables up to 128 blocks, up to full, all of it one user's and marked for
/// all rules: a decision then takes the most room that it can. Rules have no levels, or four ranges, or
/// other levels.
#[test]
fn every_call_on_a_small_stack() {
    let marks = [Mark::Range(9, 65535), Mark::Fixed(9), Mark::Each];
    for levels in [vec![]].into_iter().chain(marks.map(four)) {
        every_call(&largest_policy(levels));
    }
}

fn every_call(policy: &[u8]) {
    let record = Record {
        request: request(1),
        marks: u32::MAX,
    };
    for blocks in [1, 5, 128] {
        for held in [0, places(blocks) - 1, places(blocks)] {
            let table = write_table(sums(policy), &vec![record.clone(); held], blocks);
            let gets = |call, operation, expected: Reply| {
                let request = write_request(&request(operation));
                assert_eq!(on_small_stack(call, policy, &table, &request), expected);
            };
            gets(Call::CheckPolicy, 1, Reply::accept(32));
            gets(Call::CheckTable, 1, Reply::accept(held));
            gets(Call::FreshTable, 1, Reply::accept(places(blocks)));
            for call in [Call::Decide, Call::Preview] {
                gets(call, 4, Reply::refuse(31, 0, 0));
                gets(call, 2, Reply::grant(0, held, 0));
                if held == places(blocks) {
                    gets(call, 1, Reply::refuse(34, 0, 0));
                } else {
                    gets(call, 1, Reply::grant(1, 0, held + 1));
                }
            }
            let all = request(1).context;
            for (levels, removed) in [(&all[..0], held), (&all, held), (&[(1, 8)], 0)] {
                let context = write_context(levels);
                let reply = on_small_stack(Call::Close, policy, &table, &context);
                assert_eq!(reply, Reply::accept(removed));
            }
        }
    }
}

/// Every other record is of a context that is closed, so that all that stay are moved. A fixed value
/// at each level would leave no second context.
#[test]
fn closings_on_a_small_stack() {
    let marks = [Mark::Range(9, 65535), Mark::Each];
    for levels in [vec![]].into_iter().chain(marks.map(four)) {
        let policy = largest_policy(levels);
        for blocks in [1, 5, 128] {
            let mut records = vec![];
            for i in 0..places(blocks) {
                let (mut request, marks) = (request(1), u32::MAX);
                request.context[3].1 += (i % 2) as u16;
                records.push(Record { request, marks });
            }
            let table = write_table(sums(&policy), &records, blocks);
            let context = write_context(&records[0].request.context);
            let removed = places(blocks).div_ceil(2);
            let reply = on_small_stack(Call::Close, &policy, &table, &context);
            assert_eq!(reply, Reply::accept(removed));
        }
    }
}

/// A reading of this text, or a writing, with the largest policy and the longest list.
fn text_gets(call: Call, text: &[u8], room: usize, expected: Reply) {
    let reply = run_on_small_stack(Lent {
        call,
        policy: write_policy(&largest::policy()),
        table: vec![0; room],
        request: text.to_vec(),
        names: largest::names(),
        reply: None,
    });
    assert_eq!(reply, expected);
}

/// The text of the largest policy, read and written, and refused where all of it has been gone through.
#[test]
fn texts_on_a_small_stack() {
    let policy = write_policy(&largest::policy());
    let text = xml::writing(&policy, &largest::names(), usize::MAX).unwrap();
    let (image, length) = (policy.len(), text.len());
    let short = Reply::refuse(43, 0, 0);
    text_gets(Call::ReadRules, &text, image, Reply::accept(image));
    text_gets(Call::ReadRules, &text, image - 1, short);
    text_gets(Call::WriteRules, &[], length, Reply::accept(length));
    text_gets(Call::WriteRules, &[], length - 1, short);
    let stops = Reply::refuse(41, length - 1, 0);
    text_gets(Call::ReadRules, &text[..length - 1], image, stops);
    text_gets(Call::ReadRules, &[], image, Reply::refuse(41, 0, 0));
}

/// Rules, levels, exclusions and members may be any in number, and so may be white space: the stack does
/// not grow with them.
#[test]
fn long_texts_on_a_small_stack() {
    let role = |number: usize| {
        let name = format!("{}{number:04}", "n".repeat(56));
        format!("<Role type=\"role\" value=\"{name}\"/>")
    };
    let exclusion = format!(
        "<MMER ForbiddenCardinality=\"2\">{}{}</MMER>",
        role(1),
        role(2)
    );
    let rule = format!("<MSoDPolicy BusinessContext=\"\">{exclusion}</MSoDPolicy>");
    let in_set = "<MSoDPolicySet><MSoDPolicy BusinessContext=\"";
    for (before, part) in [
        ("<MSoDPolicySet".into(), " "),
        ("<MSoDPolicySet>".into(), &rule[..]),
        (format!("{in_set}a=*"), ",a=*"),
        (format!("{in_set}\">"), &exclusion),
        (format!("{in_set}\">{}", &exclusion[..31]), &role(1)),
    ] {
        let text = format!("{before}{}", part.repeat(5_000));
        let stops = Reply::refuse(41, text.len(), 0);
        text_gets(Call::ReadRules, text.as_bytes(), 0, stops);
    }
}
