//! The C functions of the engine's probe (rust/tests/probe) from the independent judge.
//!
//! Both archives of the stand-in bring Rust's standard library along. That does no harm: a linker
//! takes from an archive only what is still missing, and the two share no other name.

#[path = "../../independent/mod.rs"]
mod independent;
#[path = "../lent.rs"]
mod lent;

use independent::quick;
use lent::{lent, lent_mut};

#[no_mangle]
unsafe extern "C" fn sod_probe_decide(
    policy: *const u8,
    policy_len: usize,
    table: *mut u8,
    table_len: usize,
    request: *const u8,
    request_len: usize,
) -> usize {
    let (_, written) = quick::decide_counting(
        lent(policy, policy_len),
        lent_mut(table, table_len),
        lent(request, request_len),
    );
    written as usize
}

#[no_mangle]
unsafe extern "C" fn sod_probe_close(
    policy: *const u8,
    policy_len: usize,
    table: *mut u8,
    table_len: usize,
    context: *const u8,
    context_len: usize,
) -> usize {
    let closed = quick::close_counting(
        lent(policy, policy_len),
        lent_mut(table, table_len),
        lent(context, context_len),
    );
    closed.1 as usize
}
