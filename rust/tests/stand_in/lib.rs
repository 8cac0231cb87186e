//! The eight C functions of include/sod.h from the independent judge, so that wrapper, examples and
//! tests can be tried where the engine's archive is not at hand. That judge is tested, not proved.

#[path = "../independent/mod.rs"]
mod independent;
mod lent;

use independent::{quick, quick_xml};
use lent::{lent, lent_mut};

/// `sod_reply` of include/sod.h.
#[repr(C)]
pub struct Reply {
    number: u32,
    first: u32,
    second: u32,
    third: u32,
}

impl From<independent::Reply> for Reply {
    fn from(reply: independent::Reply) -> Reply {
        Reply {
            number: reply.number,
            first: reply.first,
            second: reply.second,
            third: reply.third,
        }
    }
}

#[no_mangle]
unsafe extern "C" fn sod_check_policy(policy: *const u8, policy_len: usize) -> Reply {
    quick::check_policy(lent(policy, policy_len)).into()
}

#[no_mangle]
unsafe extern "C" fn sod_check_table(
    policy: *const u8,
    policy_len: usize,
    table: *const u8,
    table_len: usize,
) -> Reply {
    quick::check_table(lent(policy, policy_len), lent(table, table_len)).into()
}

#[no_mangle]
unsafe extern "C" fn sod_fresh_table(
    policy: *const u8,
    policy_len: usize,
    table: *mut u8,
    table_len: usize,
) -> Reply {
    quick::fresh_table(lent(policy, policy_len), lent_mut(table, table_len)).into()
}

#[no_mangle]
unsafe extern "C" fn sod_decide(
    policy: *const u8,
    policy_len: usize,
    table: *mut u8,
    table_len: usize,
    request: *const u8,
    request_len: usize,
) -> Reply {
    quick::decide(
        lent(policy, policy_len),
        lent_mut(table, table_len),
        lent(request, request_len),
    )
    .into()
}

#[no_mangle]
unsafe extern "C" fn sod_preview(
    policy: *const u8,
    policy_len: usize,
    table: *const u8,
    table_len: usize,
    request: *const u8,
    request_len: usize,
) -> Reply {
    quick::preview(
        lent(policy, policy_len),
        lent(table, table_len),
        lent(request, request_len),
    )
    .into()
}

#[no_mangle]
unsafe extern "C" fn sod_close(
    policy: *const u8,
    policy_len: usize,
    table: *mut u8,
    table_len: usize,
    context: *const u8,
    context_len: usize,
) -> Reply {
    quick::close(
        lent(policy, policy_len),
        lent_mut(table, table_len),
        lent(context, context_len),
    )
    .into()
}

#[no_mangle]
unsafe extern "C" fn sod_read_rules(
    text: *const u8,
    text_len: usize,
    names: *const u8,
    names_len: usize,
    second: *const u8,
    second_len: usize,
    output: *mut u8,
    output_len: usize,
) -> Reply {
    quick_xml::read_rules(
        lent(text, text_len),
        lent(names, names_len),
        lent(second, second_len),
        lent_mut(output, output_len),
    )
    .into()
}

#[no_mangle]
unsafe extern "C" fn sod_write_rules(
    policy: *const u8,
    policy_len: usize,
    names: *const u8,
    names_len: usize,
    output: *mut u8,
    output_len: usize,
) -> Reply {
    quick_xml::write_rules(
        lent(policy, policy_len),
        lent(names, names_len),
        lent_mut(output, output_len),
    )
    .into()
}
