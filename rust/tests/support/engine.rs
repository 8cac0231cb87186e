//! The engine's closing, reading and writing with their four numbers as C gives them: of what is
//! accepted, second and third must be 0 too.

// Each test and the benchmark take in this file whole and use a part of it.
#![allow(dead_code)]

use crate::independent::Reply;

/// `sod_reply` of include/sod.h.
#[repr(C)]
struct Four {
    number: u32,
    first: u32,
    second: u32,
    third: u32,
}

// Of libsod.a, which the wrapper links.
extern "C" {
    fn sod_close(
        policy: *const u8,
        policy_len: usize,
        table: *mut u8,
        table_len: usize,
        context: *const u8,
        context_len: usize,
    ) -> Four;
    fn sod_read_rules(
        text: *const u8,
        text_len: usize,
        names: *const u8,
        names_len: usize,
        second: *const u8,
        second_len: usize,
        output: *mut u8,
        output_len: usize,
    ) -> Four;
    fn sod_write_rules(
        policy: *const u8,
        policy_len: usize,
        names: *const u8,
        names_len: usize,
        output: *mut u8,
        output_len: usize,
    ) -> Four;
}

impl From<Four> for Reply {
    fn from(four: Four) -> Reply {
        Reply {
            number: four.number,
            first: four.first,
            second: four.second,
            third: four.third,
        }
    }
}

pub fn close(policy: &[u8], table: &mut [u8], context: &[u8]) -> Reply {
    // SAFETY: each pointer and length are those of one live slice, and what is written is borrowed
    // mutably.
    unsafe {
        sod_close(
            policy.as_ptr(),
            policy.len(),
            table.as_mut_ptr(),
            table.len(),
            context.as_ptr(),
            context.len(),
        )
    }
    .into()
}

pub fn read_rules(text: &[u8], names: &[u8], second: &[u8], output: &mut [u8]) -> Reply {
    // SAFETY: as above.
    unsafe {
        sod_read_rules(
            text.as_ptr(),
            text.len(),
            names.as_ptr(),
            names.len(),
            second.as_ptr(),
            second.len(),
            output.as_mut_ptr(),
            output.len(),
        )
    }
    .into()
}

pub fn write_rules(policy: &[u8], names: &[u8], output: &mut [u8]) -> Reply {
    // SAFETY: as above.
    unsafe {
        sod_write_rules(
            policy.as_ptr(),
            policy.len(),
            names.as_ptr(),
            names.len(),
            output.as_mut_ptr(),
            output.len(),
        )
    }
    .into()
}
