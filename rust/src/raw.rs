//! The eight calls of the engine on bytes, as include/sod.h has them.
//!
//! Nothing is assumed of the bytes: whatever they are, each call answers, and a refused one alters
//! none. A slice has a true length, and the borrow checker keeps a lent table or output apart from all
//! else that is lent, so that nothing is left of what the header asks of a C caller.
//!
//! C gets four numbers from every call, of which 0 comes first for acceptance, grant, preview and
//! closing alike. Here what passes a check and what a closing removes is a count, what is written to an
//! output is a length, what is granted is a [`Grant`] and what would be is a [`Preview`], so that none
//! is taken for another. 21 and 22 are of the request or, from a closing, of the context, and are told
//! apart. Nothing of the four numbers is lost: numbers and places that documents 01 and 02 do not have
//! come as [`Refusal::Other`], and a call panics on a reply of any other form, such as a recorded of 2
//! or a length that is more than was lent. The engine is proved to give none of either.
//!
//! No call allocates, and each takes at most 24 KiB of stack ([`STACK`](crate::STACK)), whatever the
//! bytes: tests/stack.rs runs every one on a stack of that size.
//!
//! [`Policy`](crate::Policy) and [`Table`](crate::Table) are the comfortable way in; this one is for
//! bytes that may be bad.
//!
//! ```
//! use hastovimen::{raw, PolicyBuilder, Refusal};
//!
//! let policy = PolicyBuilder::new().build()?;
//! let mut table = [0xEE; 1024];
//! assert_eq!(raw::check_policy(&policy), Ok(0));
//! assert_eq!(raw::fresh_table(&policy, &mut table), Ok(30));
//! assert_eq!(raw::check_table(&policy, &table), Ok(0));
//! assert_eq!(raw::decide(&policy, &mut table, &[1; 29]), Err(Refusal::RequestLength));
//! assert_eq!(raw::preview(&policy, &table, &[1; 28]), Err(Refusal::NotPermitted));
//! assert_eq!(raw::close(&policy, &mut table, &[1; 28]), Err(Refusal::ContextLength));
//! assert_eq!(raw::close(&policy, &mut table, &[1; 16]), Ok(0));
//!
//! let mut text = [0xEE; 100];
//! assert_eq!(raw::write_rules(&policy, &[], &mut text), Ok(31));
//! assert_eq!(text[..32], *b"<MSoDPolicySet></MSoDPolicySet>\xEE");
//! let mut output = [0xEE; 1024];
//! assert_eq!(raw::read_rules(&text[..31], &[], &policy, &mut output), Ok(512));
//! assert_eq!(output[..512], policy[..]);
//! let refused = raw::read_rules(&text, &[], &policy, &mut output);
//! assert_eq!(refused, Err(Refusal::TextForm { byte: 31 }));
//! # Ok::<(), hastovimen::BuildError>(())
//! ```
//!
//! An acceptance is no grant:
//!
//! ```compile_fail
//! use hastovimen::{raw, Grant, Refusal};
//!
//! let granted: Result<Grant, Refusal> = raw::check_policy(&[]);
//! ```
//!
//! Nor is a preview:
//!
//! ```compile_fail
//! use hastovimen::{raw, Grant, Refusal};
//!
//! let granted: Result<Grant, Refusal> = raw::preview(&[], &[], &[]);
//! ```
//!
//! Nor is a closing:
//!
//! ```compile_fail
//! use hastovimen::{raw, Grant, Refusal};
//!
//! let granted: Result<Grant, Refusal> = raw::close(&[], &mut [], &[]);
//! ```

#![allow(unsafe_code)]

use crate::{Grant, Preview, Refusal};

/// `sod_reply` of include/sod.h.
#[repr(C)]
#[derive(Clone, Copy, PartialEq, Eq, Debug)]
struct Reply {
    number: u32,
    first: u32,
    second: u32,
    third: u32,
}

impl Reply {
    /// How many rules, records or places were found.
    fn count(self) -> Result<u32, Refusal> {
        self.read(|reply| (reply.second == 0 && reply.third == 0).then_some(reply.first))
    }

    /// How many bytes were written at the front of an output of so many.
    fn length(self, lent: usize) -> Result<usize, Refusal> {
        let length = self.count()? as usize;
        assert!(length <= lent, "no call of the engine gives {self:?}");
        Ok(length)
    }

    /// How many records a closing has removed.
    fn removed(self) -> Result<u32, Refusal> {
        self.count().map_err(Refusal::of_context)
    }

    fn grant(self) -> Result<Grant, Refusal> {
        let (recorded, removed, held) = self.judged()?;
        Ok(Grant {
            recorded,
            removed,
            held,
        })
    }

    fn preview(self) -> Result<Preview, Refusal> {
        let (recorded, removed, held) = self.judged()?;
        Ok(Preview {
            recorded,
            removed,
            held,
        })
    }

    /// Recorded, removed, held: of a grant, or of what would be one.
    fn judged(self) -> Result<(bool, u32, u32), Refusal> {
        self.read(|reply| {
            (reply.first <= 1).then_some((reply.first == 1, reply.second, reply.third))
        })
    }

    fn read<T>(self, good: impl FnOnce(Reply) -> Option<T>) -> Result<T, Refusal> {
        let answer = if self.number == 0 {
            good(self).map(Ok)
        } else if self.third == 0 {
            Refusal::of(self.number, self.first, self.second).map(Err)
        } else {
            None
        };
        answer.unwrap_or_else(|| panic!("no call of the engine gives {self:?}"))
    }
}

extern "C" {
    fn sod_check_policy(policy: *const u8, policy_len: usize) -> Reply;
    fn sod_check_table(
        policy: *const u8,
        policy_len: usize,
        table: *const u8,
        table_len: usize,
    ) -> Reply;
    fn sod_fresh_table(
        policy: *const u8,
        policy_len: usize,
        table: *mut u8,
        table_len: usize,
    ) -> Reply;
    fn sod_decide(
        policy: *const u8,
        policy_len: usize,
        table: *mut u8,
        table_len: usize,
        request: *const u8,
        request_len: usize,
    ) -> Reply;
    fn sod_preview(
        policy: *const u8,
        policy_len: usize,
        table: *const u8,
        table_len: usize,
        request: *const u8,
        request_len: usize,
    ) -> Reply;
    fn sod_close(
        policy: *const u8,
        policy_len: usize,
        table: *mut u8,
        table_len: usize,
        context: *const u8,
        context_len: usize,
    ) -> Reply;
    fn sod_read_rules(
        text: *const u8,
        text_len: usize,
        names: *const u8,
        names_len: usize,
        second: *const u8,
        second_len: usize,
        output: *mut u8,
        output_len: usize,
    ) -> Reply;
    fn sod_write_rules(
        policy: *const u8,
        policy_len: usize,
        names: *const u8,
        names_len: usize,
        output: *mut u8,
        output_len: usize,
    ) -> Reply;
}

/// Checks a policy: its rules, or 1 to 6.
pub fn check_policy(policy: &[u8]) -> Result<u32, Refusal> {
    // SAFETY: here and below, each pointer and length are those of one live slice, and a slice that
    // the engine writes to is borrowed mutably, so that it overlaps no other.
    unsafe { sod_check_policy(policy.as_ptr(), policy.len()) }.count()
}

/// Checks a table under a policy: its records, or 1 to 6, 11 to 15.
pub fn check_table(policy: &[u8], table: &[u8]) -> Result<u32, Refusal> {
    unsafe { sod_check_table(policy.as_ptr(), policy.len(), table.as_ptr(), table.len()) }.count()
}

/// Makes a fresh table in a lent buffer: its places, or 1 to 6, 11.
pub fn fresh_table(policy: &[u8], table: &mut [u8]) -> Result<u32, Refusal> {
    let (bytes, len) = (table.as_mut_ptr(), table.len());
    unsafe { sod_fresh_table(policy.as_ptr(), policy.len(), bytes, len) }.count()
}

/// Decides a request and brings the table up to date: a grant, or 1 to 6, 11 to 15, 21, 22, 31 to 34.
pub fn decide(policy: &[u8], table: &mut [u8], request: &[u8]) -> Result<Grant, Refusal> {
    let reply = unsafe {
        sod_decide(
            policy.as_ptr(),
            policy.len(),
            table.as_mut_ptr(),
            table.len(),
            request.as_ptr(),
            request.len(),
        )
    };
    reply.grant()
}

/// Previews a request: what [`decide`] would answer on a copy of the table, with the same numbers.
pub fn preview(policy: &[u8], table: &[u8], request: &[u8]) -> Result<Preview, Refusal> {
    let reply = unsafe {
        sod_preview(
            policy.as_ptr(),
            policy.len(),
            table.as_ptr(),
            table.len(),
            request.as_ptr(),
            request.len(),
        )
    };
    reply.preview()
}

/// Closes a context: how many records were removed, or 1 to 6, 11 to 15, 21, 22.
pub fn close(policy: &[u8], table: &mut [u8], context: &[u8]) -> Result<u32, Refusal> {
    let reply = unsafe {
        sod_close(
            policy.as_ptr(),
            policy.len(),
            table.as_mut_ptr(),
            table.len(),
            context.as_ptr(),
            context.len(),
        )
    };
    reply.removed()
}

/// Reads rules from a text, and writes a policy of them and of the permissions of the second one at the
/// front of the output: its length, or 1 to 6 of the second policy, 41 to 43.
pub fn read_rules(
    text: &[u8],
    names: &[u8],
    second: &[u8],
    output: &mut [u8],
) -> Result<usize, Refusal> {
    let reply = unsafe {
        sod_read_rules(
            text.as_ptr(),
            text.len(),
            names.as_ptr(),
            names.len(),
            second.as_ptr(),
            second.len(),
            output.as_mut_ptr(),
            output.len(),
        )
    };
    reply.length(output.len())
}

/// Writes the rules of a policy as text at the front of the output: its length, or 1 to 6, 42, 43.
pub fn write_rules(policy: &[u8], names: &[u8], output: &mut [u8]) -> Result<usize, Refusal> {
    let reply = unsafe {
        sod_write_rules(
            policy.as_ptr(),
            policy.len(),
            names.as_ptr(),
            names.len(),
            output.as_mut_ptr(),
            output.len(),
        )
    };
    reply.length(output.len())
}

#[cfg(test)]
mod tests {
    use super::*;
    use std::panic::catch_unwind;
    use std::ptr::{null, null_mut};

    fn reply(number: u32, first: u32, second: u32, third: u32) -> Reply {
        Reply {
            number,
            first,
            second,
            third,
        }
    }

    fn refusal(number: u32) -> Reply {
        reply(number, 0, 0, 0)
    }

    /// "Length 0 with any pointer is fine and gets its number."
    #[test]
    fn length_zero_with_any_pointer() {
        let nowhere = usize::MAX as *mut u8;
        for pointer in [null_mut(), nowhere] {
            unsafe {
                assert_eq!(sod_check_policy(pointer, 0), refusal(1));
                assert_eq!(sod_check_table(pointer, 0, pointer, 0), refusal(1));
                assert_eq!(sod_fresh_table(pointer, 0, pointer, 0), refusal(1));
                assert_eq!(sod_decide(pointer, 0, pointer, 0, pointer, 0), refusal(1));
                assert_eq!(sod_preview(pointer, 0, pointer, 0, pointer, 0), refusal(1));
                assert_eq!(sod_close(pointer, 0, pointer, 0, pointer, 0), refusal(1));
                let read = sod_read_rules(pointer, 0, pointer, 0, pointer, 0, pointer, 0);
                assert_eq!(read, refusal(1));
                let written = sod_write_rules(pointer, 0, pointer, 0, pointer, 0);
                assert_eq!(written, refusal(1));
            }
        }
        let policy = crate::PolicyBuilder::new().build().unwrap();
        let (p, len) = (policy.as_ptr(), policy.len());
        let mut table = [0; 512];
        assert_eq!(fresh_table(&policy, &mut table), Ok(15));
        unsafe {
            assert_eq!(sod_check_table(p, len, null(), 0), refusal(11));
            assert_eq!(sod_fresh_table(p, len, null_mut(), 0), refusal(11));
            assert_eq!(sod_decide(p, len, null_mut(), 0, null(), 0), refusal(11));
            assert_eq!(sod_preview(p, len, null(), 0, null(), 0), refusal(11));
            assert_eq!(sod_close(p, len, null_mut(), 0, null(), 0), refusal(11));
            let decided = sod_decide(p, len, table.as_mut_ptr(), 512, null(), 0);
            assert_eq!(decided, refusal(21));
            let previewed = sod_preview(p, len, table.as_ptr(), 512, null(), 0);
            assert_eq!(previewed, refusal(21));
            let closed = sod_close(p, len, table.as_mut_ptr(), 512, null(), 0);
            assert_eq!(closed, refusal(21));
            // No text stops at byte 0, no name is a good list, and no byte is too short an output.
            let read = sod_read_rules(null(), 0, null(), 0, p, len, null_mut(), 0);
            assert_eq!(read, refusal(41));
            let written = sod_write_rules(p, len, null(), 0, null_mut(), 0);
            assert_eq!(written, refusal(43));
        }
    }

    #[test]
    fn replies() {
        assert_eq!(reply(0, 9, 0, 0).count(), Ok(9));
        assert_eq!(reply(0, 9, 0, 0).removed(), Ok(9));
        assert_eq!(reply(0, 9, 0, 0).length(9), Ok(9));
        let misfit = Refusal::TextForm { byte: u32::MAX };
        assert_eq!(reply(41, u32::MAX, 0, 0).length(9), Err(misfit));
        assert_eq!(refusal(42).length(9), Err(Refusal::Names));
        assert_eq!(refusal(43).length(0), Err(Refusal::TextLimit));
        let grant = Grant {
            recorded: true,
            removed: 2,
            held: 3,
        };
        assert_eq!(reply(0, 1, 2, 3).grant(), Ok(grant));
        let preview = Preview {
            recorded: false,
            removed: 2,
            held: 3,
        };
        assert_eq!(reply(0, 0, 2, 3).preview(), Ok(preview));
        assert_eq!(refusal(31).grant(), Err(Refusal::NotPermitted));
        assert_eq!(refusal(31).preview(), Err(Refusal::NotPermitted));
        assert_eq!(refusal(31).count(), Err(Refusal::NotPermitted));
        let strange = reply(31, 1, 0, 0).grant().unwrap_err();
        assert_eq!((strange.number(), strange.places()), (31, (1, 0)));
        // 21 and 22 are of what the call was lent behind the table.
        assert_eq!(refusal(21).grant(), Err(Refusal::RequestLength));
        assert_eq!(refusal(22).preview(), Err(Refusal::RequestField));
        assert_eq!(refusal(21).removed(), Err(Refusal::ContextLength));
        assert_eq!(refusal(22).removed(), Err(Refusal::ContextField));
        assert_eq!(refusal(11).removed(), Err(Refusal::TableLength));
        let strange = reply(21, 1, 0, 0).removed().unwrap_err();
        assert_eq!((strange.number(), strange.places()), (21, (1, 0)));
    }

    /// Neither a grant nor a preview is ever made of what no decision replies.
    #[test]
    fn replies_that_no_call_gives() {
        for bad in [reply(0, 2, 0, 0), reply(34, 0, 0, 1)] {
            assert!(catch_unwind(|| bad.grant()).is_err());
            assert!(catch_unwind(|| bad.preview()).is_err());
        }
        for bad in [reply(0, 1, 1, 0), reply(0, 1, 0, 1), reply(1, 0, 0, 1)] {
            assert!(catch_unwind(|| bad.count()).is_err());
            assert!(catch_unwind(|| bad.removed()).is_err());
            assert!(catch_unwind(|| bad.length(9)).is_err());
        }
        assert!(catch_unwind(|| reply(0, 10, 0, 0).length(9)).is_err());
    }
}
