//! The probe: a decision and a closing that return how many blocks of the table they have written.
//! Document 02, W3: "The writing step returns how many blocks it wrote."
//!
//! No C function of include/sod.h says so, and none has to: the number is of no use to a caller. The
//! engine has it in an archive of its own, libprobe.a, which only tests and the benchmark link.

extern "C" {
    fn sod_probe_decide(
        policy: *const u8,
        policy_len: usize,
        table: *mut u8,
        table_len: usize,
        request: *const u8,
        request_len: usize,
    ) -> usize;
    fn sod_probe_close(
        policy: *const u8,
        policy_len: usize,
        table: *mut u8,
        table_len: usize,
        context: *const u8,
        context_len: usize,
    ) -> usize;
}

/// Decides as `sod_decide` does. Returns the number of blocks written; 0 where it was refused.
pub fn decide(policy: &[u8], table: &mut [u8], request: &[u8]) -> usize {
    // SAFETY: here and below, each pointer and length are those of one live slice, and what is
    // written is borrowed mutably.
    unsafe {
        sod_probe_decide(
            policy.as_ptr(),
            policy.len(),
            table.as_mut_ptr(),
            table.len(),
            request.as_ptr(),
            request.len(),
        )
    }
}

/// Closes as `sod_close` does. Returns the number of blocks written; 0 where it was refused.
pub fn close(policy: &[u8], table: &mut [u8], context: &[u8]) -> usize {
    unsafe {
        sod_probe_close(
            policy.as_ptr(),
            policy.len(),
            table.as_mut_ptr(),
            table.len(),
            context.as_ptr(),
            context.len(),
        )
    }
}
