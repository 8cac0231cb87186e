//! Slices of what C lends.

use std::slice::{from_raw_parts, from_raw_parts_mut};

/// Any pointer will do for no bytes.
pub unsafe fn lent<'a>(bytes: *const u8, len: usize) -> &'a [u8] {
    if len == 0 {
        &[]
    } else {
        from_raw_parts(bytes, len)
    }
}

pub unsafe fn lent_mut<'a>(bytes: *mut u8, len: usize) -> &'a mut [u8] {
    if len == 0 {
        &mut []
    } else {
        from_raw_parts_mut(bytes, len)
    }
}
