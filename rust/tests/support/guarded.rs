//! A table of which only some blocks may be written to: one byte written elsewhere, be it the one that
//! stands there, ends the test at once.
//!
//! Protection goes by pages, of eight blocks each. A table can begin at any block of its first page,
//! so that over several calls each block lies on another page than its neighbours.

use super::lent::{Access, Lent, PAGE};
use crate::independent::images::BLOCK;

/// The ways in which a table can lie in its pages.
pub const SHIFTS: usize = PAGE / BLOCK;

pub struct Guarded(Lent);

impl Guarded {
    pub fn new(longest: usize) -> Guarded {
        Guarded(Lent::new(longest + PAGE))
    }

    /// Lends a table that begins `shift` blocks into its first page to a call that may write only to
    /// these blocks, and to those on one page with them. The table that the call leaves.
    pub fn lend(
        &mut self,
        table: &[u8],
        shift: usize,
        writable: &[usize],
        call: impl FnOnce(&mut [u8]),
    ) -> &[u8] {
        let lent = &mut self.0;
        lent.lay_within(table, BLOCK * shift);
        let pages = (BLOCK * shift + table.len()).div_ceil(PAGE);
        for page in 0..pages {
            let here = |block: &usize| (shift + block) / SHIFTS == page;
            if !writable.iter().any(here) {
                lent.allow(page, Access::Read);
            }
        }
        call(lent.bytes_mut());
        for page in 0..pages {
            lent.allow(page, Access::Write);
        }
        lent.bytes()
    }
}
