//! Memory to lend to the engine, so laid out that whatever it does outside shows.
//!
//! The bytes lie at the very end or the very beginning of their pages, and the next page there may
//! not be touched: one byte read too far ends the test at once. On the other side stand canary
//! bytes, which are looked at after each call.

use std::ffi::{c_int, c_long, c_void};
use std::ptr::null_mut;
use std::slice::{from_raw_parts, from_raw_parts_mut};

pub const PAGE: usize = 4096;
const CANARY: u8 = 0xA5;
const CANARIES: usize = 64;

const PROT_NONE: c_int = 0;
const PROT_READ: c_int = 1;
const PROT_READ_WRITE: c_int = 3;
const MAP_PRIVATE_ANONYMOUS: c_int = 0x22;

// Of the C library, which std links in any case.
extern "C" {
    fn mmap(
        at: *mut c_void,
        len: usize,
        prot: c_int,
        flags: c_int,
        fd: c_int,
        from: c_long,
    ) -> *mut c_void;
    fn mprotect(at: *mut c_void, len: usize, prot: c_int) -> c_int;
}

/// Where in its pages a buffer is laid.
#[derive(Clone, Copy, PartialEq, Eq, Debug)]
pub enum Lay {
    AtTheEnd,
    AtTheBeginning,
}

/// What may be done with a page.
#[derive(Clone, Copy, PartialEq, Eq, Debug)]
pub enum Access {
    Read,
    Write,
}

/// A piece of memory for buffers up to a certain length, which is never given back.
pub struct Lent {
    pages: *mut u8,
    size: usize,
    from: usize,
    len: usize,
    lay: Lay,
}

impl Lent {
    pub fn new(longest: usize) -> Lent {
        let size = (longest + CANARIES).next_multiple_of(PAGE);
        let pages = unsafe {
            let all = mmap(
                null_mut(),
                size + 2 * PAGE,
                PROT_NONE,
                MAP_PRIVATE_ANONYMOUS,
                -1,
                0,
            );
            assert_ne!(all as isize, -1, "no memory");
            let pages = (all as *mut u8).add(PAGE);
            assert_eq!(mprotect(pages.cast(), size, PROT_READ_WRITE), 0);
            pages
        };
        Lent {
            pages,
            size,
            from: 0,
            len: 0,
            lay: Lay::AtTheBeginning,
        }
    }

    /// These bytes, which may not be written to: one byte written ends the test at once.
    pub fn read_only(bytes: &[u8]) -> Lent {
        let mut lent = Lent::new(bytes.len());
        lent.lay(bytes, Lay::AtTheEnd);
        for page in 0..lent.size / PAGE {
            lent.allow(page, Access::Read);
        }
        lent
    }

    /// Says whether one of its pages may be written to.
    pub fn allow(&mut self, page: usize, access: Access) {
        assert!(PAGE * page < self.size);
        let prot = match access {
            Access::Read => PROT_READ,
            Access::Write => PROT_READ_WRITE,
        };
        let protected = unsafe { mprotect(self.pages.add(PAGE * page).cast(), PAGE, prot) };
        assert_eq!(protected, 0);
    }

    /// Lays these bytes down, so many bytes into the pages and without canaries.
    pub fn lay_within(&mut self, bytes: &[u8], from: usize) {
        assert!(from + bytes.len() <= self.size);
        (self.from, self.len) = (from, bytes.len());
        self.bytes_mut().copy_from_slice(bytes);
    }

    /// Lays these bytes down, with canaries beside them.
    pub fn lay(&mut self, bytes: &[u8], lay: Lay) {
        assert!(bytes.len() + CANARIES <= self.size);
        self.len = bytes.len();
        self.lay = lay;
        self.from = match lay {
            Lay::AtTheEnd => self.size - bytes.len(),
            Lay::AtTheBeginning => 0,
        };
        self.bytes_mut().copy_from_slice(bytes);
        self.canaries().fill(CANARY);
    }

    pub fn bytes(&self) -> &[u8] {
        unsafe { from_raw_parts(self.pages.add(self.from), self.len) }
    }

    pub fn bytes_mut(&mut self) -> &mut [u8] {
        unsafe { from_raw_parts_mut(self.pages.add(self.from), self.len) }
    }

    pub fn canaries_live(&mut self) -> bool {
        self.canaries().iter().all(|&byte| byte == CANARY)
    }

    fn canaries(&mut self) -> &mut [u8] {
        let from = match self.lay {
            Lay::AtTheEnd => self.from - CANARIES,
            Lay::AtTheBeginning => self.len,
        };
        unsafe { from_raw_parts_mut(self.pages.add(from), CANARIES) }
    }
}
