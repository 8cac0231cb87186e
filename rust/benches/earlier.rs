//! An engine as a shared library, for a benchmark of two in one run.

use super::Call;
use std::ffi::{c_char, c_int, c_void, CString};

extern "C" {
    fn dlopen(file: *const c_char, flags: c_int) -> *mut c_void;
    fn dlsym(library: *mut c_void, name: *const c_char) -> *mut c_void;
}

const RTLD_NOW: c_int = 2;

/// `sod_reply` of include/sod.h.
#[repr(C)]
pub struct Reply([u32; 4]);

type CheckPolicy = unsafe extern "C" fn(*const u8, usize) -> Reply;
type CheckTable = unsafe extern "C" fn(*const u8, usize, *const u8, usize) -> Reply;
type FreshTable = unsafe extern "C" fn(*const u8, usize, *mut u8, usize) -> Reply;
type Decide = unsafe extern "C" fn(*const u8, usize, *mut u8, usize, *const u8, usize) -> Reply;
type Write = unsafe extern "C" fn(*const u8, usize, *const u8, usize, *mut u8, usize) -> Reply;
type Read = unsafe extern "C" fn(
    *const u8,
    usize,
    *const u8,
    usize,
    *const u8,
    usize,
    *mut u8,
    usize,
) -> Reply;

/// The calls that every earlier engine has, and those that it need not have.
pub struct Earlier {
    check_policy: CheckPolicy,
    check_table: CheckTable,
    fresh_table: FreshTable,
    decide: Decide,
    close: Option<Decide>,
    read_rules: Option<Read>,
    write_rules: Option<Write>,
}

impl Earlier {
    /// The library that a variable of the environment names, if it names one.
    pub fn load(variable: &str) -> Option<Earlier> {
        let file = std::env::var(variable).ok()?;
        let path = CString::new(file.as_str()).expect("a path");
        // SAFETY: the functions are those of include/sod.h, with the types that it gives.
        unsafe {
            let library = dlopen(path.as_ptr(), RTLD_NOW);
            assert!(!library.is_null(), "{file} cannot be loaded");
            let find = |name: &str| {
                let name = CString::new(name).expect("a name");
                let found = dlsym(library, name.as_ptr());
                (!found.is_null()).then_some(found)
            };
            let named = |name| find(name).unwrap_or_else(|| panic!("{file} has no {name}"));
            Some(Earlier {
                check_policy: std::mem::transmute::<*mut c_void, CheckPolicy>(named(
                    "sod_check_policy",
                )),
                check_table: std::mem::transmute::<*mut c_void, CheckTable>(named(
                    "sod_check_table",
                )),
                fresh_table: std::mem::transmute::<*mut c_void, FreshTable>(named(
                    "sod_fresh_table",
                )),
                decide: std::mem::transmute::<*mut c_void, Decide>(named("sod_decide")),
                close: find("sod_close")
                    .map(|found| std::mem::transmute::<*mut c_void, Decide>(found)),
                read_rules: find("sod_read_rules")
                    .map(|found| std::mem::transmute::<*mut c_void, Read>(found)),
                write_rules: find("sod_write_rules")
                    .map(|found| std::mem::transmute::<*mut c_void, Write>(found)),
            })
        }
    }

    // SAFETY, of all: each pointer and length are those of one live slice, and what is written is borrowed mutably.

    pub fn check_policy(&self, policy: &[u8]) -> Reply {
        unsafe { (self.check_policy)(policy.as_ptr(), policy.len()) }
    }

    pub fn check_table(&self, policy: &[u8], table: &[u8]) -> Reply {
        unsafe { (self.check_table)(policy.as_ptr(), policy.len(), table.as_ptr(), table.len()) }
    }

    pub fn fresh_table(&self, policy: &[u8], table: &mut [u8]) -> Reply {
        let (bytes, len) = (table.as_mut_ptr(), table.len());
        unsafe { (self.fresh_table)(policy.as_ptr(), policy.len(), bytes, len) }
    }

    pub fn decide(&self, policy: &[u8], table: &mut [u8], request: &[u8]) -> Reply {
        let (bytes, len) = (table.as_mut_ptr(), table.len());
        let (asked, asked_len) = (request.as_ptr(), request.len());
        unsafe { (self.decide)(policy.as_ptr(), policy.len(), bytes, len, asked, asked_len) }
    }

    /// Whether it has a call.
    pub fn has(&self, call: Call) -> bool {
        match call {
            Call::Close => self.close.is_some(),
            Call::ReadRules => self.read_rules.is_some(),
            Call::WriteRules => self.write_rules.is_some(),
            _ => true,
        }
    }

    pub fn close(&self, policy: &[u8], table: &mut [u8], context: &[u8]) -> Reply {
        let close = self.close.expect("it is asked only if it has the closing");
        let (bytes, len) = (table.as_mut_ptr(), table.len());
        let (lent, lent_len) = (context.as_ptr(), context.len());
        unsafe { close(policy.as_ptr(), policy.len(), bytes, len, lent, lent_len) }
    }
    pub fn read_rules(&self, text: &[u8], names: &[u8], second: &[u8], output: &mut [u8]) -> Reply {
        let read = self.read_rules.expect("it is asked only if it reads");
        let (bytes, len) = (output.as_mut_ptr(), output.len());
        let (list, list_len) = (names.as_ptr(), names.len());
        let (image, image_len) = (second.as_ptr(), second.len());
        unsafe {
            read(
                text.as_ptr(),
                text.len(),
                list,
                list_len,
                image,
                image_len,
                bytes,
                len,
            )
        }
    }

    pub fn write_rules(&self, policy: &[u8], names: &[u8], output: &mut [u8]) -> Reply {
        let write = self.write_rules.expect("it is asked only if it writes");
        let (bytes, len) = (output.as_mut_ptr(), output.len());
        let (list, list_len) = (names.as_ptr(), names.len());
        unsafe { write(policy.as_ptr(), policy.len(), list, list_len, bytes, len) }
    }
}
