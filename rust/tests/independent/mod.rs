//! Document 01 once more, with what document 02 has added, in plain Rust, to hold the proved engine
//! against.
//!
//! It was written from the papers alone, before its author had seen a line of the engine or of its
//! definitions, and shares nothing with them. There are two judges and a register, and the tests
//! ask for the same answers and the same bytes from all of them and from the engine:
//!
//! * [`images`] reads and writes policies, tables and requests, naming the first fault;
//! * [`judge`] is the judgement in the paper's words over what was read: slow, easy to follow;
//! * [`register`] is the full register, which forgets no grant and no closing and never sees a table;
//! * [`quick`] judges on the bytes themselves, in place and without an allocation. It is the one
//!   that the benchmark sets beside the engine, and it uses none of the three above;
//! * [`xml`] reads and writes policies as text, in the paper's words, over [`form`], which has their
//!   form as a table and says how far a text has it; [`quick_xml`] does both on the bytes themselves
//!   and uses neither.

// Each test and the benchmark take in this module whole and use a part of it.
#![allow(dead_code)]

pub mod form;
pub mod images;
pub mod judge;
pub mod quick;
pub mod quick_xml;
pub mod register;
pub mod xml;

/// What a call returns: the same four numbers as the C interface's `sod_reply`.
#[derive(Clone, Copy, PartialEq, Eq, Debug)]
pub struct Reply {
    pub number: u32,
    pub first: u32,
    pub second: u32,
    pub third: u32,
}

impl Reply {
    /// A check was passed: `count` rules, records or places; or a closing removed so many records; or
    /// so many bytes were read from a text, or written as one.
    pub fn accept(count: usize) -> Reply {
        Reply::of(0, count, 0, 0)
    }

    pub fn grant(recorded: usize, removed: usize, held: usize) -> Reply {
        Reply::of(0, recorded, removed, held)
    }

    /// A refusal with its two places.
    pub fn refuse(number: usize, first: usize, second: usize) -> Reply {
        Reply::of(number, first, second, 0)
    }

    pub fn is_refusal(&self) -> bool {
        self.number != 0
    }

    fn of(number: usize, first: usize, second: usize, third: usize) -> Reply {
        Reply {
            number: number as u32,
            first: first as u32,
            second: second as u32,
            third: third as u32,
        }
    }
}

/// The answer of a call that may be refused.
pub type Answer<T> = Result<T, Reply>;

/// The first of document 01's numbers that applies ends the call.
pub fn refuse_unless(good: bool, number: usize, first: usize, second: usize) -> Answer<()> {
    if good {
        Ok(())
    } else {
        Err(Reply::refuse(number, first, second))
    }
}
