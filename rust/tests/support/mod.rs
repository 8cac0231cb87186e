//! What the tests have in common: numbers by chance, worlds and texts to try, lent memory, the
//! comparing, and lists that are played through it.

// Each test takes in this module whole and uses a part of it.
#![allow(dead_code)]

pub mod busy;
pub mod chance;
pub mod closed;
pub mod compare;
pub mod damage;
pub mod engine;
pub mod guarded;
pub mod largest;
pub mod lent;
pub mod lists;
pub mod named;
pub mod plain;
pub mod ranged;
pub mod repeated;
pub mod reread;
pub mod runs;
pub mod spelled;
pub mod texts;
pub mod world;
pub mod wrapped;
pub mod written;
