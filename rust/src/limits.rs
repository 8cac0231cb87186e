//! Sizes and limits, as include/sod.h has them; tests/header.rs holds the two against each other.

/// The version of this crate and of the header, `SOD_VERSION`.
pub const VERSION: &str = env!("CARGO_PKG_VERSION");

/// The stack that a call takes at the most, in bytes.
pub const STACK: usize = 24 * 1024;

/// The length of a block in bytes.
pub const BLOCK: usize = 512;

/// The length of an entry of a list of names in bytes.
pub const NAME: usize = 64;

/// How many records a table's block has place for.
pub const RECORDS_PER_BLOCK: usize = 15;

/// The most rules that a policy can have.
pub const MOST_RULES: usize = 32;

/// The most blocks that a policy can have.
pub const MOST_POLICY_BLOCKS: usize = 64;

/// The most blocks that a table can have.
pub const MOST_TABLE_BLOCKS: usize = 128;

/// The most names that a list can have.
pub const MOST_NAMES: usize = 1024;

/// The length in bytes of the longest text that rules are written as: 32 of them, each with four
/// levels, two steps and eight exclusions of eight privileges, and all names of 60 bytes.
pub const MOST_TEXT: usize = 346_079;
