//! Which blocks of a table a grant or a closing must have written, found slowly: those whose records differ.

use crate::independent::images::*;
use crate::independent::judge::fits;

/// The blocks of which some byte differs.
pub fn differing_bytes(before: &[u8], after: &[u8]) -> Vec<usize> {
    let blocks = before.chunks(BLOCK).zip(after.chunks(BLOCK));
    (blocks.enumerate())
        .filter(|(_, (before, after))| before != after)
        .map(|(number, _)| number)
        .collect()
}

/// The records of a table before and after a call that altered it.
pub struct Change {
    before: Vec<Record>,
    after: Vec<Record>,
    blocks: usize,
}

impl Change {
    pub fn read(policy: &[u8], before: &[u8], after: &[u8]) -> Change {
        let (read, stamp) = (read_policy(policy).expect("a good policy"), sums(policy));
        let records = |table| read_table(&read, stamp, table, fits).expect("a good table");
        Change {
            before: records(before),
            after: records(after),
            blocks: before.len() / BLOCK,
        }
    }

    /// The blocks whose records differ: their number, their requests or their marks.
    pub fn differing(&self) -> Vec<usize> {
        (0..self.blocks)
            .filter(|&number| self.block(number).0 != self.block(number).1)
            .collect()
    }

    /// The records of a block, before and after.
    fn block(&self, number: usize) -> (&[Record], &[Record]) {
        (
            in_block(&self.before, number),
            in_block(&self.after, number),
        )
    }

    /// What of [`MET`] came of a call that wrote these blocks, at least one.
    pub fn meets(&self, written: &[usize], recorded: bool) -> Vec<&'static str> {
        let used = |records: &[Record]| records.len().div_ceil(RECORDS_PER_BLOCK);
        let (used_before, used_after) = (used(&self.before), used(&self.after));
        let in_use = used_before.max(used_after);
        let same_behind = |first| (first..in_use).any(|number| !written.contains(&number));
        let moved = written.iter().find(|&&number| !self.marks_alone(number));
        let removed = self.after.len() - usize::from(recorded) < self.before.len();
        let emptied = used_before.saturating_sub(used_after);
        let (one, all) = (written.len() == 1, in_use > 1 && written.len() == in_use);
        let met = [
            (ONE, one),
            (SEVERAL, !one),
            (ALL, all),
            (SAME_BEHIND, same_behind(written[0])),
            (
                SAME_THOUGH_MOVED,
                removed && moved.is_some_and(|&first| same_behind(first)),
            ),
            (
                FOR_MARKS,
                written.iter().any(|&number| self.marks_alone(number)),
            ),
            (MARKS_OF_ONE, moved.is_none() && one),
            (MARKS_OF_SEVERAL, moved.is_none() && !one && !all),
            (MARKS_OF_ALL, moved.is_none() && all),
            (
                ONLY_RECORD,
                emptied > 0 && self.before.len() % RECORDS_PER_BLOCK == 1,
            ),
            (SHRUNK, emptied > 1),
            (RESTORED, recorded && !written.contains(&(used_after - 1))),
        ];
        (met.into_iter())
            .filter_map(|(what, met)| met.then_some(what))
            .collect()
    }

    /// Whether a block has the requests that it had, with other marks.
    fn marks_alone(&self, number: usize) -> bool {
        let (before, after) = self.block(number);
        let requests = |records: &[Record]| -> Vec<Request> {
            records.iter().map(|r| r.request.clone()).collect()
        };
        before != after && requests(before) == requests(after)
    }
}

fn in_block(records: &[Record], number: usize) -> &[Record] {
    records
        .chunks(RECORDS_PER_BLOCK)
        .nth(number)
        .unwrap_or_default()
}

// What is taken down of a grant or a closing. A block in use is one that has records before or after.
pub const NONE: &str = "no block written";
const ONE: &str = "one block written";
const SEVERAL: &str = "two or more blocks written";
const ALL: &str = "all of two or more blocks in use written";
const SAME_BEHIND: &str = "a block in use behind the first written one comes out the same";
const SAME_THOUGH_MOVED: &str = "a block behind one in which records moved comes out the same";
const FOR_MARKS: &str = "a block written for its marks alone";
const MARKS_OF_ONE: &str = "nothing but marks differs, in one block";
const MARKS_OF_SEVERAL: &str = "nothing but marks differs, in several blocks";
const MARKS_OF_ALL: &str = "nothing but marks differs, in all of two or more blocks in use";
const ONLY_RECORD: &str = "the last block loses its only record";
const SHRUNK: &str = "two or more blocks are emptied";
const RESTORED: &str = "the block that the request is put into comes out the same";

/// All of it.
pub const MET: [&str; 13] = [
    NONE,
    ONE,
    SEVERAL,
    ALL,
    SAME_BEHIND,
    SAME_THOUGH_MOVED,
    FOR_MARKS,
    MARKS_OF_ONE,
    MARKS_OF_SEVERAL,
    MARKS_OF_ALL,
    ONLY_RECORD,
    SHRUNK,
    RESTORED,
];

/// What of it a closing can meet with, which clears no mark of what it keeps and puts nothing behind. A
/// block whose marks alone differ has got other records.
pub const MET_BY_CLOSING: [&str; 9] = [
    NONE,
    ONE,
    SEVERAL,
    ALL,
    SAME_BEHIND,
    SAME_THOUGH_MOVED,
    FOR_MARKS,
    ONLY_RECORD,
    SHRUNK,
];
