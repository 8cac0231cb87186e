//! Images damaged in ways that a check must notice.

use super::chance::Chance;
use crate::independent::images::*;

/// A number that stands on one side of some limit.
pub fn telling(chance: &mut Chance, old: u8) -> u8 {
    const LIMITS: [u8; 16] = [0, 1, 2, 3, 4, 5, 7, 8, 9, 15, 16, 32, 33, 61, 62, 255];
    match chance.below(4) {
        0 => old ^ 1 << chance.below(8),
        1 => old.wrapping_add(1),
        _ => chance.pick(&LIMITS),
    }
}

/// Alters a byte, mostly one that has a meaning.
fn alter_byte(chance: &mut Chance, image: &mut [u8]) {
    if image.is_empty() {
        return;
    }
    let block = 512 * chance.below(image.len().div_ceil(512));
    let end = match chance.below(10) {
        0..=3 => 64,
        4..=7 => 400,
        _ => 504,
    };
    let at = (block + chance.below(end)).min(image.len() - 1);
    image[at] = telling(chance, image[at]);
}

/// Alters a level of a rule's context: its mark, or what stands for the ends of a range.
fn alter_level(chance: &mut Chance, image: &mut [u8]) {
    if image.len() < 512 {
        return;
    }
    let block = 512 * chance.below(image.len() / 512);
    let level = &mut image[block + 16 + 8 * chance.below(4)..][..8];
    let [low, high] = [4, 6].map(|at| u16::from_le_bytes([level[at], level[at + 1]]));
    let (low, high) = match chance.below(7) {
        0 => (high.wrapping_add(1), high),
        1 => (high, high),
        2 => (high, low),
        3 => (0, high),
        4 => (low, 0),
        5 => (low, 1 << chance.below(16)),
        _ => {
            level[2] = chance.below(6) as u8;
            (low, high)
        }
    };
    level[4..6].copy_from_slice(&low.to_le_bytes());
    level[6..].copy_from_slice(&high.to_le_bytes());
}

/// Copies a field to another place of its block: two steps become equal, a role stands twice.
fn copy_field(chance: &mut Chance, image: &mut [u8]) {
    if image.len() < 512 {
        return;
    }
    let block = 512 * chance.below(image.len() / 512);
    let fields = chance.pick(&[16, 126]);
    let from = block + 4 * chance.below(fields);
    let to = block + 4 * chance.below(fields);
    image.copy_within(from..from + 4, to);
}

/// Puts whole blocks in disorder.
fn alter_blocks(chance: &mut Chance, image: &mut Vec<u8>) {
    let blocks = image.len() / 512;
    if blocks == 0 {
        return;
    }
    let (one, other) = (512 * chance.below(blocks), 512 * chance.below(blocks));
    let copy = image[one..one + 512].to_vec();
    match chance.below(4) {
        0 => image.truncate(image.len() - 512),
        1 => image.extend(copy),
        2 => image[other..other + 512].copy_from_slice(&copy),
        _ => {
            image.copy_within(other..other + 512, one);
            image[other..other + 512].copy_from_slice(&copy);
        }
    }
}

/// Damages an image, mostly so that its checks are right again and deeper tests are reached.
pub fn damage(chance: &mut Chance, image: &mut Vec<u8>) {
    loop {
        match chance.below(12) {
            0 => alter_blocks(chance, image),
            1 => copy_field(chance, image),
            2 | 3 => alter_level(chance, image),
            _ => alter_byte(chance, image),
        }
        if chance.percent(70) {
            break;
        }
    }
    if chance.percent(85) {
        reseal(image);
    }
    if chance.percent(5) {
        image.truncate(chance.below(image.len() + 1));
    }
}

// What is taken down of a record that was moved.
const LOW: &str = "a record at the low of a range passes";
const HIGH: &str = "a record at the high of a range passes";
const BELOW: &str = "a record one below a range is refused by 15";
const ABOVE: &str = "a record one above a range is refused by 15";

/// All of it.
pub const MOVED: [&str; 4] = [LOW, HIGH, BELOW, ABOVE];

/// Moves a record that is marked for a rule with a range to an end of it, or one past it. What is then
/// to be seen, and the number that goes with it; of other rules the record may be wrong for another
/// reason. Nothing is done where chance finds no such record, or the range has no value past its end.
pub fn move_record(
    chance: &mut Chance,
    policy: &Policy,
    records: &mut [Record],
) -> Option<(&'static str, u32)> {
    let record = (!records.is_empty()).then(|| &mut records[chance.below(records.len())])?;
    let ranges: Vec<(usize, u16, u16)> = (policy.rules.iter().enumerate())
        .filter(|(r, _)| record.marks >> r & 1 == 1)
        .flat_map(|(_, rule)| rule.levels.iter().enumerate())
        .filter_map(|(i, level)| match level.mark {
            Mark::Range(low, high) => Some((i, low, high)),
            _ => None,
        })
        .collect();
    let (i, low, high) = (!ranges.is_empty()).then(|| chance.pick(&ranges))?;
    let (value, seen) = match chance.below(4) {
        0 => (low, (LOW, 0)),
        1 => (high, (HIGH, 0)),
        2 if low > 1 => (low - 1, (BELOW, 15)),
        3 if high < u16::MAX => (high + 1, (ABOVE, 15)),
        _ => return None,
    };
    record.request.context[i].1 = value;
    Some(seen)
}

/// Writes a stamp into every block of a table.
pub fn restamp(table: &mut [u8], stamp: (u32, u32)) {
    for block in table.chunks_exact_mut(512) {
        block[16..24].copy_from_slice(&sums_bytes(stamp));
    }
    reseal(table);
}
