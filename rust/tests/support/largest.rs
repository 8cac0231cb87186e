//! The largest that can be read and written: 32 rules of 8 exclusions with 8 members, 64 blocks in all,
//! a list of 1,024 names of 60 bytes.

use crate::independent::images::*;
use crate::independent::xml::*;

/// How many names there are of each kind, in the order of the kinds; 1,024 in all.
const OF_A_KIND: [u16; 5] = [200, 200, 32, 296, 296];

/// The list. The names of a kind differ in their last bytes only.
pub fn names() -> Vec<u8> {
    let mut entries = vec![];
    for (kind, count) in (1..).zip(OF_A_KIND) {
        for number in 1..=count {
            let name = format!("{}{number:04}", "n".repeat(56)).into_bytes();
            entries.push(Entry { kind, number, name });
        }
    }
    write_names(&entries)
}

/// Every operation and target in turn, so that what is looked for stands anywhere in the list.
struct Turn(u16);

impl Turn {
    fn privilege(&mut self) -> Privilege {
        self.0 = (self.0 + 35) % OF_A_KIND[3];
        Privilege {
            operation: 1 + self.0,
            target: OF_A_KIND[4] - self.0,
        }
    }

    /// One exclusion in eight is of roles, 1 to 29.
    fn exclusion(&mut self, x: u16) -> Exclusion {
        let members = match x {
            0 => Members::Roles((1..=8).map(|i| 33 - 4 * i).collect()),
            _ => Members::Privileges((0..8).map(|_| self.privilege()).collect()),
        };
        Exclusion { m: 8, members }
    }

    fn rule(&mut self, r: u16) -> Rule {
        let level = |i| Level {
            kind: 4 * r + i + 1,
            mark: Mark::Fixed(200 - 4 * r - i),
        };
        Rule {
            levels: (0..4).map(level).collect(),
            first: Some(self.privilege()),
            last: Some(self.privilege()),
            exclusions: (0..8).map(|x| self.exclusion(x)).collect(),
        }
    }
}

pub fn policy() -> Policy {
    let mut turn = Turn(0);
    let privilege = Privilege {
        operation: 65535,
        target: 65535,
    };
    let full = Permission {
        role: 32,
        privilege,
    };
    Policy {
        rules: (0..32).map(|r| turn.rule(r)).collect(),
        permissions: vec![vec![full; 61]; 32],
    }
}
