//! Writing a table's image.

use crate::bytes::{put_header, put_u16, put_u32, seal, sums};
use crate::table::{RECORDS_AT, TABLE};
use crate::{BuildError, Policy, Record, Request, Rule};
use crate::{BLOCK, MOST_RULES, MOST_TABLE_BLOCKS, RECORDS_PER_BLOCK};

/// Writes down records as a table's image, to take over a history from elsewhere.
///
/// ```
/// use hastovimen::*;
///
/// # let check = Operation::of(2).on(Target::of(1));
/// # let image = PolicyBuilder::new()
/// #     .rule(Rule::over([]).exclude(Exclusion::of_privileges(2, &[check, check])?))
/// #     .permit(Role::of(2), check)
/// #     .build()?;
/// let policy = Policy::check(&image)?;
/// let request = Request::new(User::of(7), Role::of(2), check, []);
/// let image = TableBuilder::new(&policy, 1).record(request, &[1]).build()?;
/// let mut table = policy.own_table(image)?;
/// assert_eq!(table.to_string(), "\
/// 1 of 15 places
/// 1: user 7 in role 2: 2 on 1 at the whole business (rules 1)
/// ");
/// assert_eq!(Line(table.decide(&request)).to_string(), "refuse 33 1 1");
///
/// // There is no rule 2 to mark a record for.
/// let error = TableBuilder::new(&policy, 1).record(request, &[1, 2]).build();
/// assert_eq!(error, Err(BuildError::NoSuchRule { record: 1, rule: 2 }));
/// # Ok::<(), Box<dyn std::error::Error>>(())
/// ```
#[must_use = "a builder does nothing until `build` is called"]
#[derive(Clone, Debug)]
pub struct TableBuilder<'p> {
    policy: Policy<'p>,
    blocks: usize,
    records: Vec<(Request, Vec<u32>)>,
}

impl<'p> TableBuilder<'p> {
    /// An empty table of so many blocks, 1 to 128.
    pub fn new(policy: &Policy<'p>, blocks: usize) -> TableBuilder<'p> {
        TableBuilder {
            policy: policy.clone(),
            blocks,
            records: vec![],
        }
    }

    /// One more record behind the others, marked for these rules (from 1).
    pub fn record(mut self, request: Request, rules: &[u32]) -> TableBuilder<'p> {
        self.records.push((request, rules.to_vec()));
        self
    }

    /// The image, which passes the engine's check under the policy. Each record must be marked for
    /// one rule or more, and only for rules that the policy has and that its context fits.
    pub fn build(&self) -> Result<Vec<u8>, BuildError> {
        if !(1..=MOST_TABLE_BLOCKS).contains(&self.blocks) {
            return Err(BuildError::TableBlocks(self.blocks));
        }
        if self.records.len() > RECORDS_PER_BLOCK * self.blocks {
            return Err(BuildError::Records(self.records.len()));
        }
        let all: Vec<Rule> = self.policy.rules().collect();
        let stamp = sums(self.policy.image());
        let mut image = vec![0; self.blocks * BLOCK];
        for (number, block) in image.chunks_exact_mut(BLOCK).enumerate() {
            put_header(block, TABLE, number, self.blocks);
            block[16..24].copy_from_slice(&stamp);
        }
        for (i, (request, rules)) in self.records.iter().enumerate() {
            let marks = marks_of(i + 1, request, rules, &all)?;
            let block = &mut image[i / RECORDS_PER_BLOCK * BLOCK..][..BLOCK];
            let here = i % RECORDS_PER_BLOCK;
            put_u16(block, 8, here as u16 + 1);
            let record = &mut block[RECORDS_AT + Record::LENGTH * here..][..Record::LENGTH];
            record[..Request::LENGTH].copy_from_slice(&request.to_bytes());
            put_u32(record, Request::LENGTH, marks);
        }
        seal(&mut image);
        Ok(image)
    }
}

/// The word of these rules, of which each must be among all and fit the record's context.
fn marks_of(
    record: usize,
    request: &Request,
    rules: &[u32],
    all: &[Rule],
) -> Result<u32, BuildError> {
    if rules.is_empty() {
        return Err(BuildError::NoMark { record });
    }
    let mut marks = 0;
    for &rule in rules {
        if !(1..=MOST_RULES as u32).contains(&rule) {
            return Err(BuildError::RuleNumber { record, rule });
        }
        match all.get(rule as usize - 1) {
            None => return Err(BuildError::NoSuchRule { record, rule }),
            Some(its) if !its.fits(&request.context) => {
                return Err(BuildError::DoesNotFit { record, rule })
            }
            Some(_) => marks |= 1 << (rule - 1),
        }
    }
    Ok(marks)
}
