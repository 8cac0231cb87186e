//! The wrapper's answers as the four numbers of the independent judges; and those as a line.

use crate::independent::Reply;
use hastovimen::{Grant, Preview, Refusal};

/// Of a call that counts rules, records or places.
pub fn count(answer: Result<u32, Refusal>) -> Reply {
    match answer {
        Ok(count) => Reply::accept(count as usize),
        Err(refusal) => refused(refusal),
    }
}

/// Of a decision.
pub fn grant(answer: Result<Grant, Refusal>) -> Reply {
    let three = answer.map(|grant| (grant.recorded, grant.removed, grant.held));
    judged(three)
}

/// Of a preview.
#[allow(dead_code)]
pub fn preview(answer: Result<Preview, Refusal>) -> Reply {
    let three = answer.map(|preview| (preview.recorded, preview.removed, preview.held));
    judged(three)
}

fn judged(answer: Result<(bool, u32, u32), Refusal>) -> Reply {
    match answer {
        Ok((recorded, removed, held)) => Reply {
            number: 0,
            first: recorded.into(),
            second: removed,
            third: held,
        },
        Err(refusal) => refused(refusal),
    }
}

fn refused(refusal: Refusal) -> Reply {
    let (first, second) = refusal.places();
    Reply {
        number: refusal.number(),
        first,
        second,
        third: 0,
    }
}

/// A decision's reply as the trial program prints it, behind the ordinal.
#[allow(dead_code)]
pub fn line(reply: Reply) -> String {
    let Reply {
        number,
        first,
        second,
        third,
    } = reply;
    match number {
        0 => format!("grant {first} {second} {third}"),
        _ => format!("refuse {number} {first} {second}"),
    }
}
