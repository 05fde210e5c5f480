//! WEIGH (document 02, wishes 10 and 11): the answer to a job with a cost and a weight for each law.

pub mod job;
pub mod said;
pub mod search;

use super::Block;
use super::{none, with_path};
use job::WeighJob;
use search::{End, Weighed, weigh};

/// What a job is answered; none where more terms would be noted than there are slots.
pub fn block(job: &WeighJob, slots: usize) -> Option<Block> {
    let weighed = weigh(job, slots)?;
    Some(Block {
        text: text(job, &weighed).into_bytes(),
        noted: weighed.noted,
    })
}

/// The answer, by how a search ended.
pub fn text(job: &WeighJob, weighed: &Weighed) -> String {
    let (left, right) = job.equation.oriented();
    let expanded = weighed.expanded;
    match &weighed.end {
        End::Proved { path, total } => {
            let said = format!("total={total}\n");
            with_path("proved", left, right, path, &said, expanded)
        }
        End::AtMost {
            path,
            total,
            atleast,
        } => {
            let said = format!("total={total}\natleast={atleast}\n");
            with_path("atmost", left, right, path, &said, expanded)
        }
        End::None => none(left, right, expanded, weighed.waits),
    }
}
