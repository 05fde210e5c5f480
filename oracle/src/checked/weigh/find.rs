//! WEIGH beside the Rust's FIND, where all weights are alike.

use crate::checked::cut::MOST_WORK;
use crate::plain::job::Limits;
use crate::plain::search::direct;
use crate::plain::weigh::job::WeighJob;
use crate::plain::weigh::said::Said;
use crate::{Entry, rust};

/// The limits under which FIND's path has as many lines as the total tells, and whether it is told so. None where the
/// weights are not alike, where a law matches both sides, and where the search takes the Rust some seconds.
pub fn beside_find(job: &WeighJob, said: &Said) -> Option<Limits> {
    let weight = job.weights[0];
    let (left, right) = job.equation.oriented();
    let is_alike = job.weights.iter().all(|&other| other == weight);
    let is_light = said.expanded() * job.limits.size <= MOST_WORK;
    let is_meant = is_alike && is_light && direct(left, right).is_none();
    let steps = job.cost / weight;
    is_meant.then_some(Limits {
        steps,
        ..job.limits
    })
}

/// What FIND says, if it is other than WEIGH lets expect: a path of WEIGH is one of FIND, of as many lines as its total
/// tells; and where WEIGH opened all that it noted, FIND finds none if WEIGH does not. FIND opens the terms of one number
/// of lines in another order, so that nodes may run out before it notes a right that WEIGH has in hand; but not where
/// all that are nearer than right were opened.
pub fn other(job: &WeighJob, said: &Said) -> Option<String> {
    let limits = beside_find(job, said)?;
    let find = rust::block(Entry::Find, &job.equation, &limits);
    let lines = find.lines().find_map(|line| line.strip_prefix("steps="));
    let lines: Option<usize> = lines.map(|lines| lines.parse().expect("a number"));
    let weight = job.weights[0];
    let total_by_find = lines.map(|lines| lines * weight);
    let holds = match *said {
        Said::Proved { total, .. } => total_by_find == Some(total),
        Said::AtMost { total, atleast, .. } => match total_by_find {
            Some(other) => other == total,
            None => atleast + weight == total,
        },
        Said::None { cut: false, .. } => lines.is_none(),
        Said::None { cut: true, .. } => true,
    };
    (!holds).then_some(find)
}
