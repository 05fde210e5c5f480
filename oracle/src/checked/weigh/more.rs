//! WEIGH's answer beside those that plain gives to the same job with more nodes.

use crate::checked::cut::MOST_WORK;
use crate::plain::weigh::block;
use crate::plain::weigh::job::WeighJob;
use crate::plain::weigh::said::{Said, said};

/// An answer with one more node, or with twice as many, that the answer to a job rules out. An answer that was not ended
/// by nodes stays; where the search for it takes seconds, it is not asked again.
pub fn changed(job: &WeighJob, text: &[u8]) -> Option<String> {
    let said = said(text);
    if said.expanded() * job.limits.size > MOST_WORK {
        return None;
    }
    let nodes = job.limits.nodes;
    let others = [nodes + 1, 2 * nodes + 1].map(|nodes| (nodes, with_nodes(job, nodes)));
    let mut others = others.into_iter();
    let other = others.find(|(nodes, other)| !may_become(text, *nodes, other));
    other.map(|(nodes, other)| format!("with {nodes} nodes\n{}", String::from_utf8_lossy(&other)))
}

/// What plain answers to the job with other nodes.
fn with_nodes(job: &WeighJob, nodes: usize) -> Vec<u8> {
    let mut job = job.clone();
    job.limits.nodes = nodes;
    let block = block(&job, usize::MAX);
    block.expect("slots enough").text
}

/// Whether an answer may be this one with so many more nodes: it stays, if nodes had not run out; else the search goes
/// on, and a path in hand becomes one that is no heavier, and no lighter than it was said to be at least.
fn may_become(text: &[u8], nodes: usize, other: &[u8]) -> bool {
    let (before, after) = (said(text), said(other));
    if !before.ran_out() {
        return other == text;
    }
    let opened = after.expanded();
    let goes_on = (before.expanded() + 1..=nodes).contains(&opened);
    let is_ended = !after.ran_out() || opened == nodes;
    let gains = match before {
        Said::AtMost { total, atleast, .. } => after.total().is_some_and(|later| {
            let is_kept = later < total || path(text) == path(other);
            (atleast..=total).contains(&later) && is_kept && !is_lower(&after, atleast)
        }),
        _ => true,
    };
    goes_on && is_ended && gains
}

/// Whether it says less than this of the paths that more nodes may find.
fn is_lower(after: &Said, former: usize) -> bool {
    matches!(*after, Said::AtMost { atleast, .. } if atleast < former)
}

/// The lines of the path, and what else an answer says of it.
fn path(text: &[u8]) -> Vec<&[u8]> {
    let is_of_search = |line: &[u8]| {
        let keys = [&b"answer="[..], b"atleast=", b"expanded="];
        keys.iter().any(|key| line.starts_with(key))
    };
    let lines = text.split(|&byte| byte == b'\n');
    lines.filter(|line| !is_of_search(line)).collect()
}
