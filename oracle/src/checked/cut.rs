//! `cut` of every none, beside the former rule and by the Rust asked again with one more node.

use super::{Difference, differ};
use crate::plain::Block;
use crate::plain::job::{Equation, Job, Limits};
use crate::plain::nones::{Said, nones, without_cut};
use crate::{Call, Entry, rust};

/// Opened terms times the size limit, above which a none takes the Rust seconds: it is not asked again.
pub const MOST_WORK: usize = 100_000;

/// Holds `cut` of each block that is a none. There is a block for each equation of the call's job.
pub fn hold(call: &Call, blocks: &[Option<Block>]) -> Result<(), Box<Difference>> {
    let job = Job::read(call.entry, &call.job).expect("a good job");
    for (equation, block) in job.equations.iter().zip(blocks) {
        let text = &block.as_ref().expect("slots enough").text;
        if let [said] = nones(text)[..] {
            hold_former(call, text, &said, job.limits.nodes)?;
            hold_by_rust(call, equation, &job.limits, text, &said)?;
        }
    }
    Ok(())
}

/// A yes is one by the former rule too.
fn hold_former(call: &Call, text: &[u8], said: &Said, nodes: usize) -> Result<(), Box<Difference>> {
    if !said.cut || said.was_cut(nodes) {
        return Ok(());
    }
    let what = "`cut` by plain and by the former rule";
    let plain = String::from_utf8_lossy(text).into_owned();
    Err(differ(call, what, plain, "cut=no\n".to_owned()))
}

/// With one more node the Rust opens one more term exactly where `cut` is yes, and gives the very same none
/// exactly where it is no.
fn hold_by_rust(
    call: &Call,
    equation: &Equation,
    limits: &Limits,
    text: &[u8],
    said: &Said,
) -> Result<(), Box<Difference>> {
    if said.expanded * limits.size > MOST_WORK {
        return Ok(());
    }
    let more = Limits {
        nodes: limits.nodes + 1,
        ..*limits
    };
    let again = rust::block(Entry::Find, equation, &more);
    let holds = match said.cut {
        true => opened(&again) == said.expanded + 1,
        false => again.as_bytes() == without_cut(text),
    };
    if holds {
        return Ok(());
    }
    let plain = String::from_utf8_lossy(text).into_owned();
    let what = "plain and the Rust with one more node";
    Err(differ(call, what, plain, again))
}

/// The terms opened, by a proved answer or a none.
fn opened(text: &str) -> usize {
    let mut values = text
        .lines()
        .filter_map(|line| line.strip_prefix("expanded="));
    let value = values.next().expect("an answer of FIND tells it");
    value.parse().expect("a number")
}
