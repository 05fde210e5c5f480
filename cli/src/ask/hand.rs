//! What is said of an answer of WEIGH where nodes ran out with a derivation in hand: what more of them can still gain, and what to do.

use super::blocks::Block;
use super::wide::wide;
use crate::failure::joined;
use crate::job::Job;

/// What is said where more nodes can gain nothing, and where they can; the guide shows the same.
const LIGHTEST: &str = "`nodes` ran out, but the derivation in hand is a lightest";
const HELD: &str = "`nodes` ran out with a derivation in hand";
const TAKE: &str = "take it";
const RAISE: &str = "raise `nodes`, or take it";

/// The sentence on the block, if it is such an answer.
pub fn sentence(job: &Job, block: &Block) -> Option<String> {
    let told = match gain(block)? {
        0 => format!("{LIGHTEST}; {TAKE}"),
        gain => {
            let to_do = to_do(job);
            format!("{HELD}, and more can still gain {gain} at most; {to_do}")
        }
    };
    Some(format!("atmost: {}", told.replace('`', "")))
}

/// By how much the derivation in hand is heavier than a lightest, at most.
fn gain(block: &Block) -> Option<usize> {
    let [total, atleast] = ["total", "atleast"].map(|key| block.number(key));
    match block.is_in_hand() {
        true => total?.checked_sub(atleast?),
        false => None,
    }
}

/// What to do where a lighter one may be found. With nodes at their bound a smaller search may end within them.
fn to_do(job: &Job) -> String {
    let is_low = |&(key, limit, most): &(&str, usize, usize)| key == "nodes" && limit < most;
    if job.limits().iter().any(is_low) {
        return RAISE.to_owned();
    }
    let wide = wide(job, &[1]);
    let narrow = match wide.is_empty() {
        true => String::new(),
        false => {
            let keys = joined(&wide, "or");
            format!("narrow {keys} as far as the plans allow, or ")
        }
    };
    format!("no limit that helps can be raised: {narrow}{TAKE}")
}

#[cfg(test)]
mod tests;
