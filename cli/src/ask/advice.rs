//! What is said of an answer: of a none or a derivation in hand, and of blocks that are nones or refused.

use puvainy::MOST_SLOTS;

use super::blocks::Block;
use super::wide::wide;
use super::{Asking, hand};
use crate::failure::{counted, joined};
use crate::job::Job;
use crate::names::Names;
use crate::refusals::{self, Fault, Found, JOBS};

/// What is said of a none, by its last line; the guide shows the same.
struct Advice {
    last: &'static str,
    why: &'static str,
    /// The limits to raise, by their places in a job.
    raise: &'static [usize],
    /// Whether size and depth are to be narrowed where none of those can be raised: a smaller search may end within the nodes.
    narrows: bool,
}

const ADVICE: [Advice; 2] = [
    Advice {
        last: "cut=no",
        why: "nothing was left to open",
        raise: &[0, 1, 2],
        narrows: false,
    },
    Advice {
        last: "cut=yes",
        why: "`nodes` ran out with a term still to open",
        raise: &[3],
        narrows: true,
    },
];

/// The refusal that a block may be.
const FULL: usize = 7;

/// The sentences on the answer to the job: none where every block is a proved derivation.
pub fn sentences(name: &str, job: &Job, blocks: &[Block], asking: &Asking) -> Vec<String> {
    if let ([block], false) = (blocks, job.has_several()) {
        return of_one(name, job, block, &asking.names);
    }
    let mut said = Vec::new();
    for advice in ADVICE {
        let rights = numbers(blocks, |block| advice.is_for(block));
        let told = advice.sentence(job, &rights);
        said.extend(of_several(name, job, &rights, &told, &asking.names));
    }
    let refused = numbers(blocks, |block| block.is_refused());
    let told = refusals::sentence(&JOBS, FULL, Some(too_few(Fault::SlotsRight, asking.slots)));
    said.extend(of_several(name, job, &refused, &told, &asking.names));
    said
}

/// What is wrong where the slots are too few, with those that were given.
pub fn too_few(fault: Fault, slots: usize) -> Found {
    let place = match slots {
        MOST_SLOTS => format!("with all {MOST_SLOTS} slots"),
        _ => format!("with --slots {slots}"),
    };
    Found::new(fault, place, Vec::new())
}

/// What is said of the only block: its sides are shown as they are oriented.
fn of_one(name: &str, job: &Job, block: &Block, names: &Names) -> Vec<String> {
    let advice = ADVICE.iter().find(|advice| advice.is_for(block));
    let none = advice.map(|advice| advice.sentence(job, &[1]));
    let Some(told) = none.or_else(|| hand::sentence(job, block)) else {
        return Vec::new();
    };
    let mut said = vec![format!("{name}: {told}")];
    for (key, side) in block.values() {
        if let "left" | "right" = key {
            said.extend(names.side(key, side));
        }
    }
    said
}

/// What is said once of all these right sides, if there are any.
fn of_several(name: &str, job: &Job, rights: &[usize], told: &str, names: &Names) -> Vec<String> {
    if rights.is_empty() {
        return Vec::new();
    }
    let numbers = counted(rights.iter().copied());
    let mut said = vec![format!("{name}: right {numbers}: {told}")];
    for (key, side) in job.sides(|right| rights.contains(&right)) {
        said.extend(names.side(&key, side));
    }
    said
}

/// The numbers of the right sides whose blocks are such.
fn numbers(blocks: &[Block], is_such: impl Fn(&Block) -> bool) -> Vec<usize> {
    let numbered = (1..).zip(blocks);
    let such = numbered.filter(|(_, block)| is_such(block));
    such.map(|(number, _)| number).collect()
}

impl Advice {
    fn is_for(&self, block: &Block) -> bool {
        block.is_none() && block.has(self.last)
    }

    /// What is said of these right sides.
    fn sentence(&self, job: &Job, rights: &[usize]) -> String {
        let to_do = self.to_do(job, rights);
        format!("none: {}; {to_do}", self.why.replace('`', ""))
    }

    /// What to do: those of the limits that are below their bounds can be raised, for all right sides. WORDS takes one of them, and limits
    /// that are narrowed for one might be too narrow for another.
    fn to_do(&self, job: &Job, rights: &[usize]) -> String {
        let how = match (job.has_several(), job.is_weighed()) {
            (true, _) => ", one right side to a job,",
            (_, true) => ", by a job with steps in place of cost and no weights,",
            _ => "",
        };
        let ask = format!("ask puvainy words{how} whether the plans are equal at all");
        let limits = job.limits();
        let raise = self.raise.iter().filter_map(|&place| limits.get(place));
        let low = raise.filter(|(_, limit, most)| limit < most);
        let low: Vec<_> = low.map(|(key, ..)| key).collect();
        if !low.is_empty() {
            return format!("raise {}, or {ask}", joined(&low, "or"));
        }
        let wide = match self.narrows {
            true => wide(job, rights),
            false => Vec::new(),
        };
        let keys = joined(&wide, "or");
        let narrow = match (wide.is_empty(), job.has_several()) {
            (true, _) => String::new(),
            (_, false) => format!("narrow {keys} as far as the plans allow, "),
            (_, true) => format!(
                "ask for such a one in a job of its own, with {keys} as narrow as the plans allow, "
            ),
        };
        format!("no limit that helps can be raised: {narrow}{ask}, or go by a plan in between")
    }
}

#[cfg(test)]
mod tests;
