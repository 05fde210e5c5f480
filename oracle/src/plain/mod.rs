//! A plain implementation of documents 01 and 02: jobs and derivations, refusals, search and answers, and the
//! catalogue.

pub mod alike;
pub mod catalogue;
pub mod check;
pub mod job;
pub mod law;
pub mod line;
pub mod nones;
pub mod parted;
pub mod proof;
pub mod rename;
pub mod same;
pub mod search;
pub mod stored;
pub mod term;
pub mod tried;
pub mod weigh;
pub mod words;

use crate::{Entry, Given};
use job::{Equation, Job, Limits};
use proof::Prover;
use search::{Outcome, Step, search};
use term::{Term, letters_of};
use weigh::job::WeighJob;

pub const MOST_SLOTS: usize = 65_535;

/// A block that lacks slots.
const OUT_OF_SLOTS: &[u8] = b"answer=refused\nnumber=7\n";

/// What one equation or a derivation is answered, and the number of terms noted for it.
#[derive(Clone, Debug)]
pub struct Block {
    pub text: Vec<u8>,
    pub noted: usize,
}

/// What a call gives.
pub fn answer(entry: Entry, job: &[u8], slots: usize, room: usize) -> Given {
    let blocks = blocks(entry, job, slots.min(MOST_SLOTS))?;
    joined(&blocks, room)
}

/// The answer with any number of slots and any room, and the number of slots that it takes.
pub fn whole(entry: Entry, job: &[u8]) -> Result<(Vec<u8>, usize), u8> {
    let blocks = blocks(entry, job, usize::MAX)?;
    let noted = blocks.iter().flatten().map(|block| block.noted).max();
    Ok((joined(&blocks, usize::MAX)?, noted.unwrap_or(0)))
}

/// What each equation is answered by itself; none where more terms would be noted than there are slots. A
/// derivation and a job of WEIGH are answered by one block.
pub fn blocks(entry: Entry, job: &[u8], slots: usize) -> Result<Vec<Option<Block>>, u8> {
    if entry == Entry::Check {
        let text = check::check(job)?;
        return Ok(vec![Some(Block { text, noted: 0 })]);
    }
    if entry == Entry::Weigh {
        let job = WeighJob::read(job)?;
        return Ok(vec![weigh::block(&job, slots)]);
    }
    let job = Job::read(entry, job)?;
    let equations = job.equations.iter();
    Ok(equations
        .map(|equation| block(entry, equation, &job.limits, slots))
        .collect())
}

/// The blocks one after the other. One that lacks slots says so; by itself it refuses the job.
pub fn joined(blocks: &[Option<Block>], room: usize) -> Given {
    if let [None] = blocks {
        return Err(7);
    }
    let texts = blocks.iter().map(|block| match block {
        Some(block) => &block.text[..],
        None => OUT_OF_SLOTS,
    });
    within(room, texts.collect::<Vec<_>>().concat())
}

/// The answer if the output holds it.
fn within(room: usize, text: Vec<u8>) -> Given {
    if text.len() > room { Err(8) } else { Ok(text) }
}

fn block(entry: Entry, equation: &Equation, limits: &Limits, slots: usize) -> Option<Block> {
    let (text, noted) = match entry {
        Entry::Words => (words::words_text(equation), 0),
        Entry::Rename => (rename::rename_text(equation), 0),
        Entry::Same => (same::same_line(equation).to_owned(), 0),
        Entry::Check | Entry::Weigh => unreachable!("they are answered by themselves"),
        Entry::Find => {
            let (left, right) = equation.oriented();
            let outcome = search(left, right, limits, slots)?;
            (find_text(left, right, &outcome), outcome.noted)
        }
    };
    let text = text.into_bytes();
    Some(Block { text, noted })
}

/// The answer of FIND to one equation.
fn find_text(left: &Term, right: &Term, outcome: &Outcome) -> String {
    match &outcome.path {
        Some(path) => with_path("proved", left, right, path, "", outcome.expanded),
        None => none(left, right, outcome.expanded, outcome.waits),
    }
}

/// An answer with a path; what is said of it beside its lines stands behind their number.
fn with_path(
    verdict: &str,
    left: &Term,
    right: &Term,
    path: &[Step],
    said: &str,
    expanded: usize,
) -> String {
    let letters = letters_of(left, right);
    let mut laws: Vec<usize> = path.iter().map(|step| step.line.law).collect();
    laws.sort_unstable();
    laws.dedup();
    let uses: Vec<&str> = laws.iter().map(|&law| law::LAWS[law].name).collect();
    let steps: Vec<String> = path.iter().map(step_line).collect();
    format!(
        "answer={verdict}\nleft={}\nright={}\nsteps={}\n{said}expanded={expanded}\nuses={}\n{}proof={}\n",
        left.show(),
        right.show(),
        path.len(),
        uses.join(","),
        steps.concat(),
        Prover { letters }.path(path)
    )
}

fn step_line(step: &Step) -> String {
    format!(
        "step={} {} at={} to={}\n",
        law::LAWS[step.line.law].name,
        line::direction(step.line.forward),
        step.line.place(&step.source),
        step.target.show()
    )
}

fn none(left: &Term, right: &Term, expanded: usize, is_cut: bool) -> String {
    format!(
        "answer=none\nleft={}\nright={}\nexpanded={expanded}\ncut={}\n",
        left.show(),
        right.show(),
        if is_cut { "yes" } else { "no" }
    )
}
