//! The Rust's lines for a job of WEIGH: what they lead to, and which lines of a text are among them.

use std::collections::HashMap;

use upstream::{DIRECT_AXIOMS, OwnLine, SemiringAxiom, own_lines};

use super::super::{run_of, tree};
use crate::plain::check::{Side, Stated};
use crate::plain::law::LAWS;
use crate::plain::term::Term as Run;
use crate::plain::weigh::job::{WeighJob, Weights};

/// What lines lead to, with their weights, from each term that was looked at.
pub struct Known<'a> {
    pub job: &'a WeighJob,
    results: HashMap<Run, Vec<(Run, usize)>>,
}

impl Known<'_> {
    pub fn new(job: &WeighJob) -> Known<'_> {
        let results = HashMap::new();
        Known { job, results }
    }

    /// What lines within size and depth lead to.
    pub fn results(&mut self, term: &Run) -> &[(Run, usize)] {
        let job = self.job;
        let known = self.results.entry(term.clone());
        known.or_insert_with(|| {
            let lines = lines_within(job, term);
            let result =
                |line: OwnLine| (run_of(line.target()), weight(&job.weights, line.axiom()));
            lines.map(result).collect()
        })
    }

    /// Whether a stated line is one of the Rust's within size and depth.
    pub fn is_own(&self, source: &Run, stated: &Stated) -> bool {
        let target = tree(stated.result.run());
        let is_left = |side: &Side| *side == Side::L;
        lines_within(self.job, source).any(|line| {
            line.axiom().name() == LAWS[stated.law].name
                && line.forward() == stated.forward
                && line.place().eq(stated.place.iter().map(is_left))
                && *line.target() == target
        })
    }
}

/// The Rust's lines on a term whose results keep size and depth.
fn lines_within(job: &WeighJob, term: &Run) -> impl Iterator<Item = OwnLine> {
    let (size, depth) = (job.limits.size, job.limits.depth);
    let lines = own_lines(&tree(term.run())).into_iter();
    lines.filter(move |line| line.target().size() <= size && line.target().depth() <= depth)
}

/// Puts terms in the Rust's order.
pub fn put_in_order(terms: &mut [Run]) {
    terms.sort_by_cached_key(|term| tree(term.run()));
}

pub fn weight(weights: &Weights, axiom: SemiringAxiom) -> usize {
    let at = DIRECT_AXIOMS.iter().position(|law| *law == axiom);
    weights[at.expect("it is one of the laws")]
}
