//! WEIGH by distances, as the Rust has no such search. Its lines, its order of terms and its proof text are asked; around
//! them each term gets its distance from left, layer by layer. Nothing is lowered and no parent is kept: which path is due
//! is read off the distances at the end.

mod known;

use std::collections::{BTreeSet, HashSet};

use upstream::{EquationCandidate, OwnLine, SemiringAxiom, own_lines, own_proof};

use super::{candidate, readback, run_of, show, tree};
use crate::plain::term::Term as Run;
use crate::plain::weigh::job::WeighJob;
use known::weight;
pub use known::{Known, put_in_order};

/// The answer with any slots and any room, how many terms are noted, and the distance of the first that is not opened.
#[derive(Clone, Debug, Eq, PartialEq)]
pub struct Weighed {
    pub text: String,
    pub noted: usize,
    pub next: Option<usize>,
}

/// A term and its distance from left: the least weight of a path to it. Right, where nodes ran out, has the least weight
/// of a path whose last line is from an opened term.
struct Reached {
    term: Run,
    distance: usize,
}

pub fn weighed(known: &mut Known) -> Weighed {
    let job = known.job;
    let equation = candidate(&job.equation);
    let [left, right] = [equation.lhs(), equation.rhs()].map(run_of);
    let order = known.in_order(&left, &right);
    let nodes = job.limits.nodes;
    let arrival = order.iter().position(|reached| reached.term == right);
    let arrival = arrival.filter(|&before| before <= nodes);
    let opened = &order[..arrival.unwrap_or(nodes.min(order.len()))];
    let noted = known.noted(&left, opened);
    let next = order.get(opened.len()).map(|reached| reached.distance);
    let expanded = opened.len();
    let text = if let Some(at) = arrival {
        let path = known.path(opened, &order[at]);
        path_text(&equation, job, path, None, expanded)
    } else if let Some(held) = known.held(opened, right) {
        let path = known.path(opened, &held);
        path_text(&equation, job, path, next, expanded)
    } else {
        none_text(&equation, expanded, expanded < noted)
    };
    Weighed { text, noted, next }
}

impl Known<'_> {
    /// The terms within cost in the order of opening, by distance and then by the Rust's order. No layer is looked at
    /// behind the one that has right, nor behind the one with which there are more terms than nodes.
    fn in_order(&mut self, left: &Run, right: &Run) -> Vec<Reached> {
        let WeighJob { cost, limits, .. } = self.job;
        let mut arrivals = vec![BTreeSet::new(); cost + 1];
        arrivals[0].insert(left.clone());
        let mut seen = HashSet::new();
        let mut order = Vec::new();
        for distance in 0..=*cost {
            let mut layer = Vec::from_iter(std::mem::take(&mut arrivals[distance]));
            layer.retain(|term| seen.insert(term.clone()));
            put_in_order(&mut layer);
            let is_last = layer.contains(right) || seen.len() > limits.nodes;
            if !is_last {
                self.arrive(&layer, &mut arrivals[distance..]);
            }
            order.extend(layer.into_iter().map(|term| Reached { term, distance }));
            if is_last {
                break;
            }
        }
        order
    }

    /// Puts what one line leads to from a layer where its weight says, counted from that layer.
    fn arrive(&mut self, layer: &[Run], arrivals: &mut [BTreeSet<Run>]) {
        for (result, weight) in layer.iter().flat_map(|term| self.results(term).to_vec()) {
            if let Some(later) = arrivals.get_mut(weight) {
                later.insert(result);
            }
        }
    }

    /// How many terms are noted once these are opened: left, and what lines lead to within cost.
    fn noted(&mut self, left: &Run, opened: &[Reached]) -> usize {
        let cost = self.job.cost;
        let mut noted = HashSet::from([left.clone()]);
        for Reached { term, distance } in opened {
            let results = self.results(term).iter();
            let results = results.filter(|(_, weight)| distance + weight <= cost);
            noted.extend(results.map(|(result, _)| result.clone()));
        }
        noted.len()
    }

    /// Right with the least weight of a path whose last line is from one of these, if one of at most cost is.
    fn held(&mut self, opened: &[Reached], right: Run) -> Option<Reached> {
        let mut totals = Vec::new();
        for Reached { term, distance } in opened {
            let results = self.results(term).iter();
            let results = results.filter(|(result, _)| *result == right);
            totals.extend(results.map(|(_, weight)| distance + weight));
        }
        let least = totals.into_iter().min();
        let within = least.filter(|&total| total <= self.job.cost);
        within.map(|distance| Reached {
            term: right,
            distance,
        })
    }

    /// The path that is due: each term's parent is the first opened one from which a line makes up its distance, and
    /// the line is the first such line.
    fn path(&mut self, opened: &[Reached], right: &Reached) -> Vec<OwnLine> {
        let mut path = Vec::new();
        let mut at = right;
        while at.distance > 0 {
            let parents = opened.iter();
            let mut parents = parents.filter(|parent| parent.distance < at.distance);
            let is_led =
                |parent: &&Reached| self.leads(parent, &at.term, at.distance - parent.distance);
            let parent = parents.find(is_led).expect("a term's distance is made up");
            path.push(self.first_line(parent, at));
            at = parent;
        }
        path.reverse();
        path
    }

    /// Whether a line of this weight leads there.
    fn leads(&mut self, parent: &Reached, target: &Run, weight: usize) -> bool {
        let mut results = self.results(&parent.term).iter();
        results.any(|(result, own)| result == target && *own == weight)
    }

    fn first_line(&self, parent: &Reached, at: &Reached) -> OwnLine {
        let (target, due) = (tree(at.term.run()), at.distance - parent.distance);
        let mut lines = own_lines(&tree(parent.term.run())).into_iter();
        let is_it = |line: &OwnLine| {
            *line.target() == target && weight(&self.job.weights, line.axiom()) == due
        };
        lines.find(is_it).expect("it leads there")
    }
}

/// An answer with a path: a proved one, or one of a path in hand, which no path is lighter than this.
fn path_text(
    equation: &EquationCandidate,
    job: &WeighJob,
    path: Vec<OwnLine>,
    atleast: Option<usize>,
    expanded: usize,
) -> String {
    let (steps, laws) = (path.len(), path.iter().map(OwnLine::axiom));
    let total: usize = laws.clone().map(|law| weight(&job.weights, law)).sum();
    let uses: BTreeSet<SemiringAxiom> = laws.collect();
    let uses: Vec<&str> = uses.into_iter().map(SemiringAxiom::name).collect();
    let proof = own_proof(equation, path);
    let (verdict, atleast) = match atleast {
        None => ("proved", String::new()),
        Some(least) => ("atmost", format!("atleast={least}\n")),
    };
    format!(
        "answer={verdict}\n{}steps={steps}\ntotal={total}\n{atleast}expanded={expanded}\nuses={}\n{}proof={proof}\n",
        sides(equation),
        uses.join(","),
        readback::step_lines(&proof, equation),
    )
}

fn none_text(equation: &EquationCandidate, expanded: usize, is_cut: bool) -> String {
    let cut = if is_cut { "yes" } else { "no" };
    let sides = sides(equation);
    format!("answer=none\n{sides}expanded={expanded}\ncut={cut}\n")
}

fn sides(equation: &EquationCandidate) -> String {
    let (left, right) = (show(equation.lhs()), show(equation.rhs()));
    format!("left={left}\nright={right}\n")
}
