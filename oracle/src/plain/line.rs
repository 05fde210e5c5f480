//! Lines on a term: their results, in term order and in the order of trying.

use super::job::Limits;
use super::law::{LAWS, fits, put};
use super::term::{Term, end, part};

/// A law, a direction and the node at which the replaced subterm begins.
#[derive(Clone, Copy, Debug, Eq, PartialEq)]
pub struct Line {
    pub law: usize,
    pub forward: bool,
    pub at: usize,
}

impl Line {
    /// The whole new term, unless the law does not fit or leaves a letter unbound.
    pub fn result(&self, term: &Term) -> Option<Term> {
        let run = term.run();
        let (replaced, other) = LAWS[self.law].sides(self.forward);
        let mut binding = [None; 3];
        if !fits(replaced, part(run, self.at), &mut binding) {
            return None;
        }
        let new = put(other, &binding)?;
        let after = &run[end(run, self.at)..];
        Some(Term::of([&run[..self.at], &new[..], after].concat()))
    }

    /// `.` for the root, else `l` and `r`, outermost first.
    pub fn place(&self, term: &Term) -> String {
        let turns = enclosing(term, self.at);
        if turns.is_empty() {
            return ".".to_owned();
        }
        let sides = turns
            .iter()
            .map(|turn| if turn.to_left { 'l' } else { 'r' });
        sides.collect()
    }
}

/// The word for a direction.
pub fn direction(forward: bool) -> &'static str {
    if forward { "forward" } else { "back" }
}

/// A node on the way to a place, and the part through which the way goes on.
pub struct Turn {
    pub node: usize,
    pub to_left: bool,
}

/// The nodes that enclose the place, outermost first.
pub fn enclosing(term: &Term, at: usize) -> Vec<Turn> {
    let mut turns = Vec::new();
    let mut node = 0;
    while node < at {
        let right = end(term.run(), node + 1);
        let to_left = at < right;
        turns.push(Turn { node, to_left });
        node = if to_left { node + 1 } else { right };
    }
    turns
}

/// Every line that changes the term, in the order of trying: place, law, forward before back.
pub fn lines(term: &Term) -> Vec<(Line, Term)> {
    let mut found = Vec::new();
    for at in 0..term.size() {
        for law in 0..LAWS.len() {
            for forward in [true, false] {
                let line = Line { law, forward, at };
                match line.result(term) {
                    Some(result) if result != *term => found.push((line, result)),
                    _ => {}
                }
            }
        }
    }
    found
}

/// The results within size and depth, in term order, each with its first line.
pub fn results(term: &Term, limits: &Limits) -> Vec<(Line, Term)> {
    let mut found = lines(term);
    found.retain(|(_, result)| keeps(result, limits));
    found.sort_by(|(_, one), (_, other)| one.cmp(other));
    found.dedup_by(|(_, later), (_, first)| later == first);
    found
}

pub fn keeps(term: &Term, limits: &Limits) -> bool {
    term.size() <= limits.size && term.depth() <= limits.depth
}
