//! The search of WEIGH, as document 02 tells it: the noted term with the least total is opened next.

use std::collections::{BTreeSet, HashMap};

use super::job::{WeighJob, Weights};
use crate::plain::job::Limits;
use crate::plain::line::{Line, keeps, lines};
use crate::plain::search::Step;
use crate::plain::term::Term;

#[derive(Clone, Debug)]
pub struct Weighed {
    pub end: End,
    pub expanded: usize,
    /// How many terms were noted.
    pub noted: usize,
    /// Whether a noted term was left unopened.
    pub waits: bool,
}

/// How a search ends.
#[derive(Clone, Debug)]
pub enum End {
    /// Right came up.
    Proved {
        path: Vec<Step>,
        total: usize,
    },
    /// Nodes ran out with right noted: the path held for it, and the smallest total among noted, unopened terms.
    AtMost {
        path: Vec<Step>,
        total: usize,
        atleast: usize,
    },
    None,
}

impl Weighed {
    /// The path of a proved answer, and its total.
    pub fn proved(&self) -> Option<(&[Step], usize)> {
        match &self.end {
            End::Proved { path, total } => Some((path, *total)),
            End::AtMost { .. } | End::None => None,
        }
    }
}

/// A noted term's total, and the parent and the line on it; none for the start.
struct Entry {
    total: usize,
    origin: Option<(Term, Line)>,
}

/// The noted terms.
struct Noted {
    entries: HashMap<Term, Entry>,
    /// Those not opened, by total, ties in term order.
    waiting: BTreeSet<(usize, Term)>,
}

/// Searches from the smaller side; none if more terms would be noted than there are slots.
pub fn weigh(job: &WeighJob, slots: usize) -> Option<Weighed> {
    let (left, right) = job.equation.oriented();
    let mut noted = Noted::starting_at(left);
    let mut expanded = 0;
    while noted.entries.len() <= slots {
        let end = match noted.waiting.first() {
            Some(&(total, ref next)) if next == right => End::Proved {
                path: noted.path(right),
                total,
            },
            Some(_) if expanded < job.limits.nodes => {
                expanded += 1;
                noted.open_first(job);
                continue;
            }
            Some(&(least, _)) => noted.in_hand(right, least),
            None => End::None,
        };
        return Some(Weighed {
            end,
            expanded,
            noted: noted.entries.len(),
            waits: !noted.waiting.is_empty(),
        });
    }
    None
}

/// After how many opened terms right is noted, and after how many its path is replaced.
pub fn moments(job: &WeighJob) -> Vec<usize> {
    let (left, right) = job.equation.oriented();
    let mut noted = Noted::starting_at(left);
    let mut moments = Vec::new();
    let mut held = None;
    for opened in 1..=job.limits.nodes {
        let next = noted.waiting.first();
        if next.is_none_or(|(_, next)| next == right) {
            break;
        }
        noted.open_first(job);
        let former = held;
        held = noted.entries.get(right).map(|entry| entry.total);
        if held != former {
            moments.push(opened);
        }
    }
    moments
}

impl Noted {
    fn starting_at(left: &Term) -> Noted {
        let start = Entry {
            total: 0,
            origin: None,
        };
        Noted {
            entries: HashMap::from([(left.clone(), start)]),
            waiting: BTreeSet::from([(0, left.clone())]),
        }
    }

    /// Opens the first of those that wait: takes its lines one by one.
    fn open_first(&mut self, job: &WeighJob) {
        let WeighJob {
            cost,
            ref limits,
            ref weights,
            ..
        } = *job;
        let (total, parent) = self.waiting.pop_first().expect("a term waits");
        for (line, term) in lines_within(&parent, limits) {
            let total = total + weight(weights, &line);
            if total <= cost {
                self.note(term, total, (&parent, line));
            }
        }
    }

    /// A term that is not noted is noted. A lower total replaces the total, the parent and the line of one that is.
    fn note(&mut self, term: Term, total: usize, (parent, line): (&Term, Line)) {
        let former = self.entries.get(&term).map(|entry| entry.total);
        if former.is_some_and(|former| former <= total) {
            return;
        }
        if let Some(former) = former {
            self.waiting.remove(&(former, term.clone()));
        }
        self.waiting.insert((total, term.clone()));
        let origin = Some((parent.clone(), line));
        self.entries.insert(term, Entry { total, origin });
    }

    /// How a search ends for which nodes have run out; the least total waits.
    fn in_hand(&self, right: &Term, least: usize) -> End {
        let Some(entry) = self.entries.get(right) else {
            return End::None;
        };
        End::AtMost {
            path: self.path(right),
            total: entry.total,
            atleast: least,
        }
    }

    /// The path to a noted term.
    fn path(&self, term: &Term) -> Vec<Step> {
        let mut steps = Vec::new();
        let mut target = term;
        while let Some((source, line)) = &self.entries[target].origin {
            steps.push(Step {
                line: *line,
                source: source.clone(),
                target: target.clone(),
            });
            target = source;
        }
        steps.reverse();
        steps
    }
}

/// The lines on a term whose results keep size and depth, in the order of trying.
fn lines_within(term: &Term, limits: &Limits) -> impl Iterator<Item = (Line, Term)> {
    let found = lines(term).into_iter();
    found.filter(|(_, result)| keeps(result, limits))
}

fn weight(weights: &Weights, line: &Line) -> usize {
    weights[line.law]
}
