//! A search of the tests' own over a list of noted terms, and what it does with a fault.

use oracle::plain::line::{Line, keeps, lines};
use oracle::plain::search::{Step, direct};
use oracle::plain::term::Term;
use oracle::plain::weigh::job::WeighJob;
use oracle::plain::weigh::search::{End, Weighed};
use oracle::plain::weigh::text;

#[derive(Clone, Copy, Debug, Eq, PartialEq)]
pub enum Fault {
    None,
    /// The term with the fewest lines is opened next.
    FewestLines,
    /// A total is never lowered.
    NeverLowered,
    /// A lower total is taken over, but the path stays.
    ParentKept,
    /// An equal total takes the place of one that was noted.
    EqualTakesOver,
    /// Of those with the least total the one noted first is opened next.
    NotingOrder,
    /// Or the last in term order.
    LastInOrder,
    /// Right is counted as opened.
    RightCounted,
    /// The node limit is looked at before right.
    NodesFirst,
    /// The search ends when right is noted.
    EndsWhenNoted,
    /// A total that is cost is passed over.
    CostExcluded,
    /// A total one above cost is noted.
    CostExceeded,
    /// A law that matches both sides is taken at once.
    DirectMatch,
    /// Weights by the laws in the opposite order.
    WeightsReversed,
    /// Right may be larger than the limits say.
    RightUnlimited,
    /// Left, too, has to keep size and depth.
    LeftLimited,
    /// `cut` by expanded and nodes alone.
    CutByNodes,
    /// A none where nodes run out, though right is noted.
    NoneInHand,
    /// The path in hand is called proved.
    ProvedInHand,
    /// The path that was noted first is in hand at last.
    FirstInHand,
    /// `atleast` is the largest total of an opened term.
    LeastOpened,
    /// `atleast` is right's own total.
    LeastOfRight,
    /// `atleast` is the least of those that wait behind the next.
    LeastBehind,
    /// The total is what no path is lighter than.
    TotalAtLeast,
}

/// Those of a path in hand.
pub const IN_HAND: [Fault; 7] = [
    Fault::NoneInHand,
    Fault::ProvedInHand,
    Fault::FirstInHand,
    Fault::LeastOpened,
    Fault::LeastOfRight,
    Fault::LeastBehind,
    Fault::TotalAtLeast,
];

pub const FAULTS: [Fault; 16] = [
    Fault::FewestLines,
    Fault::NeverLowered,
    Fault::ParentKept,
    Fault::EqualTakesOver,
    Fault::NotingOrder,
    Fault::LastInOrder,
    Fault::RightCounted,
    Fault::NodesFirst,
    Fault::EndsWhenNoted,
    Fault::CostExcluded,
    Fault::CostExceeded,
    Fault::DirectMatch,
    Fault::WeightsReversed,
    Fault::RightUnlimited,
    Fault::LeftLimited,
    Fault::CutByNodes,
];

struct Entry {
    term: Term,
    total: usize,
    lines: usize,
    origin: Option<(usize, Line)>,
    is_opened: bool,
}

struct Search<'a> {
    job: &'a WeighJob,
    fault: Fault,
    entries: Vec<Entry>,
}

/// The answer that a search with this fault gives, slots and room enough.
pub fn answered(job: &WeighJob, fault: Fault) -> String {
    let (left, right) = job.equation.oriented();
    if let (Fault::DirectMatch, Some(step)) = (fault, direct(left, right)) {
        let total = job.weights[step.line.law];
        let path = vec![step];
        return told(job, End::Proved { path, total }, 0, 0, false);
    }
    let entry = Entry {
        term: left.clone(),
        total: 0,
        lines: 0,
        origin: None,
        is_opened: false,
    };
    let entries = vec![entry];
    let mut search = Search {
        job,
        fault,
        entries,
    };
    search.run(right)
}

fn told(job: &WeighJob, end: End, expanded: usize, noted: usize, waits: bool) -> String {
    let weighed = Weighed {
        end,
        expanded,
        noted,
        waits,
    };
    text(job, &weighed)
}

impl Search<'_> {
    fn run(&mut self, right: &Term) -> String {
        let mut expanded = 0;
        loop {
            let next = self.next();
            let is_at_limit = expanded == self.job.limits.nodes;
            let is_right = next.is_some_and(|at| self.entries[at].term == *right);
            let is_due = is_right && !(self.fault == Fault::NodesFirst && is_at_limit);
            let arrived = match self.fault {
                Fault::EndsWhenNoted => self.entries.iter().position(|one| one.term == *right),
                _ => next.filter(|_| is_due),
            };
            let Some(at) = next.filter(|_| arrived.is_none() && !is_at_limit) else {
                return self.ended(arrived, expanded, next);
            };
            expanded += 1;
            self.open(at, right);
        }
    }

    /// The term that is opened next.
    fn next(&self) -> Option<usize> {
        let waiting = (0..self.entries.len()).filter(|&at| !self.entries[at].is_opened);
        let first = |at: &usize| {
            let entry = &self.entries[*at];
            match self.fault {
                Fault::FewestLines => (entry.lines, entry.term.clone(), 0),
                Fault::NotingOrder => (entry.total, Term::of(vec![0]), *at),
                _ => (entry.total, entry.term.clone(), 0),
            }
        };
        if self.fault != Fault::LastInOrder {
            return waiting.min_by_key(first);
        }
        let last = |at: &usize| {
            let entry = &self.entries[*at];
            (std::cmp::Reverse(entry.total), entry.term.clone())
        };
        waiting.max_by_key(last)
    }

    fn ended(&self, arrived: Option<usize>, expanded: usize, next: Option<usize>) -> String {
        let end = match (arrived, next) {
            (Some(at), _) => End::Proved {
                path: self.path(at),
                total: self.entries[at].total,
            },
            (None, Some(next)) => self.in_hand(next),
            (None, None) => End::None,
        };
        let more = usize::from(self.fault == Fault::RightCounted && arrived.is_some());
        let waits = match self.fault {
            Fault::CutByNodes => expanded == self.job.limits.nodes,
            _ => next.is_some(),
        };
        told(self.job, end, expanded + more, self.entries.len(), waits)
    }

    /// How it ends where nodes have run out and this entry would be opened next.
    fn in_hand(&self, next: usize) -> End {
        let (_, right) = self.job.equation.oriented();
        let held = self.entries.iter().position(|entry| entry.term == *right);
        let Some(held) = held.filter(|_| self.fault != Fault::NoneInHand) else {
            return End::None;
        };
        let path = self.path(held);
        let total = self.entries[held].total;
        let least = self.entries[next].total;
        let entries = self.entries.iter();
        let opened = entries.clone().filter(|entry| entry.is_opened);
        let next = &self.entries[next].term;
        let behind = entries.filter(|entry| !entry.is_opened && entry.term != *next);
        let [opened, behind] = [opened.map(total_of).max(), behind.map(total_of).min()];
        let (total, atleast) = match self.fault {
            Fault::ProvedInHand => return End::Proved { path, total },
            Fault::LeastOpened => (total, opened.unwrap_or(0)),
            Fault::LeastOfRight => (total, total),
            Fault::LeastBehind => (total, behind.unwrap_or(total)),
            Fault::TotalAtLeast => (least, least),
            _ => (total, least),
        };
        End::AtMost {
            path,
            total,
            atleast,
        }
    }

    fn open(&mut self, parent: usize, right: &Term) {
        self.entries[parent].is_opened = true;
        let term = self.entries[parent].term.clone();
        if self.fault == Fault::LeftLimited && !keeps(&term, &self.job.limits) {
            return;
        }
        for (line, result) in lines(&term) {
            let is_free = self.fault == Fault::RightUnlimited && result == *right;
            if keeps(&result, &self.job.limits) || is_free {
                self.note(parent, line, result);
            }
        }
    }

    fn note(&mut self, parent: usize, line: Line, term: Term) {
        let mut weights = self.job.weights;
        if self.fault == Fault::WeightsReversed {
            weights.reverse();
        }
        let total = self.entries[parent].total + weights[line.law];
        let is_above = match self.fault {
            Fault::CostExcluded => total >= self.job.cost,
            Fault::CostExceeded => total > self.job.cost + 1,
            _ => total > self.job.cost,
        };
        if is_above {
            return;
        }
        let entry = Entry {
            term,
            total,
            lines: self.entries[parent].lines + 1,
            origin: Some((parent, line)),
            is_opened: false,
        };
        let mut former = self.entries.iter_mut();
        match former.find(|former| former.term == entry.term) {
            None => self.entries.push(entry),
            Some(former) => {
                let (_, right) = self.job.equation.oriented();
                let is_kept = self.fault == Fault::FirstInHand && entry.term == *right;
                if !is_kept {
                    lower(self.fault, former, entry);
                }
            }
        }
    }

    fn path(&self, mut at: usize) -> Vec<Step> {
        let mut steps = Vec::new();
        while let Some((parent, line)) = self.entries[at].origin {
            steps.push(Step {
                line,
                source: self.entries[parent].term.clone(),
                target: self.entries[at].term.clone(),
            });
            at = parent;
        }
        steps.reverse();
        steps
    }
}

fn total_of(entry: &Entry) -> usize {
    entry.total
}

/// What becomes of a noted term to which another line leads.
fn lower(fault: Fault, former: &mut Entry, entry: Entry) {
    let is_lower = match fault {
        Fault::FewestLines | Fault::NeverLowered => false,
        Fault::EqualTakesOver => entry.total <= former.total && !former.is_opened,
        _ => entry.total < former.total,
    };
    match fault {
        Fault::ParentKept if is_lower => former.total = entry.total,
        _ if is_lower => *former = entry,
        _ => {}
    }
}
