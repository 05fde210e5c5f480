//! The search for a path from the smaller side to the larger.

use std::collections::HashSet;

use super::job::Limits;
use super::law::LAWS;
use super::line::{Line, results};
use super::term::Term;

/// A line of a path, with the terms before and after it.
#[derive(Clone, Debug)]
pub struct Step {
    pub line: Line,
    pub source: Term,
    pub target: Term,
}

#[derive(Clone, Debug)]
pub struct Outcome {
    /// The path, if one was found.
    pub path: Option<Vec<Step>>,
    pub expanded: usize,
    /// How many terms were noted.
    pub noted: usize,
    /// Whether a noted term at a distance below steps was left unopened.
    pub waits: bool,
}

/// The noted terms in noting order.
struct Noted {
    entries: Vec<Entry>,
    terms: HashSet<Term>,
}

struct Entry {
    term: Term,
    distance: usize,
    /// The parent's index and the line on it; none for the start.
    origin: Option<(usize, Line)>,
    opened: bool,
}

/// Searches; none if more terms would be noted than there are slots.
pub fn search(left: &Term, right: &Term, limits: &Limits, slots: usize) -> Option<Outcome> {
    if let Some(step) = direct(left, right) {
        return Some(Outcome {
            path: Some(vec![step]),
            expanded: 0,
            noted: 0,
            waits: false,
        });
    }
    let mut noted = Noted::starting_at(left);
    let mut expanded = 0;
    let mut found = false;
    let mut at = 0;
    while !found && at < noted.entries.len() && noted.entries.len() <= slots {
        let entry = &noted.entries[at];
        if entry.distance < limits.steps && expanded < limits.nodes {
            expanded += 1;
            found = noted.open(at, right, limits, slots);
        }
        at += 1;
    }
    (noted.entries.len() <= slots).then(|| Outcome {
        path: found.then(|| noted.path()),
        expanded,
        noted: noted.entries.len(),
        waits: noted.waits_below(limits.steps),
    })
}

/// The one line of the first law that matches both sides as written.
pub fn direct(left: &Term, right: &Term) -> Option<Step> {
    let law = LAWS
        .iter()
        .position(|law| law.matches(left.run(), right.run()).is_some())?;
    let (forward, at) = (true, 0);
    Some(Step {
        line: Line { law, forward, at },
        source: left.clone(),
        target: right.clone(),
    })
}

impl Noted {
    fn starting_at(left: &Term) -> Noted {
        let start = Entry {
            term: left.clone(),
            distance: 0,
            origin: None,
            opened: false,
        };
        Noted {
            entries: vec![start],
            terms: HashSet::from([left.clone()]),
        }
    }

    /// Opens an entry: notes its new results, up to right or one past the slots. Says whether right came up.
    fn open(&mut self, parent: usize, right: &Term, limits: &Limits, slots: usize) -> bool {
        self.entries[parent].opened = true;
        let distance = self.entries[parent].distance + 1;
        for (line, term) in results(&self.entries[parent].term, limits) {
            if !self.terms.insert(term.clone()) {
                continue;
            }
            let is_right = term == *right;
            self.entries.push(Entry {
                term,
                distance,
                origin: Some((parent, line)),
                opened: false,
            });
            if is_right || self.entries.len() > slots {
                return is_right;
            }
        }
        false
    }

    /// Whether any entry at a distance below this one is unopened.
    fn waits_below(&self, distance: usize) -> bool {
        let mut unopened = self.entries.iter().filter(|entry| !entry.opened);
        unopened.any(|entry| entry.distance < distance)
    }

    /// The path to the entry noted last.
    fn path(&self) -> Vec<Step> {
        let mut steps = Vec::new();
        let mut at = self.entries.len() - 1;
        while let Some((parent, line)) = self.entries[at].origin {
            steps.push(Step {
                line,
                source: self.entries[parent].term.clone(),
                target: self.entries[at].term.clone(),
            });
            at = parent;
        }
        steps.reverse();
        steps
    }
}
