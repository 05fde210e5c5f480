//! FIND's answers beside all terms that searchable lines lead to: `cut`, and what a planner may rely on where it
//! is not yes.

use std::collections::HashSet;

use oracle::Entry;
use oracle::generate::{KINDS, Plan};
use oracle::plain;
use oracle::plain::job::{Job, Limits};
use oracle::plain::law::{LAWS, Law};
use oracle::plain::line::{keeps, lines};
use oracle::plain::nones::nones;
use oracle::plain::term::Term;

/// The terms reached by so many searchable lines or fewer.
fn reached(left: &Term, count: usize, limits: &Limits) -> HashSet<Term> {
    let mut all = HashSet::from([left.clone()]);
    let mut newest = vec![left.clone()];
    for _ in 0..count {
        let results = newest.iter().flat_map(lines).map(|(_, result)| result);
        let kept = results.filter(|result| keeps(result, limits));
        newest = kept.filter(|result| all.insert(result.clone())).collect();
    }
    all
}

fn is_direct(left: &Term, right: &Term) -> bool {
    let is_law = |law: &Law| law.matches(left.run(), right.run()).is_some();
    LAWS.iter().any(is_law)
}

/// Holds the blocks of a job to all terms that lines lead to; says how many nones said no, and how many yes.
fn hold(job: &[u8]) -> [usize; 2] {
    let Job { equations, limits } = Job::read(Entry::Find, job).expect("a good job");
    let (left, _) = equations[0].oriented();
    let to_open = match limits.steps {
        0 => 0,
        steps => reached(left, steps - 1, &limits).len(),
    };
    let in_reach = reached(left, limits.steps, &limits);
    let mut counts = [0; 2];
    let blocks = plain::blocks(Entry::Find, job, usize::MAX).expect("a good job");
    for (equation, block) in equations.iter().zip(blocks) {
        let (_, right) = equation.oriented();
        let none = nones(&block.expect("slots enough").text).pop();
        let is_cut = none.is_some_and(|said| said.cut);
        if none.is_some() {
            assert_eq!(is_cut, limits.nodes < to_open);
            counts[usize::from(is_cut)] += 1;
        }
        if !is_cut {
            let is_path = is_direct(left, right) || in_reach.contains(right);
            assert_eq!(none.is_none(), is_path, "{}", right.show());
        }
    }
    counts
}

/// `cut` by the number of terms that fewer lines than steps lead to; and where it is not yes, a path is returned
/// exactly when there is one.
#[test]
fn every_term_that_lines_lead_to_is_looked_at() {
    for name in ["cuts", "plan-cuts"] {
        let plan = Plan {
            count: 400,
            kind: KINDS.iter().position(|kind| kind.name == name),
            ..Plan::default()
        };
        let counts = plan.calls().map(|(_, call)| hold(&call.job));
        let [no, yes] = counts.fold([0; 2], |all, one| [all[0] + one[0], all[1] + one[1]]);
        assert!(no > 150 && yes > 100, "{name}: {no} no, {yes} yes");
    }
}
