//! WEIGH's answers beside the distances of all terms that lines lead to, found by lowering distances until nothing
//! changes.

use std::collections::HashMap;

use oracle::Entry;
use oracle::plain::check::{Derivation, derivations};
use oracle::plain::line::{keeps, lines};
use oracle::plain::term::Term;
use oracle::plain::weigh::job::WeighJob;
use oracle::plain::weigh::said::{Said, said};
use oracle::plain::{self, weigh};

use super::jobs;

/// The least weight of a path to each term that paths of at most cost lead to; none if there are more than so many.
fn distances(job: &WeighJob, most: usize) -> Option<HashMap<Term, usize>> {
    let (left, _) = job.equation.oriented();
    let mut distances = HashMap::from([(left.clone(), 0)]);
    let mut changed = vec![left.clone()];
    while let Some(term) = changed.pop() {
        let distance = distances[&term];
        let results = lines(&term).into_iter();
        let results = results.filter(|(_, result)| keeps(result, &job.limits));
        let results = results.map(|(line, result)| (result, distance + job.weights[line.law]));
        for (result, total) in results.filter(|(_, total)| *total <= job.cost) {
            if distances.get(&result).is_none_or(|&former| total < former) {
                distances.insert(result.clone(), total);
                changed.push(result);
            }
        }
        if distances.len() > most {
            return None;
        }
    }
    Some(distances)
}

/// Holds the answer to a job to the distances; gives what it says.
fn hold(job: &WeighJob, text: &[u8], distances: &HashMap<Term, usize>) -> Said {
    let (_, right) = job.equation.oriented();
    let given = said(text);
    let nodes = job.limits.nodes;
    match given {
        Said::Proved {
            total,
            expanded,
            steps,
        } => {
            let due = (distances[right], right.clone());
            let before = distances.iter().filter(|(term, distance)| {
                let at = (**distance, (*term).clone());
                at < due
            });
            let weights = weights(job, text);
            assert_eq!((total, expanded), (due.0, before.count()));
            assert!(expanded <= nodes);
            assert_eq!((weights.len(), weights.iter().sum()), (steps, total));
        }
        Said::AtMost { .. } => hold_in_hand(job, text, distances),
        Said::None { expanded, .. } => {
            assert_eq!(expanded, nodes.min(distances.len()));
            let (opened, _) = opened(job, distances);
            assert_eq!(held(job, distances, &opened), None);
            if expanded < nodes {
                assert!(!distances.contains_key(right));
            }
        }
    }
    given
}

/// Holds an answer with a path in hand.
fn hold_in_hand(job: &WeighJob, text: &[u8], distances: &HashMap<Term, usize>) {
    let Said::AtMost {
        total,
        atleast,
        expanded,
        steps,
    } = said(text)
    else {
        panic!("nodes have run out with right noted");
    };
    let (_, right) = job.equation.oriented();
    let (opened, next) = opened(job, distances);
    let weights = weights(job, text);
    assert_eq!(expanded, job.limits.nodes);
    assert_eq!(Some(atleast), next);
    assert!(atleast <= distances[right] && distances[right] <= total);
    assert!(!opened.contains(&right));
    assert_eq!(Some(total), held(job, distances, &opened));
    assert!(total - atleast <= *weights.last().expect("a line"));
    assert_eq!((weights.len(), weights.iter().sum()), (steps, total));
}

/// The terms opened where right does not come up, and how far off the next one is.
fn opened<'a>(
    job: &WeighJob,
    distances: &'a HashMap<Term, usize>,
) -> (Vec<&'a Term>, Option<usize>) {
    let mut order: Vec<(usize, &Term)> = distances.iter().map(|(term, &at)| (at, term)).collect();
    order.sort_unstable();
    let next = order.get(job.limits.nodes).map(|(distance, _)| *distance);
    let terms = order.into_iter().map(|(_, term)| term);
    (terms.take(job.limits.nodes).collect(), next)
}

/// The least weight within cost of a path to right whose last line is from one of these.
fn held(job: &WeighJob, distances: &HashMap<Term, usize>, opened: &[&Term]) -> Option<usize> {
    let (_, right) = job.equation.oriented();
    let totals = opened.iter().flat_map(|&term| {
        let found = lines(term).into_iter();
        let found = found.filter(|(_, result)| result == right && keeps(result, &job.limits));
        found.map(|(line, _)| distances[term] + job.weights[line.law])
    });
    totals.filter(|&total| total <= job.cost).min()
}

/// The weights of a path's lines.
fn weights(job: &WeighJob, text: &[u8]) -> Vec<usize> {
    let [derivation] = &derivations(text)[..] else {
        panic!("one path");
    };
    let derivation = Derivation::read(derivation.as_bytes()).expect("its lines are read");
    let lines = derivation.steps.iter();
    lines.map(|line| job.weights[line.law]).collect()
}

/// Each path has its least weight, and every other claim holds that distances decide. Of those that lines lead to
/// within cost there are few enough in most of these jobs.
#[test]
fn every_term_within_cost_is_looked_at() {
    let (mut proved, mut in_hand, mut none, mut cut, mut beyond) = (0, 0, 0, 0, 0);
    for kind in [
        "lightest",
        "detours",
        "far",
        "reach",
        "weigh-edges",
        "c-reach",
        "in-hand",
        "replaced",
        "hand-far",
    ] {
        for (_, job) in jobs(kind, 120) {
            let Some(distances) = distances(&job, 1_500) else {
                beyond += 1;
                continue;
            };
            let block = weigh::block(&job, usize::MAX).expect("slots enough");
            let given = hold(&job, &block.text, &distances);
            match given {
                Said::Proved { .. } => proved += 1,
                Said::AtMost { expanded, .. } => {
                    assert!(expanded < block.noted);
                    in_hand += 1;
                }
                Said::None {
                    expanded,
                    cut: is_cut,
                } => {
                    assert_eq!(is_cut, expanded < block.noted);
                    assert_eq!(is_cut, expanded < distances.len());
                    match is_cut {
                        true => cut += 1,
                        false => none += 1,
                    }
                }
            }
        }
    }
    let counts = [proved, in_hand, none, cut, beyond];
    assert!(counts[..4].iter().all(|&count| count > 60), "{counts:?}");
}

/// With as many slots as terms are noted there is the whole answer, with one fewer there is none.
#[test]
fn slots_are_for_noted_terms() {
    let mut tried = 0;
    for (call, job) in jobs("weigh-slots", 60) {
        let (whole, noted) = plain::whole(Entry::Weigh, &call.job).expect("a good job");
        if noted > 2_000 || job.limits.nodes > 300 {
            continue;
        }
        tried += 1;
        let given = |slots| plain::answer(Entry::Weigh, &call.job, slots, usize::MAX);
        assert_eq!(given(noted), Ok(whole.clone()));
        assert_eq!(given(noted + 1), Ok(whole));
        for slots in [0, noted / 2, noted - 1] {
            assert_eq!(given(slots), Err(7), "{slots} of {noted}");
        }
    }
    assert!(tried > 20, "{tried}");
}
