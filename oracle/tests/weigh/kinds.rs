//! Every kind makes what it says.

use std::collections::BTreeSet;

use oracle::plain;
use oracle::plain::job::Limits;
use oracle::plain::search::search;
use oracle::plain::weigh::job::{MOST_COST, WeighJob};
use oracle::plain::weigh::said::{Said, said};
use oracle::plain::weigh::search::weigh;

use super::{answer, jobs, made};

/// The refusals that calls of this kind are given; 0 for an answer.
fn numbers(kind: &str) -> BTreeSet<u8> {
    let calls = made(kind, 300).into_iter();
    calls.map(|call| answer(&call).err().unwrap_or(0)).collect()
}

#[test]
fn refusals_come_from_their_kinds() {
    assert!(numbers("weigh-slots").is_superset(&BTreeSet::from([0, 7, 8])));
    assert_eq!(numbers("weigh-room"), BTreeSet::from([0, 8]));
    assert!(numbers("ranges").is_superset(&BTreeSet::from([0, 5, 16])));
    assert!(numbers("weigh-lines").is_superset(&BTreeSet::from([1])));
    assert!(numbers("weigh-wrong").is_superset(&BTreeSet::from([1, 2, 3, 4, 5, 6, 16])));
    assert!(numbers("weigh-sides").is_superset(&BTreeSet::from([0, 2, 3, 4, 6])));
    assert!(numbers("weigh-bytes").is_superset(&BTreeSet::from([1, 2, 5, 16])));
    assert!(numbers("harmed").is_superset(&BTreeSet::from([0, 1, 2, 16])));
}

/// The lines of FIND's path with as many steps as cost, if there is one.
fn fewest(job: &WeighJob) -> Option<usize> {
    let (left, right) = job.equation.oriented();
    let limits = Limits {
        steps: job.cost,
        ..job.limits
    };
    let outcome = search(left, right, &limits, usize::MAX).expect("slots enough");
    outcome.path.map(|path| path.len())
}

/// The lightest path often has more lines than the shortest.
#[test]
fn detours_are_taken() {
    let mut longer = 0;
    for (_, job) in jobs("detours", 200) {
        let weighed = weigh(&job, usize::MAX).expect("slots enough");
        let Some((path, _)) = weighed.proved() else {
            continue;
        };
        let fewest = fewest(&job).expect("FIND has a path too");
        assert!(fewest <= path.len());
        longer += usize::from(fewest < path.len());
    }
    assert!(longer > 20, "{longer}");
}

/// Slots at the number noted, one fewer, one more.
#[test]
fn slots_are_about_the_number_noted() {
    let mut counts = [0; 3];
    for (call, _) in jobs("weigh-slots", 200) {
        let (_, noted) = plain::whole(call.entry, &call.job).expect("a good job");
        if let Some(count) = counts.get_mut((call.slots + 1).wrapping_sub(noted)) {
            *count += 1;
        }
    }
    assert!(counts.iter().all(|&count| count > 15), "{counts:?}");
}

/// Weights of 1 and 9, costs at both ends, and totals of two digits.
#[test]
fn the_ranges_are_met() {
    let (mut costs, mut weights, mut most) = (BTreeSet::new(), BTreeSet::new(), 0);
    for kind in ["lightest", "far", "ranges", "reach"] {
        for (_, job) in jobs(kind, 300) {
            costs.insert(job.cost);
            weights.extend(job.weights);
            let weighed = weigh(&job, usize::MAX).expect("slots enough");
            most = most.max(weighed.proved().map_or(0, |(_, total)| total));
        }
    }
    assert_eq!(weights, (1..=9).collect());
    assert_eq!(
        (costs.first(), costs.last()),
        (Some(&0), Some(&(MOST_COST as usize)))
    );
    assert!(costs.len() > 60 && most > 30, "{} {most}", costs.len());
}

/// Nodes one fewer than the terms within cost: cut; as many or one more: not cut.
#[test]
fn nones_are_about_the_edge_of_cut() {
    let (mut cut, mut uncut, mut full) = (0, 0, 0);
    for (call, job) in jobs("reach", 300) {
        let (text, _) = plain::whole(call.entry, &call.job).expect("a good job");
        let Said::None {
            expanded,
            cut: is_cut,
        } = said(&text)
        else {
            continue;
        };
        cut += usize::from(is_cut);
        uncut += usize::from(!is_cut);
        full += usize::from(!is_cut && expanded == job.limits.nodes);
    }
    assert!(
        [cut, uncut, full].iter().all(|&count| count > 50),
        "{cut} {uncut} {full}"
    );
}
