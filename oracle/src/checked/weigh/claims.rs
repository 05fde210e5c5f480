//! What is claimed of WEIGH's answers, held to how far terms are from left by the Rust's lines. No order of noting and no
//! parent is in it: distances are lowered until nothing changes, and only as far as the answer says.

use std::collections::{HashMap, HashSet, VecDeque};

use crate::plain::check::{Derivation, Stated, derivations, parts};
use crate::plain::term::Term;
use crate::plain::weigh::said::{Said, said};
use crate::rust::weigh::{Known, put_in_order};

/// Terms with their distances, the least weights of paths to them.
type Distances = HashMap<Term, usize>;

/// What does not hold that should.
type Broken = &'static str;

/// The claim that an answer breaks, if it breaks one. Of a none that is cut `next` says how far off the first unopened
/// term is, which the answer does not tell.
pub fn broken(known: &mut Known, text: &[u8], next: Option<usize>) -> Option<Broken> {
    let given = said(text);
    let held = match given {
        Said::Proved { .. } => hold_proved(known, text, &given),
        Said::AtMost { .. } => hold_in_hand(known, text, &given),
        Said::None { expanded, cut } if cut => hold_cut(known, expanded, next),
        Said::None { expanded, .. } => hold_uncut(known, expanded),
    };
    held.err()
}

/// Says what is broken unless it holds.
fn hold(holds: bool, what: Broken) -> Result<(), Broken> {
    if holds { Ok(()) } else { Err(what) }
}

/// Right is as far off as the path is heavy, and as many terms were opened as come before it.
fn hold_proved(known: &mut Known, text: &[u8], given: &Said) -> Result<(), Broken> {
    let (expanded, total) = (given.expanded(), given.total().expect("it has a path"));
    let right = right(known);
    let near = within(known, total)?;
    hold(near.get(&right) == Some(&total), "no path weighs less")?;
    let (mut layer, nearer) = layer(&near, total);
    put_in_order(&mut layer);
    let before = layer.iter().take_while(|&term| *term != right).count();
    let is_told = nearer.len() + before == expanded;
    let nodes = known.job.limits.nodes;
    hold(
        is_told && expanded <= nodes,
        "as many are opened as come before right",
    )?;
    hold_path(known, text, given, &near)
}

/// As many terms were opened as may be, the next is as far off as no path is lighter than, and the path is the lightest
/// of those whose last line is from an opened term.
fn hold_in_hand(known: &mut Known, text: &[u8], given: &Said) -> Result<(), Broken> {
    let &Said::AtMost {
        total,
        atleast,
        expanded,
        ..
    } = given
    else {
        unreachable!("it is an atmost");
    };
    hold(expanded == known.job.limits.nodes, "nodes have run out")?;
    hold(atleast <= total, "the path is no lighter than is said")?;
    let opened = opened(known, atleast)?;
    hold(
        held(known, &opened) == Some(total),
        "the path is the lightest in hand",
    )?;
    hold_path(known, text, given, &opened)
}

/// As many terms were opened as may be, and no line from one of them leads to right within cost.
fn hold_cut(known: &mut Known, expanded: usize, next: Option<usize>) -> Result<(), Broken> {
    hold(expanded == known.job.limits.nodes, "nodes have run out")?;
    let next = next.ok_or("a noted term is left unopened")?;
    let opened = opened(known, next)?;
    hold(held(known, &opened).is_none(), "right was never noted")
}

/// All terms that paths of at most cost lead to were opened, and right is none of them.
fn hold_uncut(known: &mut Known, expanded: usize) -> Result<(), Broken> {
    let all = within(known, known.job.cost)?;
    hold(
        !all.contains_key(&right(known)),
        "each path weighs more than cost",
    )?;
    let is_all = all.len() == expanded && expanded <= known.job.limits.nodes;
    hold(is_all, "all terms within cost are opened")
}

fn right(known: &Known) -> Term {
    known.job.equation.oriented().1.clone()
}

/// The terms that paths of at most this weight lead to. Those of less weight are no more than nodes.
fn within(known: &mut Known, most: usize) -> Result<Distances, Broken> {
    let left = known.job.equation.oriented().0;
    let nodes = known.job.limits.nodes;
    let mut distances = HashMap::from([(left.clone(), 0)]);
    let mut lowered = VecDeque::from([left.clone()]);
    let mut nearer = HashSet::new();
    while let Some(term) = lowered.pop_front() {
        let distance = distances[&term];
        if distance >= most {
            continue;
        }
        nearer.insert(term.clone());
        hold(nearer.len() <= nodes, "no more than nodes are nearer")?;
        for (result, weight) in known.results(&term) {
            let total = distance + weight;
            let is_lower = distances.get(result).is_none_or(|&former| total < former);
            if total <= most && is_lower {
                distances.insert(result.clone(), total);
                lowered.push_back(result.clone());
            }
        }
    }
    Ok(distances)
}

/// The terms at a distance, and the others.
fn layer(distances: &Distances, distance: usize) -> (Vec<Term>, Distances) {
    let (layer, others): (Distances, Distances) = distances
        .clone()
        .into_iter()
        .partition(|(_, own)| *own == distance);
    (layer.into_keys().collect(), others)
}

/// The terms opened where nodes ran out and the first that waits is this far off: all that are nearer, and as many of its
/// layer as nodes are left. The first that waits is not right.
fn opened(known: &mut Known, next: usize) -> Result<Distances, Broken> {
    let right = right(known);
    let near = within(known, next)?;
    let (mut layer, mut opened) = layer(&near, next);
    put_in_order(&mut layer);
    let left = known.job.limits.nodes - opened.len();
    let first = layer.get(left).ok_or("a term with the least total waits")?;
    hold(*first != right, "right does not come next")?;
    opened.extend(layer.into_iter().take(left).map(|term| (term, next)));
    hold(
        !opened.contains_key(&right),
        "no path is lighter than is said",
    )?;
    Ok(opened)
}

/// The least weight, of at most cost, of a path to right whose last line is from one of these.
fn held(known: &mut Known, opened: &Distances) -> Option<usize> {
    let right = right(known);
    let mut least = None;
    for (term, distance) in opened {
        let results = known.results(term).iter();
        let results = results.filter(|(result, _)| *result == right);
        let totals = results.map(|(_, weight)| distance + weight);
        least = totals.chain(least).min();
    }
    least.filter(|&total| total <= known.job.cost)
}

/// Each line is one of the Rust's, from left to right, on a term whose distance is what the lines before it weigh.
fn hold_path(
    known: &Known,
    text: &[u8],
    given: &Said,
    distances: &Distances,
) -> Result<(), Broken> {
    let lines = lines(text).ok_or("its lines are those of a derivation")?;
    let (left, right) = known.job.equation.oriented();
    let (mut at, mut weight) = (left, 0);
    for (source, stated) in &lines {
        hold(source == at, "a line is on the term before it")?;
        hold(
            distances.get(at) == Some(&weight),
            "a line is on an opened term at its distance",
        )?;
        hold(
            known.is_own(at, stated),
            "a line is one of the Rust's within size and depth",
        )?;
        weight += known.job.weights[stated.law];
        at = &stated.result;
    }
    hold(at == right, "the path ends with right")?;
    hold(
        given.steps() == Some(lines.len()),
        "there are as many lines as is said",
    )?;
    let is_sum = given.total() == Some(weight) && weight <= known.job.cost;
    hold(is_sum, "the lines weigh in all what is said, at most cost")
}

/// The lines of an answer's path, each with the term before it.
fn lines(text: &[u8]) -> Option<Vec<(Term, Stated)>> {
    let mut all = Vec::new();
    for part in derivations(text).iter().flat_map(|text| parts(text)) {
        let derivation = Derivation::read(part.as_bytes()).ok()?;
        let lines = derivation.lines();
        all.extend(lines.map(|(source, stated)| (source.clone(), stated.clone())));
    }
    Some(all)
}
