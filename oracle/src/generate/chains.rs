//! Good chains: those that FIND finds, walks, walks there and back, and lines at deep places.

use std::collections::BTreeSet;

use super::derived::Derived;
use super::plans;
use super::random::Random;
use super::searched;
use super::terms::{letters, term, term_up_to};
use crate::plain::{
    self,
    check::{self, Derivation, GOOD, MOST_CHECK_BYTES, Side, Stated},
    job::{MOST_LETTERS, MOST_NODES},
    law::{LAWS, Piece, put},
    line::{Line, enclosing, lines},
    term::{PRODUCT, SUM, Term, ZERO, part},
};
use crate::{Call, Entry};

/// The three kinds of line from a proved block of FIND.
pub fn found(random: &mut Random) -> Call {
    let derivation = found_chain(random);
    Derived::new(&derivation).call(random)
}

/// Walks of 1 to 40 lines.
pub fn walks(random: &mut Random) -> Call {
    let derivation = walk(random);
    Derived::new(&derivation).call(random)
}

/// Walks there and back, and lines that give back their source.
pub fn returns(random: &mut Random) -> Call {
    let derivation = round_trip(random);
    Derived::new(&derivation).call(random)
}

/// Terms of about 31 nodes, and places as deep as there are.
pub fn deep(random: &mut Random) -> Call {
    let derivation = deep_chain(random);
    Derived::new(&derivation).call(random)
}

/// Room about what the answer needs.
pub fn room(random: &mut Random) -> Call {
    let derivation = chain(random);
    let room = match random.below(3) {
        0 => random.around(GOOD.len()),
        _ => random.below(GOOD.len() + 2),
    };
    Call {
        room,
        ..Derived::new(&derivation).call(random)
    }
}

/// Any good chain.
pub fn chain(random: &mut Random) -> Derivation {
    match random.below(10) {
        0..2 => found_chain(random),
        2..8 => walk(random),
        8 => round_trip(random),
        _ => deep_chain(random),
    }
}

fn found_chain(random: &mut Random) -> Derivation {
    let draft = match random.below(2) {
        0 => searched::draft(random),
        _ => plans::draft(random),
    };
    let (answer, _) = plain::whole(Entry::Find, &draft.bytes()).expect("a good job");
    let proved = check::derivations(&answer);
    if proved.is_empty() {
        return found_chain(random);
    }
    let text = random.pick(&proved);
    Derivation::read(text.as_bytes()).expect("a derivation")
}

/// What a walk keeps to: the size of its terms, and the letters of the terms that it brings in.
struct Bounds {
    size: usize,
    letters: Vec<u16>,
}

fn walk(random: &mut Random) -> Derivation {
    let count = random.pick(&[1, 1, 2, 2, 3, 3, 4, 5, 6, 8, 12, 20, 40]);
    let letters_count = random.pick(&[1, 2, 3, 3, 4, MOST_LETTERS]);
    let bounds = Bounds {
        size: random.pick(&[5, 7, 9, 15, MOST_NODES]),
        letters: letters(random, letters_count),
    };
    let left = term_up_to(random, bounds.size, &bounds.letters);
    walked(random, left, count, &bounds)
}

/// A chain of up to so many lines, as many as the text may have.
fn walked(random: &mut Random, left: Term, count: usize, bounds: &Bounds) -> Derivation {
    let mut right = left.clone();
    let mut steps = Vec::new();
    let mut bytes = 2 * left.show().len() + 200;
    for _ in 0..count {
        let Some(stated) = step(random, &right, bounds) else {
            break;
        };
        bytes += stated.show().len();
        if bytes > MOST_CHECK_BYTES {
            break;
        }
        right = stated.result.clone();
        steps.push(stated);
    }
    Derivation { left, right, steps }
}

/// A line on the term: one that changes it, that brings in a term or that gives back the term.
fn step(random: &mut Random, source: &Term, bounds: &Bounds) -> Option<Stated> {
    let special = match random.below(8) {
        0 => bringing(random, source, bounds),
        1 => keeping(random, source),
        _ => None,
    };
    special
        .or_else(|| changing(random, source, bounds.size))
        .or_else(|| keeping(random, source))
}

/// The line as it is stated.
pub fn stated(source: &Term, line: &Line, result: Term) -> Stated {
    Stated {
        law: line.law,
        forward: line.forward,
        place: place(source, line.at),
        result,
    }
}

/// The place of a node.
fn place(term: &Term, at: usize) -> Vec<Side> {
    let turns = enclosing(term, at).into_iter();
    let sides = turns.map(|turn| if turn.to_left { Side::L } else { Side::R });
    sides.collect()
}

/// A line of a random law that changes the term and keeps the size.
fn changing(random: &mut Random, source: &Term, size: usize) -> Option<Stated> {
    let mut found = lines(source);
    found.retain(|(_, result)| result.size() <= size.max(source.size()));
    if found.is_empty() {
        return None;
    }
    let laws: BTreeSet<usize> = found.iter().map(|(line, _)| line.law).collect();
    let law = random.pick(&Vec::from_iter(laws));
    found.retain(|(line, _)| line.law == law);
    let (line, result) = random.pick(&found);
    Some(stated(source, &line, result))
}

/// A law that takes any term for a letter, used at a 0.
fn bringing(random: &mut Random, source: &Term, bounds: &Bounds) -> Option<Stated> {
    let zeros = (0..source.size()).filter(|&at| source.run()[at] == ZERO);
    let zeros: Vec<usize> = zeros.collect();
    let most = MOST_NODES.saturating_sub(source.size() + 1);
    if zeros.is_empty() || most == 0 {
        return None;
    }
    let at = random.pick(&zeros);
    let laws = (0..LAWS.len()).filter(|&law| LAWS[law].left == [Piece::Node(ZERO)]);
    let law = random.pick(&Vec::from_iter(laws));
    let size = random.pick(&[1, 3, 5, most]).min(most);
    let brought = term_up_to(random, size, &bounds.letters);
    let new = put(LAWS[law].right, &[Some(brought.run()); 3]).expect("bound");
    let run = [&source.run()[..at], &new, &source.run()[at + 1..]].concat();
    let forward = true;
    Some(stated(source, &Line { law, forward, at }, Term::of(run)))
}

/// A sum of equal parts exchanged.
fn keeping(random: &mut Random, source: &Term) -> Option<Stated> {
    let run = source.run();
    let is_even = |at: &usize| {
        let left = || part(run, at + 1);
        run[*at] == SUM && left() == part(run, at + 1 + left().len())
    };
    let even: Vec<usize> = (0..run.len()).filter(is_even).collect();
    if even.is_empty() {
        return None;
    }
    let law = LAWS.iter().position(|law| law.name == "add_comm");
    let line = Line {
        law: law.expect("a law"),
        forward: random.percent(50),
        at: random.pick(&even),
    };
    Some(stated(source, &line, source.clone()))
}

/// A walk and the same lines back; sometimes from a sum of equal parts.
fn round_trip(random: &mut Random) -> Derivation {
    let count = random.pick(&[0, 1, 1, 2, 3, 5, 10, 20]);
    let bounds = Bounds {
        size: random.pick(&[5, 9, 15]),
        letters: letters(random, 3),
    };
    let part = term_up_to(random, bounds.size / 2, &bounds.letters);
    let left = match random.below(2) {
        0 => Term::of([&[SUM], part.run(), part.run()].concat()),
        _ => part,
    };
    let mut steps: Vec<Stated> = keeping(random, &left).into_iter().collect();
    let there = walked(random, left.clone(), count, &bounds);
    let mut back: Vec<Stated> = there.lines().map(turned_round).collect();
    back.reverse();
    steps.extend(there.steps.into_iter().chain(back));
    let right = left.clone();
    let derivation = Derivation { left, right, steps };
    if derivation.steps.is_empty() || derivation.show().len() > MOST_CHECK_BYTES {
        return round_trip(random);
    }
    derivation
}

/// The line that takes a line's result back to its source.
fn turned_round((source, stated): (&Term, &Stated)) -> Stated {
    Stated {
        forward: !stated.forward,
        result: source.clone(),
        ..stated.clone()
    }
}

fn deep_chain(random: &mut Random) -> Derivation {
    let pool = letters(random, 4);
    let mut steps = Vec::new();
    let left = match random.below(3) {
        0 => term(random, MOST_NODES, &pool),
        _ => comb(random, &pool),
    };
    let mut right = left.clone();
    for _ in 0..random.pick(&[1, 2, 3, 6, 12]) {
        let stated = deepest(random, &right);
        right = stated.result.clone();
        steps.push(stated);
    }
    Derivation { left, right, steps }
}

/// A term of 31 nodes, or of 29, as deep as it can be: of 29 its deepest atoms can grow.
fn comb(random: &mut Random, pool: &[u16]) -> Term {
    let inner = term(random, 1, pool).run().to_vec();
    let depth = MOST_NODES / 2 - random.below(2);
    let run = (0..depth).fold(inner, |inner, _| {
        let atom = term(random, 1, pool).run().to_vec();
        let operator = vec![random.pick(&[SUM, PRODUCT])];
        match random.below(2) {
            0 => [operator, inner, atom].concat(),
            _ => [operator, atom, inner].concat(),
        }
    });
    Term::of(run)
}

/// One of the lines with the longest places.
fn deepest(random: &mut Random, source: &Term) -> Stated {
    let found = lines(source).into_iter();
    let found = found.filter(|(_, result)| result.size() <= MOST_NODES);
    let mut found: Vec<Stated> = found
        .map(|(line, result)| stated(source, &line, result))
        .collect();
    found.sort_by_key(|stated| stated.place.len());
    if found.is_empty() {
        return keeping(random, source).expect("a sum or product can be changed");
    }
    let most = random.pick(&[1, 3, 6]).min(found.len());
    let last = found.len() - 1;
    found.swap_remove(last - random.below(most))
}
