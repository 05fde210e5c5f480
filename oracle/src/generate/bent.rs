//! Good chains with one thing changed: a field of a line, whole lines, a side, or what a letter stands for.

use super::chains::chain;
use super::derived::Derived;
use super::random::Random;
use super::terms::{letters, term_up_to};
use crate::Call;
use crate::plain::check::{Derivation, Side, Stated, node_at};
use crate::plain::job::MOST_NODES;
use crate::plain::law::{LAWS, Piece};
use crate::plain::line::{Line, lines};
use crate::plain::term::{ONE, PRODUCT, SUM, Term, ZERO, end};

/// One field of one line changed.
pub fn bent(random: &mut Random) -> Call {
    let mut derivation = chain(random);
    let at = any_line(random, &derivation);
    if random.percent(40) {
        derivation.steps.truncate(at + 1);
    }
    bend(random, &mut derivation, at);
    if random.percent(60) {
        end_at_last(&mut derivation);
    }
    Derived::new(&derivation).call(random)
}

/// A line, the first and the last likelier.
fn any_line(random: &mut Random, derivation: &Derivation) -> usize {
    let count = derivation.steps.len();
    match random.below(4) {
        0 => 0,
        1 => count - 1,
        _ => random.below(count),
    }
}

/// The last result becomes the right side.
fn end_at_last(derivation: &mut Derivation) {
    let last = derivation.steps.last().expect("a line");
    derivation.right = last.result.clone();
}

/// Changes the law, the direction, the place or the result of a line.
pub fn bend(random: &mut Random, derivation: &mut Derivation, at: usize) {
    match random.below(10) {
        0 | 1 => {
            let law = &mut derivation.steps[at].law;
            *law = (*law + random.between(1, LAWS.len() - 1)) % LAWS.len();
        }
        2 => derivation.steps[at].forward ^= true,
        3..6 => bend_place(random, &mut derivation.steps[at].place),
        _ => derivation.steps[at].result = other_result(random, derivation, at),
    }
}

/// Another place: longer, shorter, with another side, the root, or one that no term has.
fn bend_place(random: &mut Random, place: &mut Vec<Side>) {
    let side = random.pick(&[Side::L, Side::R]);
    match random.below(7) {
        0 => place.push(side),
        1 => place.insert(0, side),
        2 => drop(place.pop()),
        3 => place.clear(),
        4 | 5 if !place.is_empty() => {
            let at = random.below(place.len());
            place[at] = match place[at] {
                Side::L => Side::R,
                Side::R => Side::L,
            };
        }
        _ => {
            let length = random.pick(&[1, 15, 16, 31, 32, 255, 256, 1_000]);
            *place = (0..length)
                .map(|_| random.pick(&[Side::L, Side::R]))
                .collect();
        }
    }
}

/// One item changed, anywhere or beside the place, the result of another line, the source, or another result of
/// any law or of the same.
fn other_result(random: &mut Random, derivation: &Derivation, at: usize) -> Term {
    let (source, stated) = derivation.lines().nth(at).expect("a line");
    let result = &stated.result;
    let is_of_law = |line: &Line| line.law == stated.law && line.forward == stated.forward;
    match random.below(8) {
        0..2 => item_changed(random, result),
        2..4 => changed_beside(random, result, &stated.place),
        4 => random.pick(&derivation.steps).result,
        5 => source.clone(),
        6 => one_result(random, source, |_| true),
        _ => one_result(random, source, is_of_law),
    }
}

/// A result of one of these lines; the source if there is none.
fn one_result(random: &mut Random, source: &Term, is_meant: impl Fn(&Line) -> bool) -> Term {
    let mut found = lines(source);
    found.retain(|(line, result)| is_meant(line) && result.size() <= MOST_NODES);
    match found.is_empty() {
        true => source.clone(),
        false => random.pick(&found).1,
    }
}

/// The term with another item in one place.
pub fn item_changed(random: &mut Random, term: &Term) -> Term {
    let at = random.below(term.size());
    changed_at(random, term, at)
}

/// The term with another item that is not in the part at this place, if there is one.
fn changed_beside(random: &mut Random, term: &Term, place: &[Side]) -> Term {
    let run = term.run();
    let part = node_at(run, place).map(|at| at..end(run, at));
    let is_beside = |at: &usize| part.as_ref().is_some_and(|part| !part.contains(at));
    let beside: Vec<usize> = (0..run.len()).filter(is_beside).collect();
    match beside.is_empty() {
        true => item_changed(random, term),
        false => {
            let at = random.pick(&beside);
            changed_at(random, term, at)
        }
    }
}

/// The term with another operator or atom here.
fn changed_at(random: &mut Random, term: &Term, at: usize) -> Term {
    let mut run = term.run().to_vec();
    let held: Vec<u16> = term.letters().collect();
    run[at] = match run[at] {
        SUM => PRODUCT,
        PRODUCT => SUM,
        _ if held.is_empty() || random.percent(30) => random.pick(&[ZERO, ONE]),
        _ => random.pick(&held),
    };
    Term::of(run)
}

/// Whole lines dropped, exchanged, repeated or turned round, or a side changed.
pub fn torn(random: &mut Random) -> Call {
    let mut derivation = chain(random);
    tear(random, &mut derivation);
    Derived::new(&derivation).call(random)
}

pub fn tear(random: &mut Random, derivation: &mut Derivation) {
    let count = derivation.steps.len();
    let (one, other) = (random.below(count), random.below(count));
    match random.below(12) {
        0 => drop(derivation.steps.pop()),
        1 => drop(derivation.steps.remove(0)),
        2 => drop(derivation.steps.remove(one)),
        3 => derivation.steps.swap(one, other),
        4 => derivation
            .steps
            .insert(other, derivation.steps[one].clone()),
        5 => derivation.steps.reverse(),
        6 => derivation.left = item_changed(random, &derivation.left),
        7 => derivation.right = item_changed(random, &derivation.right),
        8 => std::mem::swap(&mut derivation.left, &mut derivation.right),
        9 => derivation.right = derivation.steps[one].result.clone(),
        10 => derivation.left = derivation.steps[one].result.clone(),
        _ => derivation.steps.extend(chain_of_few(random)),
    }
}

/// Lines that most often do not go on where the others end.
fn chain_of_few(random: &mut Random) -> Vec<Stated> {
    let mut steps = chain(random).steps;
    steps.truncate(3);
    steps
}

/// One line of a law in which one occurrence of a letter stands for another term than the others.
pub fn twofold(random: &mut Random) -> Call {
    let law = random.below(LAWS.len());
    let forward = random.percent(50);
    let (from, to) = LAWS[law].sides(forward);
    let pool = letters(random, 3);
    let parts = [(); 3].map(|()| term_up_to(random, 3, &pool));
    let other = term_up_to(random, 3, &pool);
    let is_letter = |piece: &&Piece| matches!(piece, Piece::Letter(_));
    let occurrences = from.iter().chain(to).filter(is_letter).count();
    let mut odd = random.percent(80).then(|| random.below(occurrences));
    let [mut source, mut result] = [from, to].map(|side| put_apart(side, &parts, &other, &mut odd));
    let mut place = Vec::new();
    for _ in 0..random.below(3) {
        let sibling = term_up_to(random, 3, &pool);
        let side = random.pick(&[Side::L, Side::R]);
        let operator = random.pick(&[SUM, PRODUCT]);
        for run in [&mut source, &mut result] {
            *run = joined(operator, side, run, sibling.run());
        }
        place.insert(0, side);
    }
    let result = Term::of(result);
    let derivation = Derivation {
        left: Term::of(source),
        right: result.clone(),
        steps: vec![Stated {
            law,
            forward,
            place,
            result,
        }],
    };
    Derived::new(&derivation).call(random)
}

/// A side with terms put in; the odd occurrence of a letter, counted down, gets the other term.
fn put_apart(side: &[Piece], parts: &[Term; 3], other: &Term, odd: &mut Option<usize>) -> Vec<u16> {
    let mut run = Vec::new();
    for piece in side {
        match *piece {
            Piece::Node(code) => run.push(code),
            Piece::Letter(letter) => {
                let is_odd = *odd == Some(0);
                *odd = odd.and_then(|left| left.checked_sub(1));
                let term = if is_odd { other } else { &parts[letter] };
                run.extend_from_slice(term.run());
            }
        }
    }
    run
}

/// A node with the run at this side.
fn joined(operator: u16, side: Side, run: &[u16], sibling: &[u16]) -> Vec<u16> {
    match side {
        Side::L => [&[operator], run, sibling].concat(),
        Side::R => [&[operator], sibling, run].concat(),
    }
}
