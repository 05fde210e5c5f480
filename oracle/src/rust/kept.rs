//! RENAME where c letters are kept. The Rust's renaming moves every letter, so each renaming of the v letters is put
//! into its terms; orientation, word lists and the order by which the least is found are its own.

use std::collections::{BTreeMap, BTreeSet};

use upstream::{EquationCandidate, NormalizedEquationCandidate, Term};

use super::FIRST_C;
use super::readback::letters;

pub fn has_c(equation: &EquationCandidate) -> bool {
    letters(equation).iter().any(|letter| !is_v(letter))
}

fn is_v(letter: &u32) -> bool {
    *letter < FIRST_C
}

/// The least equation over all renamings of its v letters.
pub fn least_sides(equation: &EquationCandidate) -> EquationCandidate {
    let letters: Vec<u32> = letters(equation).into_iter().filter(is_v).collect();
    let all = orders(&letters).into_iter();
    let all = all.map(|order| renamed(equation, &order));
    all.min().expect("there is a renaming")
}

/// The least word lists over all renamings of the v letters left in them. A letter that is lost may have any name.
pub fn least_lists(equation: &EquationCandidate) -> NormalizedEquationCandidate {
    let lists = |equation: &EquationCandidate| {
        let lists = equation.semiring_normalize();
        lists.expect("the words differ")
    };
    let own = lists(equation);
    let words = [own.lhs(), own.rhs()];
    let words = words.into_iter().flat_map(|list| list.summands());
    let letters: BTreeSet<u32> = words.flat_map(|word| word.factors()).copied().collect();
    let letters: Vec<u32> = letters.into_iter().filter(is_v).collect();
    let all = orders(&letters).into_iter();
    let all = all.map(|order| lists(&renamed(equation, &order)));
    all.min().expect("there is a renaming")
}

/// All orders of these letters: each of them first, then the others in all their orders.
fn orders(letters: &[u32]) -> Vec<Vec<u32>> {
    if letters.is_empty() {
        return vec![Vec::new()];
    }
    let begun = letters.iter().flat_map(|&first| {
        let others = letters.iter().copied().filter(|&letter| letter != first);
        let others = orders(&others.collect::<Vec<_>>()).into_iter();
        others.map(move |others| [vec![first], others].concat())
    });
    begun.collect()
}

/// The equation with 0 for the first letter of the order, 1 for the second and so on.
fn renamed(equation: &EquationCandidate, order: &[u32]) -> EquationCandidate {
    let names: BTreeMap<u32, u32> = order.iter().copied().zip(0..).collect();
    let [left, right] = [equation.lhs(), equation.rhs()].map(|side| put_in(side, &names));
    EquationCandidate::new(left, right).expect("the sides differ")
}

fn put_in(term: &Term, names: &BTreeMap<u32, u32>) -> Term {
    let part = |part: &Term| Box::new(put_in(part, names));
    match term {
        Term::Var(letter) => Term::Var(*names.get(letter).unwrap_or(letter)),
        Term::Add(left, right) => Term::Add(part(left), part(right)),
        Term::Mul(left, right) => Term::Mul(part(left), part(right)),
        constant => constant.clone(),
    }
}
