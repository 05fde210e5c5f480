//! What the Rust says of a derivation: whether a line is one by its laws and its matching, its own line between
//! two terms, and whether the ends have the same words.

use upstream::{
    BoundedRewriteResult, DIRECT_AXIOMS, EquationCandidate, RewriteSearchLimits,
    SemiringNormalForm, Term, matches_both, search_bounded_rewrite,
};

use super::{readback, tree};
use crate::plain::check::{Side, Stated};
use crate::plain::job::MOST_NODES;
use crate::plain::law::LAWS;
use crate::plain::term::Term as Run;

/// One line, whatever the terms are.
const ONE_LINE: RewriteSearchLimits = RewriteSearchLimits {
    max_steps: 1,
    max_term_size: MOST_NODES,
    max_term_depth: MOST_NODES,
    max_nodes: 1,
};

/// Whether the stated line is one on this term, by the Rust's laws and its matching.
pub fn is_line(source: &Run, stated: &Stated) -> bool {
    let (old, new) = (tree(source.run()), tree(stated.result.run()));
    let Some((old, new)) = parts_at(&stated.place, &old, &new) else {
        return false;
    };
    let name = LAWS[stated.law].name;
    let mut laws = DIRECT_AXIOMS.into_iter().filter(|law| law.name() == name);
    let law = laws.next().expect("both have the same laws");
    let (left, right) = if stated.forward {
        (old, new)
    } else {
        (new, old)
    };
    matches_both(law, left, right)
}

/// What stands at a place in both terms, if it is in both and the rest of them is the same.
fn parts_at<'a>(place: &[Side], old: &'a Term, new: &'a Term) -> Option<(&'a Term, &'a Term)> {
    let Some((side, place)) = place.split_first() else {
        return Some((old, new));
    };
    let (old, new) = match (old, new) {
        (Term::Add(a, b), Term::Add(c, d)) | (Term::Mul(a, b), Term::Mul(c, d)) => ((a, b), (c, d)),
        _ => return None,
    };
    match side {
        Side::L if old.1 == new.1 => parts_at(place, old.0, new.0),
        Side::R if old.0 == new.0 => parts_at(place, old.1, new.1),
        _ => None,
    }
}

/// The Rust's own line between two different terms, if its search finds one; the source is the smaller of them.
pub fn own_line(one: &Run, other: &Run) -> Option<String> {
    let equation = EquationCandidate::new(tree(one.run()), tree(other.run()));
    let equation = equation.expect("the terms differ");
    let Ok(result) = search_bounded_rewrite("oracle", &equation, ONE_LINE);
    match result {
        BoundedRewriteResult::Proved(proof) => {
            Some(readback::step_lines(proof.proof_term(), &equation))
        }
        BoundedRewriteResult::NotProved { .. } => None,
    }
}

/// Whether two terms have the same words.
pub fn have_same_words(one: &Run, other: &Run) -> bool {
    let [one, other] = [one, other].map(|term| SemiringNormalForm::from_term(&tree(term.run())));
    one == other
}
