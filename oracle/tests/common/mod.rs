//! All small equations over some atoms.

use oracle::plain::job::Equation;
use oracle::plain::term::{PRODUCT, SUM, Term};

/// Every equation of two different terms of at most three nodes over these atoms.
pub fn equations(atoms: &[u16]) -> Vec<Equation> {
    let larger = [SUM, PRODUCT].into_iter().flat_map(|node| {
        let parts = atoms
            .iter()
            .flat_map(|left| atoms.iter().map(move |right| [*left, *right]));
        parts.map(move |[left, right]| Term::of(vec![node, left, right]))
    });
    let alone = atoms.iter().map(|atom| Term::of(vec![*atom]));
    let terms: Vec<Term> = alone.chain(larger).collect();
    let pairs = terms.iter().flat_map(|left| {
        let others = terms.iter().filter(move |right| left != *right);
        others.map(|right| Equation {
            left: left.clone(),
            right: right.clone(),
        })
    });
    pairs.collect()
}
