//! The Rust sources that Puvainy is compared with, compiled from the folder that holds them.

include!(concat!(env!("OUT_DIR"), "/upstream.rs"));

/// Whether a law's left side matches the first term and, with the same terms put in, its right side the second.
/// The laws and the matching are the Rust's.
#[must_use]
pub fn matches_both(axiom: SemiringAxiom, left: &Term, right: &Term) -> bool {
    let (lhs, rhs, arity) = axiom.specification();
    let mut substitution = vec![None; arity];
    search::match_pattern(&lhs, left, &mut substitution)
        && search::match_pattern(&rhs, right, &mut substitution)
}
