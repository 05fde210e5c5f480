//! Which limits can be narrowed, so that a smaller search may end within the nodes.

use crate::job::Job;
use crate::term::Term;

/// Those of size and depth in which a term within the limits can be larger than left and one of these right sides: the others, if
/// narrowed as far as these plans allow, would leave the search as it is. A term of k signs has 2k+1 nodes and is at most k deep; one of
/// depth d has at most 2^d-1 signs.
pub fn wide(job: &Job, rights: &[usize]) -> Vec<&'static str> {
    let sides = job.sides(|right| rights.contains(&right));
    let terms = sides.iter().filter_map(|(_, side)| Term::read(side));
    let terms: Vec<_> = terms.map(|term| [term.size(), term.depth()]).collect();
    let [_, (_, size, _), (_, depth, _), _] = job.limits()[..] else {
        return Vec::new();
    };
    let [left, rights @ ..] = &terms[..] else {
        return Vec::new();
    };
    let signs = (size.saturating_sub(1) / 2).min((1 << depth) - 1);
    let most = [2 * signs + 1, signs.min(depth)];
    let is_wide = |of: usize| {
        let is_below = |term: &[usize; 2]| term[of] < most[of];
        is_below(left) && rights.iter().any(is_below)
    };
    let keys = [(0, "size"), (1, "depth")].into_iter();
    let wide = keys.filter(|&(of, _)| is_wide(of));
    wide.map(|(_, key)| key).collect()
}
