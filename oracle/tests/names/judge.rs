//! Cases for the judge of terms and of word lists, each put from both ends.

use oracle::plain::alike::{self, Alike};
use oracle::plain::term::Term;
use oracle::plain::words::words;

const NOT: Alike = alike(false, false);
const AS_IS: Alike = alike(true, false);
const EXCHANGED: Alike = alike(false, true);
const BOTH: Alike = alike(true, true);

const fn alike(as_is: bool, exchanged: bool) -> Alike {
    Alike { as_is, exchanged }
}

/// The sides of two equations, and how they, or their word lists, are alike.
type Case = ([&'static str; 2], [&'static str; 2], Alike);

fn sides(texts: [&str; 2]) -> [Term; 2] {
    texts.map(|text| Term::read(text.as_bytes()).expect("a term"))
}

fn hold_terms(cases: &[Case]) {
    for &(one, other, due) in cases {
        let [first, last] = [one, other].map(sides);
        assert_eq!(alike::terms(&first, &last), due, "{one:?} {other:?}");
        assert_eq!(alike::terms(&last, &first), due, "{other:?} {one:?}");
    }
}

fn hold_lists(cases: &[Case]) {
    for &(one, other, due) in cases {
        let [first, last] = [one, other].map(|texts| sides(texts).each_ref().map(words));
        assert_eq!(alike::lists(&first, &last), due, "{one:?} {other:?}");
        assert_eq!(alike::lists(&last, &first), due, "{other:?} {one:?}");
    }
}

#[rustfmt::skip]
const RENAMED_TERMS: [Case; 12] = [
    (["v0", "+ v0 0"], ["v7", "+ v7 0"], AS_IS),
    (["v0", "+ v0 0"], ["+ v999 0", "v999"], EXCHANGED),
    (["0", "1"], ["0", "1"], AS_IS),
    (["0", "1"], ["1", "0"], EXCHANGED),
    // letters exchanged with each other, and moved on
    (["* v0 v1", "v0"], ["* v1 v0", "v1"], AS_IS),
    (["+ v0 * v1 v2", "v0"], ["+ v1 * v2 v0", "v1"], AS_IS),
    (["+ v0 + v1 + v2 + v3 + v4 v5", "v4"], ["+ v5 + v40 + v3 + v999 + v1 v0", "v1"], AS_IS),
    (["+ v0 + v1 + v2 + v3 + v4 v5", "v4"], ["v1", "+ v5 + v40 + v3 + v999 + v1 v0"], EXCHANGED),
    // a renaming that keeps the equation exchanges its sides
    (["v0", "v1"], ["v5", "v3"], BOTH),
    (["+ v0 v1", "+ v1 v0"], ["+ v9 v2", "+ v2 v9"], BOTH),
    (["* v0 v1", "* v2 v3"], ["* v3 v2", "* v1 v0"], BOTH),
    (["* v0 v1", "* v1 v2"], ["* v0 v1", "* v1 v2"], AS_IS),
];

#[rustfmt::skip]
const OTHER_TERMS: [Case; 11] = [
    // two letters made one: there is a map from the one end, but not one to one
    (["+ v0 v1", "v0"], ["+ v2 v2", "v2"], NOT),
    (["v0", "+ v0 v1"], ["v0", "+ v0 v0"], NOT),
    // one map for both sides
    (["+ v0 v1", "* v0 v1"], ["+ v0 v1", "* v1 v0"], NOT),
    (["v0", "+ v0 0"], ["v0", "+ v1 0"], NOT),
    // no letter for 0 or 1, no other operator, no other shape
    (["v0", "0"], ["v0", "1"], NOT),
    (["v0", "+ v0 0"], ["v0", "+ v0 v1"], NOT),
    (["v0", "+ v0 v1"], ["v0", "* v0 v1"], NOT),
    (["v0", "+ v0 + v1 v2"], ["v0", "+ + v0 v1 v2"], NOT),
    // one side is a beginning of the other, or has the same words
    (["v0", "v1"], ["v0", "+ v1 v2"], NOT),
    (["v0", "+ v1 v2"], ["v0", "+ v1 + v2 0"], NOT),
    (["v0", "* 1 v1"], ["v0", "* v1 1"], NOT),
];

#[rustfmt::skip]
const RENAMED_LISTS: [Case; 10] = [
    // sorted anew: v0 becomes v9
    (["+ v0 v1", "* v0 v1"], ["+ v4 v9", "* v9 v4"], AS_IS),
    (["+ v0 v1", "* v0 v1"], ["* v9 v4", "+ v4 v9"], EXCHANGED),
    (["v0", "v1"], ["v7", "v3"], BOTH),
    // other terms with the same words, a letter lost where 0 multiplies, repeats
    (["v0", "* v1 + v0 1"], ["+ 0 v2", "+ v5 * v5 v2"], AS_IS),
    (["* 0 v5", "v0"], ["0", "v3"], AS_IS),
    (["+ v0 + v0 v1", "v1"], ["v0", "+ v1 + v1 v0"], EXCHANGED),
    // several renamings make it
    (["+ v0 + v1 v2", "* + v0 + v1 v2 + v0 + v1 v2"], ["+ v8 + v6 v7", "* + v7 + v6 v8 + v8 + v6 v7"], AS_IS),
    (["+ * v0 v1 * v2 v3", "+ * v0 v2 * v1 v3"], ["+ * v1 v2 * v3 v0", "+ * v3 v1 * v0 v2"], BOTH),
    // the words agree
    (["v0", "+ v0 0"], ["* 1 v4", "v4"], BOTH),
    (["0", "* 0 0"], ["* v1 0", "0"], BOTH),
];

/// A c letter is its own partner, and no v letter's.
#[rustfmt::skip]
const C_TERMS: [Case; 10] = [
    (["* c1 v0", "v0"], ["* c1 v7", "v7"], AS_IS),
    (["* c1 v0", "v0"], ["v7", "* c1 v7"], EXCHANGED),
    (["* c1 v0", "v0"], ["* c2 v0", "v0"], NOT),
    (["* c1 v0", "v0"], ["* v1 v0", "v0"], NOT),
    (["* c1 v0", "v0"], ["* v0 c1", "c1"], NOT),
    (["c0", "c1"], ["c0", "c1"], AS_IS),
    (["c0", "c1"], ["c1", "c0"], EXCHANGED),
    (["c0", "c1"], ["c0", "c2"], NOT),
    (["+ v0 c0", "+ c0 v1"], ["+ v1 c0", "+ c0 v0"], AS_IS),
    (["+ v0 c0", "+ v1 c0"], ["+ v3 c0", "+ v9 c0"], BOTH),
];

#[rustfmt::skip]
const C_LISTS: [Case; 9] = [
    (["+ c0 * v1 c0", "v1"], ["+ * v4 c0 c0", "v4"], AS_IS),
    (["+ c0 v1", "v1"], ["v2", "+ v2 c0"], EXCHANGED),
    (["+ c0 v1", "v1"], ["+ c1 v1", "v1"], NOT),
    (["+ c0 v1", "v1"], ["+ v0 v1", "v1"], NOT),
    (["+ v0 v1", "v1"], ["+ c0 v1", "v1"], NOT),
    (["+ c0 v1", "v1"], ["+ c0 v1", "c0"], NOT),
    (["c0", "c1"], ["c1", "c0"], EXCHANGED),
    // a c letter that is lost, and words that agree
    (["+ v0 * 0 c1", "1"], ["v9", "+ 1 * c2 0"], AS_IS),
    (["c0", "+ c0 0"], ["c0", "* 1 c0"], BOTH),
];

#[rustfmt::skip]
const OTHER_LISTS: [Case; 7] = [
    (["+ v0 v0", "1"], ["v0", "1"], NOT),
    (["0", "v0"], ["1", "v0"], NOT),
    (["+ v0 v1", "v0"], ["+ v0 v0", "v0"], NOT),
    (["+ v0 + v0 v1", "v1"], ["+ v0 + v1 v1", "v1"], NOT),
    // each list by itself is alike, by another renaming
    (["+ v0 * v0 v1", "v0"], ["+ v0 * v0 v1", "v1"], NOT),
    // each letter as often, in other words
    (["+ * v0 v1 * v2 v3", "+ * v0 v2 * v1 v3"], ["+ * v0 v1 * v2 v3", "+ * v0 v2 * v3 v1"], NOT),
    // words that agree, and words that do not
    (["v0", "+ v0 0"], ["v0", "v1"], NOT),
];

#[test]
fn terms_are_alike_by_a_renaming() {
    hold_terms(&RENAMED_TERMS);
}

#[test]
fn near_misses_of_terms() {
    hold_terms(&OTHER_TERMS);
}

#[test]
fn lists_are_alike_by_a_renaming() {
    hold_lists(&RENAMED_LISTS);
}

#[test]
fn near_misses_of_lists() {
    hold_lists(&OTHER_LISTS);
}

#[test]
fn c_letters_stay() {
    hold_terms(&C_TERMS);
    hold_lists(&C_LISTS);
}
