//! Every pair of equations between terms of at most three nodes over two v letters, two c letters, 0 and 1: plain's
//! lines, those of the renamings put into the Rust's terms, and the judge of names.

use std::collections::BTreeMap;

use oracle::plain::alike;
use oracle::plain::catalogue::Key;
use oracle::plain::rename::{least_lists, least_sides, term_lines, word_lines};
use oracle::plain::term::{FIRST_C, ONE, ZERO};
use oracle::plain::words::words;
use oracle::rust;

use crate::common::equations;
use crate::kinds::kinds;

const ATOMS: [u16; 6] = [3, 8, FIRST_C, FIRST_C + 1, ZERO, ONE];

#[test]
fn terms() {
    let named = equations(&ATOMS).into_iter().map(|equation| {
        let (left, right) = least_sides(&equation);
        let lines = term_lines(&left, &right);
        assert_eq!(rust::kind_lines(Key::Raw, &equation), lines);
        ([equation.left, equation.right], lines)
    });
    let named: Vec<_> = named.collect();
    let kinds = kinds(&named, |one, other| alike::terms(one, other).either());
    assert_eq!((named.len(), kinds), (6_006, 1_827));
}

#[test]
fn lists() {
    let mut named = BTreeMap::new();
    for equation in equations(&ATOMS) {
        let lists = [&equation.left, &equation.right].map(words);
        let lines = word_lines(least_lists(&equation).as_ref());
        assert_eq!(rust::kind_lines(Key::Words, &equation), lines);
        if lists[0] != lists[1] {
            let known = named.entry(lists).or_insert_with(|| lines.clone());
            assert_eq!(*known, lines);
        }
    }
    let named: Vec<_> = named.into_iter().collect();
    let kinds = kinds(&named, |one, other| alike::lists(one, other).either());
    assert_eq!((named.len(), kinds), (1_332, 391));
}
