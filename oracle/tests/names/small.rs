//! Every pair of equations between terms of at most three nodes over three letters, 0 and 1, by the Rust's lines.

use std::collections::BTreeMap;

use oracle::plain::alike;
use oracle::plain::catalogue::Key;
use oracle::plain::term::{ONE, Term, ZERO};
use oracle::plain::words::words;
use oracle::rust;

use crate::common::equations;
use crate::kinds::kinds;

const ATOMS: [u16; 5] = [0, 1, 2, ZERO, ONE];

#[test]
fn terms() {
    let equations = equations(&ATOMS);
    let named = equations.iter().map(|equation| {
        let sides = [&equation.left, &equation.right].map(Term::clone);
        (sides, rust::kind_lines(Key::Raw, equation))
    });
    let named: Vec<_> = named.collect();
    let kinds = kinds(&named, |one, other| alike::terms(one, other).either());
    assert_eq!((named.len(), kinds), (2_970, 376));
}

/// Lists that differ; a pair of them gets the same lines wherever it comes up.
#[test]
fn lists() {
    let mut named = BTreeMap::new();
    for equation in equations(&ATOMS) {
        let lists = [&equation.left, &equation.right].map(words);
        let lines = rust::kind_lines(Key::Words, &equation);
        if lists[0] != lists[1] {
            let known = named.entry(lists).or_insert_with(|| lines.clone());
            assert_eq!(*known, lines);
        }
    }
    let named: Vec<_> = named.into_iter().collect();
    let kinds = kinds(&named, |one, other| alike::lists(one, other).either());
    assert_eq!((named.len(), kinds), (552, 65));
}
