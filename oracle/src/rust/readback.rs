//! The `step` lines read back from the Rust's proof text, since the Rust gives no path.

use std::collections::BTreeSet;

use upstream::{EquationCandidate, Term};

use super::{show, show_letter};

/// A proof text as a tree: a reference applied to arguments, under lambdas, the outermost first.
struct Proof<'a> {
    binders: Vec<&'a str>,
    head: &'a str,
    arguments: Vec<Proof<'a>>,
}

/// One `step` line for each line of the path.
pub fn step_lines(text: &str, equation: &EquationCandidate) -> String {
    let mut rest = text;
    let proof = read(&mut rest);
    assert!(rest.is_empty(), "the proof text goes on: {rest}");
    let letters = letters(equation);
    assert_eq!(proof.binders.len(), letters.len(), "one lambda a letter");

    let mut lines = Vec::new();
    let mut target = show(equation.rhs());
    let mut joined = &proof;
    while let ("eq_trans", [_, middle, _, first, last]) = joined.taken() {
        lines.push(step_line(last, &target));
        target = show_term(middle, &letters);
        joined = first;
    }
    lines.push(step_line(joined, &target));
    lines.reverse();
    lines.concat()
}

fn step_line(proof: &Proof, target: &str) -> String {
    let mut place = String::new();
    let mut inner = proof;
    while let ("eq_ap", [function, _, _, lifted]) = inner.taken() {
        let hole_first = function.arguments[0].head == "hole";
        place.push(if hole_first { 'l' } else { 'r' });
        inner = lifted;
    }
    if place.is_empty() {
        place.push('.');
    }
    let (law, direction) = match inner.taken() {
        ("eq_symm", [_, _, law]) => (law.head, "back"),
        (law, _) => (law, "forward"),
    };
    format!("step={law} {direction} at={place} to={target}\n")
}

impl Proof<'_> {
    fn taken(&self) -> (&str, &[Self]) {
        (self.head, &self.arguments)
    }
}

/// The equation's letters, rising.
pub fn letters(equation: &EquationCandidate) -> Vec<u32> {
    fn collect(term: &Term, letters: &mut BTreeSet<u32>) {
        match term {
            Term::Var(letter) => {
                letters.insert(*letter);
            }
            Term::Zero | Term::One => {}
            Term::Add(left, right) | Term::Mul(left, right) => {
                collect(left, letters);
                collect(right, letters);
            }
        }
    }
    let mut letters = BTreeSet::new();
    collect(equation.lhs(), &mut letters);
    collect(equation.rhs(), &mut letters);
    letters.into_iter().collect()
}

fn show_term(term: &Proof, letters: &[u32]) -> String {
    match term.taken() {
        ("zeroA", []) => "0".to_owned(),
        ("oneA", []) => "1".to_owned(),
        (name @ ("add" | "mul"), [left, right]) => {
            let sign = if name == "add" { "+" } else { "*" };
            let (left, right) = (show_term(left, letters), show_term(right, letters));
            format!("{sign} {left} {right}")
        }
        (name, _) => {
            let index = name.strip_prefix('x').map(str::parse::<usize>);
            let Some(Ok(index)) = index else {
                panic!("no term begins with {name}")
            };
            show_letter(letters[index])
        }
    }
}

/// Reads one proof off the front.
fn read<'a>(rest: &mut &'a str) -> Proof<'a> {
    if take(rest, "(ref ") {
        return Proof {
            binders: Vec::new(),
            head: name(rest, ")"),
            arguments: Vec::new(),
        };
    }
    if take(rest, "(lam ") {
        let binder = name(rest, " ");
        let mut body = read(rest);
        close(rest);
        body.binders.insert(0, binder);
        return body;
    }
    assert!(take(rest, "(app "), "no proof begins here: {rest}");
    let mut function = read(rest);
    assert!(take(rest, " "), "an argument is missing: {rest}");
    function.arguments.push(read(rest));
    close(rest);
    function
}

fn take(rest: &mut &str, token: &str) -> bool {
    match rest.strip_prefix(token) {
        Some(after) => {
            *rest = after;
            true
        }
        None => false,
    }
}

fn close(rest: &mut &str) {
    assert!(take(rest, ")"), "a bracket is missing: {rest}");
}

fn name<'a>(rest: &mut &'a str, until: &str) -> &'a str {
    let (name, after) = rest.split_once(until).expect("a name ends");
    *rest = after;
    name
}
