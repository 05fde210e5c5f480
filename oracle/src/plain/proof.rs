//! The proof text of a path.

use super::law::LAWS;
use super::line::enclosing;
use super::search::Step;
use super::term::{ONE, PRODUCT, SUM, ZERO, part};

/// Writes proofs over the letters of one equation, rising; the first is called x0.
pub struct Prover {
    pub letters: Vec<u16>,
}

impl Prover {
    /// The whole proof: all steps joined, inside the lambdas.
    pub fn path(&self, steps: &[Step]) -> String {
        let start = &steps[0];
        let mut proof = self.step(start);
        for step in &steps[1..] {
            proof = apply(
                "eq_trans",
                &[
                    self.term(start.source.run()),
                    self.term(step.source.run()),
                    self.term(step.target.run()),
                    proof,
                    self.step(step),
                ],
            );
        }
        for index in (0..self.letters.len()).rev() {
            proof = format!("(lam x{index} {proof})");
        }
        proof
    }

    /// The proof of one line, lifted through each enclosing node, innermost first.
    fn step(&self, step: &Step) -> String {
        let at = step.line.at;
        let (source, target) = (step.source.run(), step.target.run());
        let mut proof = self.at_place(step, part(source, at), part(target, at));
        let mut inner = at;
        for turn in enclosing(&step.source, at).iter().rev() {
            let name = operator(source[turn.node]);
            let hole = "(ref hole)".to_owned();
            let node = if turn.to_left {
                let sibling = inner + part(source, inner).len();
                apply(name, &[hole, self.term(part(source, sibling))])
            } else {
                apply(name, &[self.term(part(source, turn.node + 1)), hole])
            };
            proof = apply(
                "eq_ap",
                &[
                    format!("(lam hole {node})"),
                    self.term(part(source, inner)),
                    self.term(part(target, inner)),
                    proof,
                ],
            );
            inner = turn.node;
        }
        proof
    }

    /// The law applied to what its letters stand for, turned round if it goes back.
    fn at_place(&self, step: &Step, source: &[u16], target: &[u16]) -> String {
        let law = &LAWS[step.line.law];
        let (left, right) = if step.line.forward {
            (source, target)
        } else {
            (target, source)
        };
        let binding = law.matches(left, right).expect("a line's law matches");
        let terms: Vec<String> = binding.iter().flatten().map(|run| self.term(run)).collect();
        let applied = apply(law.name, &terms);
        if step.line.forward {
            return applied;
        }
        apply("eq_symm", &[self.term(target), self.term(source), applied])
    }

    fn term(&self, run: &[u16]) -> String {
        match run[0] {
            ZERO => "(ref zeroA)".to_owned(),
            ONE => "(ref oneA)".to_owned(),
            node @ (SUM | PRODUCT) => {
                let left = part(run, 1);
                let right = part(run, 1 + left.len());
                apply(operator(node), &[self.term(left), self.term(right)])
            }
            letter => {
                let index = self.letters.binary_search(&letter);
                format!("(ref x{})", index.expect("a letter of the equation"))
            }
        }
    }
}

fn operator(node: u16) -> &'static str {
    if node == SUM { "add" } else { "mul" }
}

fn apply(name: &str, arguments: &[String]) -> String {
    arguments
        .iter()
        .fold(format!("(ref {name})"), |function, argument| {
            format!("(app {function} {argument})")
        })
}
