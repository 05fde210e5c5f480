//! Jobs, as the text that our side takes and as the values that the Rust takes.

use upstream::{EquationCandidate, RewriteSearchLimits, Term};

/// Two sides in prefix form, as in `+ v0 * 0 v1`, and the limits steps, size, depth and nodes.
#[derive(Clone, Copy)]
pub struct Job {
    pub left: &'static str,
    pub right: &'static str,
    pub limits: [usize; 4],
}

impl Job {
    pub fn text(&self) -> Vec<u8> {
        let Job { left, right, .. } = self;
        let [steps, size, depth, nodes] = self.limits;
        format!(
            "left={left}\nright={right}\nsteps={steps}\nsize={size}\ndepth={depth}\nnodes={nodes}\n"
        )
        .into_bytes()
    }

    pub fn equation(&self) -> EquationCandidate {
        EquationCandidate::new(term(self.left), term(self.right)).expect("the sides differ")
    }

    pub fn bounds(&self) -> RewriteSearchLimits {
        let [max_steps, max_term_size, max_term_depth, max_nodes] = self.limits;
        RewriteSearchLimits {
            max_steps,
            max_term_size,
            max_term_depth,
            max_nodes,
        }
    }
}

fn term(text: &str) -> Term {
    let mut items = text.split(' ');
    let term = next(&mut items);
    assert!(items.next().is_none(), "items left over in {text}");
    term
}

fn next<'a>(items: &mut impl Iterator<Item = &'a str>) -> Term {
    match items.next().expect("an item is missing") {
        "0" => Term::Zero,
        "1" => Term::One,
        "+" => Term::Add(Box::new(next(items)), Box::new(next(items))),
        "*" => Term::Mul(Box::new(next(items)), Box::new(next(items))),
        letter => Term::Var(letter[1..].parse().expect("a letter's number")),
    }
}
