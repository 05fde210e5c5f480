//! The ten laws, matching and putting in.

use super::term::{ONE, PRODUCT, SUM, ZERO, part};

/// One node of a law's side, operator first.
#[derive(Clone, Copy, Debug, Eq, PartialEq)]
pub enum Piece {
    Letter(usize),
    Node(u16),
}

pub struct Law {
    pub name: &'static str,
    pub left: &'static [Piece],
    pub right: &'static [Piece],
}

/// What the letters a, b, c stand for.
pub type Binding<'a> = [Option<&'a [u16]>; 3];

const A: Piece = Piece::Letter(0);
const B: Piece = Piece::Letter(1);
const C: Piece = Piece::Letter(2);
const O: Piece = Piece::Node(ZERO);
const I: Piece = Piece::Node(ONE);
const S: Piece = Piece::Node(SUM);
const P: Piece = Piece::Node(PRODUCT);

const fn law(name: &'static str, left: &'static [Piece], right: &'static [Piece]) -> Law {
    Law { name, left, right }
}

pub const LAWS: [Law; 10] = [
    law("add_assoc", &[S, A, S, B, C], &[S, S, A, B, C]),
    law("add_comm", &[S, A, B], &[S, B, A]),
    law("add_zero_right", &[A], &[S, A, O]),
    law("mul_assoc", &[P, A, P, B, C], &[P, P, A, B, C]),
    law("mul_one_left", &[A], &[P, I, A]),
    law("mul_one_right", &[A], &[P, A, I]),
    law("left_distrib", &[S, P, A, B, P, A, C], &[P, A, S, B, C]),
    law("right_distrib", &[S, P, A, C, P, B, C], &[P, S, A, B, C]),
    law("zero_mul", &[O], &[P, O, A]),
    law("mul_zero", &[O], &[P, A, O]),
];

impl Law {
    /// The side replaced and the side put in its place.
    pub fn sides(&self, forward: bool) -> (&'static [Piece], &'static [Piece]) {
        if forward {
            (self.left, self.right)
        } else {
            (self.right, self.left)
        }
    }

    /// What the letters stand for when the law, as written, matches both runs.
    pub fn matches<'a>(&self, left: &'a [u16], right: &'a [u16]) -> Option<Binding<'a>> {
        let mut binding = [None; 3];
        let both = fits(self.left, left, &mut binding) && fits(self.right, right, &mut binding);
        both.then_some(binding)
    }
}

/// Whether the side becomes the run; letters met for the first time are bound.
pub fn fits<'a>(side: &[Piece], run: &'a [u16], binding: &mut Binding<'a>) -> bool {
    let mut at = 0;
    for piece in side {
        match *piece {
            Piece::Node(code) if run[at] == code => at += 1,
            Piece::Node(_) => return false,
            Piece::Letter(letter) => {
                let met = part(run, at);
                if *binding[letter].get_or_insert(met) != met {
                    return false;
                }
                at += met.len();
            }
        }
    }
    true
}

/// The side with the terms put in, if each of its letters is bound.
pub fn put(side: &[Piece], binding: &Binding) -> Option<Vec<u16>> {
    let mut run = Vec::new();
    for piece in side {
        match *piece {
            Piece::Node(code) => run.push(code),
            Piece::Letter(letter) => run.extend_from_slice(binding[letter]?),
        }
    }
    Some(run)
}
