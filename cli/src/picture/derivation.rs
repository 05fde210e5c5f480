//! A derivation as its lines tell it.

use crate::failure::brief;
use crate::law::{Direction, LAWS, Law};
use crate::term::{Term, turns};

/// A derivation: its terms, each with its text, and the lines from one to the next.
#[derive(Debug)]
pub struct Derivation<'a> {
    pub terms: Vec<(&'a str, Term<'a>)>,
    pub lines: Vec<Line<'a>>,
    /// Whether it is one in hand, and not proved.
    pub is_in_hand: bool,
}

/// A line: the law, how it is read, and the turns from the top to the place, `l` or `r` each.
#[derive(Debug)]
pub struct Line<'a> {
    pub law: &'static Law,
    pub direction: Direction,
    pub place: &'a str,
}

impl<'a> Derivation<'a> {
    /// Of no line yet.
    pub fn from(left: (&'a str, Term<'a>), is_in_hand: bool) -> Derivation<'a> {
        Derivation {
            terms: vec![left],
            lines: Vec::new(),
            is_in_hand,
        }
    }

    /// The texts of the first term and the last.
    pub fn ends(&self) -> [&'a str; 2] {
        [0, self.lines.len()].map(|term| self.terms[term].0)
    }

    /// Adds a line, `LAW DIRECTION at=PLACE to=TERM`, and the term after it.
    pub fn add(&mut self, value: &'a str) -> Result<(), String> {
        let (law, direction, place, after) =
            parts(value).ok_or("a step is a law, forward or back, at= and to=, and this is not")?;
        let line = Line {
            law: Law::named(law)
                .ok_or_else(|| format!("{} is none of the {} laws", quoted(law), LAWS.len()))?,
            direction: Direction::named(direction)
                .ok_or_else(|| format!("{} is neither forward nor back", quoted(direction)))?,
            place: turns(place)
                .ok_or_else(|| format!("{} is no place: a dot, or l and r", quoted(place)))?,
        };
        let term = Term::read(after).ok_or("what stands behind to= is no term")?;
        let (_, before) = &self.terms[self.lines.len()];
        for (term, which) in [(before, "before"), (&term, "after")] {
            if term.part(line.place).is_none() {
                let place = quoted(place);
                return Err(format!(
                    "the place {place} leads out of the term {which} it"
                ));
            }
        }
        self.terms.push((after, term));
        self.lines.push(line);
        Ok(())
    }
}

/// The law, direction, place and term of a line.
fn parts(value: &str) -> Option<(&str, &str, &str, &str)> {
    let (law, rest) = value.split_once(' ')?;
    let (direction, rest) = rest.split_once(" at=")?;
    let (place, after) = rest.split_once(" to=")?;
    Some((law, direction, place, after))
}

/// The text, fit to be shown in a sentence.
pub fn quoted(text: &str) -> String {
    format!("`{}`", brief(text))
}
