//! The ten laws, as pictures spell them and as lines of a derivation use them.

use std::collections::BTreeMap;

use crate::term::Term;

/// A law: its name in answers and its two sides, terms in which v0, v1 and v2 stand for a, b and c. Forward leads from left to right.
#[derive(Debug)]
pub struct Law {
    pub name: &'static str,
    left: &'static str,
    right: &'static str,
}

pub const LAWS: [Law; 10] = [
    law("add_assoc", "+ v0 + v1 v2", "+ + v0 v1 v2"),
    law("add_comm", "+ v0 v1", "+ v1 v0"),
    law("add_zero_right", "v0", "+ v0 0"),
    law("mul_assoc", "* v0 * v1 v2", "* * v0 v1 v2"),
    law("mul_one_left", "v0", "* 1 v0"),
    law("mul_one_right", "v0", "* v0 1"),
    law("left_distrib", "+ * v0 v1 * v0 v2", "* v0 + v1 v2"),
    law("right_distrib", "+ * v0 v2 * v1 v2", "* + v0 v1 v2"),
    law("zero_mul", "0", "* 0 v0"),
    law("mul_zero", "0", "* v0 0"),
];

const fn law(name: &'static str, left: &'static str, right: &'static str) -> Law {
    Law { name, left, right }
}

#[derive(Clone, Copy, Debug)]
pub enum Direction {
    Forward,
    Back,
}

/// What a law makes of a part.
#[derive(Debug, Eq, PartialEq)]
pub enum Made<'a> {
    /// The law does not match it.
    Nothing,
    One(Term<'a>),
    /// As many as there are terms for a letter that the part does not fix.
    Any,
}

/// What the letters of a law stand for in a term.
type Bound<'a, 'b> = BTreeMap<&'static str, &'b Term<'a>>;

impl Law {
    pub fn named(name: &str) -> Option<&'static Law> {
        LAWS.iter().find(|law| law.name == name)
    }

    /// The law as it is read: which side becomes which.
    pub fn read(&self, direction: Direction) -> String {
        let [before, after] = self.sides(direction).map(|side| spelled(&side));
        format!("{before} \u{2192} {after}")
    }

    /// What the law makes of the part, if it matches.
    pub fn makes<'a>(&self, direction: Direction, part: &Term<'a>) -> Made<'a> {
        let [before, after] = self.sides(direction);
        let mut bound = Bound::new();
        match bind(&before, part, &mut bound) {
            true => put(&after, &bound).map_or(Made::Any, Made::One),
            false => Made::Nothing,
        }
    }

    /// The sides, the replaced one first.
    fn sides(&self, direction: Direction) -> [Term<'static>; 2] {
        let sides = match direction {
            Direction::Forward => [self.left, self.right],
            Direction::Back => [self.right, self.left],
        };
        sides.map(|side| Term::read(side).expect("a law's side is a term"))
    }
}

/// Whether the part is the pattern with terms for its letters, those that are bound already and others.
fn bind<'a, 'b>(pattern: &Term<'static>, part: &'b Term<'a>, bound: &mut Bound<'a, 'b>) -> bool {
    match (pattern, part) {
        (Term::Atom(letter), _) if letter.starts_with('v') => {
            *bound.entry(letter).or_insert(part) == part
        }
        (Term::Over(sign, parts), Term::Over(own, owns)) => {
            sign == own
                && parts
                    .iter()
                    .zip(&**owns)
                    .all(|(one, other)| bind(one, other, bound))
        }
        (Term::Atom(item), Term::Atom(own)) => item == own,
        _ => false,
    }
}

/// The pattern with terms for its letters, if all are bound.
fn put<'a>(pattern: &Term<'static>, bound: &Bound<'a, '_>) -> Option<Term<'a>> {
    match pattern {
        Term::Atom(letter) if letter.starts_with('v') => {
            bound.get(letter).map(|&term| term.clone())
        }
        Term::Atom(item) => Some(Term::Atom(item)),
        Term::Over(sign, parts) => {
            let [left, right] = parts.each_ref().map(|part| put(part, bound));
            Some(Term::Over(sign, Box::new([left?, right?])))
        }
    }
}

/// A side for people: a, b and c for its letters, and brackets about a part where they are needed.
fn spelled(side: &Term) -> String {
    match side {
        Term::Atom("v0") => "a".to_owned(),
        Term::Atom("v1") => "b".to_owned(),
        Term::Atom("v2") => "c".to_owned(),
        Term::Atom(item) => item.to_string(),
        Term::Over(sign, parts) => {
            let [left, right] = parts.each_ref().map(|part| match part {
                Term::Over(inner, _) if !(*sign == "+" && *inner == "*") => {
                    format!("({})", spelled(part))
                }
                _ => spelled(part),
            });
            format!("{left}{sign}{right}")
        }
    }
}

impl Direction {
    pub fn named(name: &str) -> Option<Direction> {
        [Direction::Forward, Direction::Back]
            .into_iter()
            .find(|direction| direction.name() == name)
    }

    pub fn name(self) -> &'static str {
        match self {
            Direction::Forward => "forward",
            Direction::Back => "back",
        }
    }
}

#[cfg(test)]
mod tests {
    use super::*;

    /// The guide's table has them, signs between their parts.
    #[test]
    fn the_guide_shows_the_laws() {
        let guide = include_str!("../../docs/guide.md");
        for law in &LAWS {
            let [left, right] = law.sides(Direction::Forward).map(|side| spelled(&side));
            let begin = format!("| `{}` | ", law.name);
            let mut rows = guide.lines().filter_map(|line| line.strip_prefix(&begin));
            let says = rows.next().unwrap().split(" | ").next().unwrap();
            assert_eq!(says.replace(' ', ""), format!("{left}={right}"));
            assert_eq!(
                law.read(Direction::Back),
                format!("{right} \u{2192} {left}")
            );
        }
    }

    #[test]
    fn a_law_makes_one_term_any_or_nothing_of_a_part() {
        let made = |law, direction, part| {
            let part = Term::read(part).unwrap();
            match Law::named(law).unwrap().makes(direction, &part) {
                Made::Nothing => "nothing".to_owned(),
                Made::One(term) => term.text(),
                Made::Any => "any".to_owned(),
            }
        };
        use Direction::{Back, Forward};
        let distrib = |part| made("left_distrib", Forward, part);
        assert_eq!(distrib("+ * v5 v1 * v5 0"), "* v5 + v1 0");
        assert_eq!(distrib("+ * + v0 1 v1 * + v0 1 v1"), "* + v0 1 + v1 v1");
        assert_eq!(distrib("+ * v5 v1 * v1 v5"), "nothing");
        assert_eq!(distrib("* v5 + v1 0"), "nothing");
        assert_eq!(
            made("left_distrib", Back, "* v5 + v1 0"),
            "+ * v5 v1 * v5 0"
        );
        assert_eq!(made("mul_one_left", Forward, "+ v0 v1"), "* 1 + v0 v1");
        assert_eq!(made("zero_mul", Back, "* 0 + v0 v1"), "0");
        assert_eq!(made("zero_mul", Forward, "0"), "any");
        assert_eq!(made("zero_mul", Forward, "1"), "nothing");
    }

    /// A law has v letters for any parts; a c letter of a term is a part like any other, and equal to itself alone.
    #[test]
    fn a_c_letter_is_met_by_a_laws_letter_and_never_taken_for_one() {
        let made = |law, direction, part| {
            let part = Term::read(part).unwrap();
            Law::named(law).unwrap().makes(direction, &part)
        };
        let one = |term| Made::One(Term::read(term).unwrap());
        use Direction::{Back, Forward};
        let left = "+ * c0 v1 * c0 c1";
        assert_eq!(made("left_distrib", Forward, left), one("* c0 + v1 c1"));
        let other = "+ * c0 v1 * c1 v1";
        assert_eq!(made("left_distrib", Forward, other), Made::Nothing);
        assert_eq!(made("right_distrib", Forward, other), one("* + c0 c1 v1"));
        assert_eq!(made("zero_mul", Back, "* c0 v0"), Made::Nothing);
        assert_eq!(made("mul_one_left", Forward, "c0"), one("* 1 c0"));
        assert!(LAWS.iter().all(|law| {
            let sides = [law.left, law.right].join(" ");
            sides.split(' ').all(|item| !item.starts_with('c'))
        }));
    }
}
