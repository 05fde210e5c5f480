//! Derivations: the lines of CHECK's text, its refusals, and whether the lines are a chain.

use super::job::{MOST_LETTERS, MOST_NODES, line};
use super::law::{LAWS, fits};
use super::line::direction;
use super::term::{Term, arity, end, part, v_letters};

pub const MOST_CHECK_BYTES: usize = 8192;

pub const KEYS: [&str; 3] = ["left=", "right=", "step="];

/// The answer to a good derivation.
pub const GOOD: &[u8] = b"answer=good\n";

#[derive(Clone, Copy, Debug, Eq, PartialEq)]
pub enum Side {
    L,
    R,
}

/// A step line as it is stated: a law by its index, a direction, a place (outermost first) and the whole result.
#[derive(Clone, Debug, Eq, PartialEq)]
pub struct Stated {
    pub law: usize,
    pub forward: bool,
    pub place: Vec<Side>,
    pub result: Term,
}

/// A text that passed refusals 1 to 4. Nothing says yet that its lines are a chain.
#[derive(Clone, Debug, Eq, PartialEq)]
pub struct Derivation {
    pub left: Term,
    pub right: Term,
    pub steps: Vec<Stated>,
}

/// What CHECK answers with any room.
pub fn check(text: &[u8]) -> Result<Vec<u8>, u8> {
    let derivation = Derivation::read(text)?;
    match derivation.refusal(is_line) {
        Some(number) => Err(number),
        None => Ok(GOOD.to_vec()),
    }
}

/// The three kinds of line from each proved block of FIND's answer, or from an answer of WEIGH that has a path, as CHECK
/// takes them.
pub fn derivations(answer: &[u8]) -> Vec<String> {
    let text = std::str::from_utf8(answer).expect("answers are ASCII");
    let blocks = text.split("answer=");
    let has_path = |block: &&str| block.starts_with("proved\n") || block.starts_with("atmost\n");
    blocks.filter(has_path).map(three_kinds).collect()
}

fn three_kinds(block: &str) -> String {
    let lines = block.split_inclusive('\n');
    let is_of_them = |line: &&str| KEYS.iter().any(|key| line.starts_with(key));
    lines.filter(is_of_them).collect()
}

/// Lines of a part.
const OF_A_PART: usize = 32;

/// A derivation in parts that CHECK takes: one that is too long is cut, and each part begins where the last one ends.
pub fn parts(text: &str) -> Vec<String> {
    if text.len() <= MOST_CHECK_BYTES {
        return vec![text.to_owned()];
    }
    let mut lines = text.split_inclusive('\n');
    let left = lines.next().and_then(|line| line.strip_prefix(KEYS[0]));
    let mut left = left.expect("a derivation begins with left");
    let steps: Vec<&str> = lines.skip(1).collect();
    let parts = steps.chunks(OF_A_PART).map(|steps| {
        let last = steps.last().and_then(|line| line.split_once(" to="));
        let (_, right) = last.expect("a line has a result");
        let part = format!("left={left}right={right}{}", steps.concat());
        left = right;
        part
    });
    parts.collect()
}

/// Whether the stated line is one on this term: there are terms for the law's letters that make the side
/// replaced the subterm at the place, and the other side what stands there in the result; the rest is the same.
pub fn is_line(source: &Term, stated: &Stated) -> bool {
    let (old, new) = (source.run(), stated.result.run());
    let Some(at) = node_at(old, &stated.place) else {
        return false;
    };
    if new.get(..at) != Some(&old[..at]) {
        return false;
    }
    let (replaced, put_in) = (part(old, at), part(new, at));
    let after = [end(old, at), end(new, at)];
    let (from, to) = LAWS[stated.law].sides(stated.forward);
    let mut binding = [None; 3];
    fits(from, replaced, &mut binding)
        && fits(to, put_in, &mut binding)
        && old[after[0]..] == new[after[1]..]
}

/// The node at a place, if the place is in the term.
pub fn node_at(run: &[u16], place: &[Side]) -> Option<usize> {
    let mut node = 0;
    for side in place {
        if arity(run[node]) == 0 {
            return None;
        }
        node = match side {
            Side::L => node + 1,
            Side::R => end(run, node + 1),
        };
    }
    Some(node)
}

impl Derivation {
    /// Reads a derivation, or gives the first of refusals 1 to 4 that applies.
    pub fn read(text: &[u8]) -> Result<Derivation, u8> {
        let lines = Lines::read(text).ok_or(1)?;
        let derivation = lines.derivation().ok_or(2)?;
        if derivation.terms().any(|term| term.size() > MOST_NODES) {
            return Err(3);
        }
        let letters = derivation.terms().flat_map(Term::letters);
        if v_letters(letters).len() > MOST_LETTERS {
            return Err(4);
        }
        Ok(derivation)
    }

    /// 11 if there is no line, 12 if the lines are no chain from left to right by this judge of a line.
    pub fn refusal(&self, is_line: impl Fn(&Term, &Stated) -> bool) -> Option<u8> {
        if self.steps.is_empty() {
            return Some(11);
        }
        let all_lines = self.lines().all(|(source, stated)| is_line(source, stated));
        let last = self.steps.last().map(|stated| &stated.result);
        (!all_lines || last != Some(&self.right)).then_some(12)
    }

    /// Each line with the term that it is taken on: left, then the result before it.
    pub fn lines(&self) -> impl Iterator<Item = (&Term, &Stated)> {
        let results = self.steps.iter().map(|stated| &stated.result);
        let sources = std::iter::once(&self.left).chain(results);
        sources.zip(&self.steps)
    }

    /// The sides and all results.
    fn terms(&self) -> impl Iterator<Item = &Term> {
        let results = self.steps.iter().map(|stated| &stated.result);
        [&self.left, &self.right].into_iter().chain(results)
    }

    /// The text that reads as this derivation.
    pub fn show(&self) -> String {
        let steps: String = self.steps.iter().map(Stated::show).collect();
        let (left, right) = (self.left.show(), self.right.show());
        format!("left={left}\nright={right}\n{steps}")
    }
}

impl Stated {
    /// The line, with its key and its end.
    pub fn show(&self) -> String {
        let (law, direction) = (LAWS[self.law].name, direction(self.forward));
        let (place, result) = (show_place(&self.place), self.result.show());
        format!("step={law} {direction} at={place} to={result}\n")
    }
}

/// `.` for the root, else `l` and `r`, outermost first.
pub fn show_place(place: &[Side]) -> String {
    if place.is_empty() {
        return ".".to_owned();
    }
    let sides = place.iter().map(|side| match side {
        Side::L => 'l',
        Side::R => 'r',
    });
    sides.collect()
}

/// The lines of a well formed text, its terms as they are written.
struct Lines<'a> {
    left: &'a [u8],
    right: &'a [u8],
    steps: Vec<StepLine<'a>>,
}

struct StepLine<'a> {
    law: usize,
    forward: bool,
    place: Vec<Side>,
    result: &'a [u8],
}

impl<'a> Lines<'a> {
    fn read(text: &'a [u8]) -> Option<Lines<'a>> {
        if text.len() > MOST_CHECK_BYTES {
            return None;
        }
        let [left, right, step] = KEYS;
        let mut rest = text;
        let left = line(&mut rest, left)?;
        let right = line(&mut rest, right)?;
        let mut steps = Vec::new();
        while !rest.is_empty() {
            steps.push(StepLine::read(line(&mut rest, step)?)?);
        }
        Some(Lines { left, right, steps })
    }

    /// The derivation, if everything that stands for a term is one.
    fn derivation(&self) -> Option<Derivation> {
        let steps = self.steps.iter().map(StepLine::stated);
        Some(Derivation {
            left: Term::read(self.left)?,
            right: Term::read(self.right)?,
            steps: steps.collect::<Option<_>>()?,
        })
    }
}

impl<'a> StepLine<'a> {
    /// Law, direction, `at=` and `to=`, parted by one space; what stands behind `to=` is the term.
    fn read(value: &'a [u8]) -> Option<StepLine<'a>> {
        let mut parts = value.splitn(4, |&byte| byte == b' ');
        let name = parts.next()?;
        let forward = match parts.next()? {
            b"forward" => true,
            b"back" => false,
            _ => return None,
        };
        let place = parts.next()?.strip_prefix(b"at=")?;
        let result = parts.next()?.strip_prefix(b"to=")?;
        Some(StepLine {
            law: LAWS.iter().position(|law| law.name.as_bytes() == name)?,
            forward,
            place: read_place(place)?,
            result,
        })
    }

    fn stated(&self) -> Option<Stated> {
        Some(Stated {
            law: self.law,
            forward: self.forward,
            place: self.place.clone(),
            result: Term::read(self.result)?,
        })
    }
}

/// `.`, or at least one of `l` and `r`.
fn read_place(text: &[u8]) -> Option<Vec<Side>> {
    match text {
        b"" => None,
        b"." => Some(Vec::new()),
        sides => sides.iter().map(|&side| read_side(side)).collect(),
    }
}

fn read_side(byte: u8) -> Option<Side> {
    match byte {
        b'l' => Some(Side::L),
        b'r' => Some(Side::R),
        _ => None,
    }
}
