//! Where a refused job is at fault. That it is refused, and by which number, is for the entry alone to say; this finds the line for people.

mod weights;

use std::collections::BTreeSet;

use puvainy::{Entry, MOST_RIGHTS};

use crate::failure::counted;
use crate::refusals::{Fault, Found};
use crate::side;
use crate::term::{MOST_V_LETTERS, is_v_letter, ranks};
use crate::whole::{self, in_ends, in_whole, is_number};

/// The lines behind the sides, in order: the limits with their bounds, of which WEIGH's first is the cost.
const LIMITS: [(&str, usize); 4] = [("steps", 16), ("size", 31), ("depth", 15), ("nodes", 4096)];

/// WEIGH's cost, and the most that it may be.
pub const COST: (&str, usize) = ("cost", 99);

/// A job's text for an entry, cut after each line feed. Line 0 is left's, line K that of right side K, the limits follow, and with WEIGH
/// the weights.
pub struct Job<'a> {
    entry: Entry,
    bytes: &'a [u8],
    lines: Vec<&'a [u8]>,
    /// How many lines stand before the job's in the text that it is part of.
    before: usize,
    /// How many lines are right sides': one at least, and one alone where the entry takes no more.
    rights: usize,
}

impl<'a> Job<'a> {
    pub fn new(entry: Entry, bytes: &'a [u8]) -> Job<'a> {
        Job::behind(0, entry, bytes)
    }

    /// A job behind so many lines of a text, by which its own are counted on.
    pub fn behind(before: usize, entry: Entry, bytes: &'a [u8]) -> Job<'a> {
        let lines = whole::lines(bytes);
        let rights = lines.iter().skip(1);
        let rights = rights.take_while(|line| line.starts_with(b"right="));
        let rights = match entry.most_rights() {
            1 => 1,
            _ => rights.count().max(1),
        };
        Job {
            entry,
            bytes,
            lines,
            before,
            rights,
        }
    }

    /// Whether it has several right sides.
    pub fn has_several(&self) -> bool {
        self.rights > 1
    }

    /// Whether it is one of WEIGH, which has weights.
    pub fn is_weighed(&self) -> bool {
        self.entry == Entry::Weigh
    }

    /// The one fault with one right side, the other with several.
    pub fn one_or_several(&self, one: Fault, several: Fault) -> Fault {
        if self.has_several() { several } else { one }
    }

    /// Left, and of several right sides the wanted ones, each with its name, where they can be shown as text; none of a text that is
    /// too long.
    pub fn sides(&self, is_wanted: impl Fn(usize) -> bool) -> Vec<(String, &'a str)> {
        if self.bytes.len() > self.entry.most_job() {
            return Vec::new();
        }
        let text =
            |value: &'a [u8]| str::from_utf8(value.strip_suffix(b"\r").unwrap_or(value)).ok();
        let lines = (0..=self.rights.min(MOST_RIGHTS + 1))
            .filter(|&line| line == 0 || !self.has_several() || is_wanted(line));
        let shown = |line| Some((self.name(line), text(self.value(line)?)?));
        lines.filter_map(shown).collect()
    }

    /// Its limits with their bounds, where they are numbers.
    pub fn limits(&self) -> Vec<(&'static str, usize, usize)> {
        let limit = |(line, (key, most))| {
            let digits = str::from_utf8(self.value(line)?).ok()?;
            Some((key, digits.parse().ok()?, most))
        };
        self.limit_lines().filter_map(limit).collect()
    }

    /// The lines of the limits.
    fn limit_lines(&self) -> impl Iterator<Item = (usize, (&'static str, usize))> {
        let mut limits = LIMITS;
        if self.is_weighed() {
            limits[0] = COST;
        }
        (1 + self.rights..).zip(limits)
    }

    /// How many lines it has to have.
    fn count(&self) -> usize {
        1 + self.rights + LIMITS.len() + usize::from(self.is_weighed())
    }

    /// The key that a line of a job has.
    fn key(&self, line: usize) -> &'static str {
        let mut limits = self.limit_lines();
        match limits.find(|(limit, _)| *limit == line) {
            Some((_, (key, _))) => key,
            None if line == 0 => "left",
            None if line <= self.rights => "right",
            None => weights::KEY,
        }
    }

    /// The line's name for people: of several right sides each has its number.
    fn name(&self, line: usize) -> String {
        match self.key(line) {
            "right" if self.has_several() => format!("right {line}"),
            key => key.to_owned(),
        }
    }

    /// What stands behind the key in that line, if the line has it.
    fn value(&self, line: usize) -> Option<&'a [u8]> {
        whole::value(self.lines.get(line)?, self.key(line))
    }

    /// The first fault that the number stands for, if it is one that can be placed; for 4, 6 and 10 in all right sides that have it.
    pub fn fault(&self, number: usize) -> Option<Found> {
        match number {
            1 => self.in_text().or_else(|| self.in_lines()),
            2 => self.in_sides(side::in_term),
            3 => self.in_size(),
            4 => self.in_letters(),
            5 => self.in_bounds(Fault::Bound),
            6 => self.in_same(),
            9 => self.in_count(),
            10 => self.in_order(),
            16 => self.in_bounds(Fault::Cost).or_else(|| self.in_weights()),
            _ => None,
        }
    }

    /// A fault of the text as a whole.
    fn in_text(&self) -> Option<Found> {
        in_whole(self.bytes, self.entry.most_job()).or_else(|| in_ends(&self.lines))
    }

    /// A line that is missing, is another one, lacks its end or holds no number or weights; or a line too many.
    pub fn in_lines(&self) -> Option<Found> {
        let count = self.count();
        for line in 0..count {
            let fault = match (self.lines.get(line), self.value(line)) {
                (None, _) => Some(Fault::Missing),
                (Some(text), None) => return Some(self.in_key(line, text)),
                (Some(text), _) if !text.ends_with(b"\n") => Some(Fault::End),
                (_, Some(value)) => self.in_numbers(line, value),
            };
            if let Some(fault) = fault {
                return Some(self.in_line(fault, line));
            }
        }
        let more = self.lines.get(count)?;
        let stray = self.in_stray(count, more);
        Some(stray.unwrap_or(self.at(Fault::More, count)))
    }

    /// What stands behind the key of a limit, or of the weights, and is not so written.
    fn in_numbers(&self, line: usize, value: &[u8]) -> Option<Fault> {
        match self.key(line) {
            "left" | "right" => None,
            weights::KEY => (!weights::are_numbers(value)).then_some(Fault::Weights),
            _ => (!is_number(value)).then_some(Fault::Digits),
        }
    }

    /// A line with another key than is due. Behind the right sides of FIND one more could stand.
    fn in_key(&self, line: usize, text: &[u8]) -> Found {
        if let Some(stray) = self.in_stray(line, text) {
            return stray;
        }
        if line == 1 + self.rights && self.entry.most_rights() > 1 {
            let place = format!("line {} (right or steps)", self.number(line));
            return Found::new(Fault::Key, place, Vec::new());
        }
        self.in_line(Fault::Key, line)
    }

    /// A right line behind the right sides.
    fn in_stray(&self, line: usize, text: &[u8]) -> Option<Found> {
        let fault = match self.entry.most_rights() {
            1 => Fault::Second,
            _ => Fault::Stray,
        };
        let is_stray = line > self.rights && text.starts_with(b"right=");
        is_stray.then(|| self.at(fault, line))
    }

    /// The first right side that is one too many.
    fn in_count(&self) -> Option<Found> {
        let is_over = self.rights > MOST_RIGHTS;
        is_over.then(|| self.in_line(Fault::Rights, MOST_RIGHTS + 1))
    }

    /// The first side with a fault, and what is told of its place.
    fn in_sides(&self, find: fn(&[u8]) -> Option<(Fault, String)>) -> Option<Found> {
        (0..=self.rights).find_map(|line| {
            let (fault, place) = find(self.value(line)?)?;
            let Found { place: begin, .. } = self.in_line(fault, line);
            Some(Found::new(fault, begin + &place, vec![line]))
        })
    }

    /// The first side that has too many nodes. Left is shared, so that another advice holds for it than for one of several right sides.
    fn in_size(&self) -> Option<Found> {
        let found = self.in_sides(side::in_size)?;
        let fault = match found.sides[..] {
            [0] => Fault::Nodes,
            _ => self.one_or_several(Fault::Nodes, Fault::NodesRight),
        };
        Some(Found { fault, ..found })
    }

    /// The right sides that have too many v letters together with left.
    fn in_letters(&self) -> Option<Found> {
        let fault = self.one_or_several(Fault::Letters, Fault::LettersRight);
        let is_over = |left: &str, right: &str| v_letters(left, right) > MOST_V_LETTERS;
        let mut found = self.in_rights(fault, is_over)?;
        let counts = found.sides.iter();
        let counts = counts.filter_map(|&line| Some(v_letters(self.text(0)?, self.text(line)?)));
        found.place += &format!(", {} v letters", counted(counts));
        Some(found)
    }

    /// The first limit over its bound. Of WEIGH's limits the cost is looked at by itself.
    fn in_bounds(&self, fault: Fault) -> Option<Found> {
        self.limit_lines().find_map(|(line, (key, most))| {
            let is_looked_at = (key == COST.0) == (fault == Fault::Cost);
            let is_over = is_looked_at && value_of(self.value(line)?) > most;
            is_over.then(|| self.in_line(fault, line))
        })
    }

    /// The first law whose weight is none.
    fn in_weights(&self) -> Option<Found> {
        let line = self.count() - 1;
        let given = weights::in_range(self.value(line)?)?;
        let mut found = self.in_line(Fault::Weight, line);
        found.place += &format!(", {given}");
        Some(found)
    }

    /// The right sides that are left's term. A term has one text.
    fn in_same(&self) -> Option<Found> {
        let fault = self.one_or_several(Fault::Same, Fault::SameRight);
        self.in_rights(fault, |left, right| left == right)
    }

    /// The right sides that come before left.
    fn in_order(&self) -> Option<Found> {
        self.in_rights(Fault::Before, |left, right| ranks(right) < ranks(left))
    }

    /// The fault of all right sides that are such beside left, if there are any.
    fn in_rights(&self, fault: Fault, is_such: impl Fn(&str, &str) -> bool) -> Option<Found> {
        let left = self.text(0)?;
        let is_at_fault = |&line: &usize| self.text(line).is_some_and(|right| is_such(left, right));
        let rights: Vec<_> = (1..=self.rights).filter(is_at_fault).collect();
        let lines = counted(rights.iter().map(|&line| self.number(line)));
        let place = match rights[..] {
            [] => return None,
            [_] if !self.has_several() => format!("lines {} and {lines}", self.number(0)),
            [right] => format!("line {lines} (right {right})"),
            _ => format!("lines {lines} (right {})", counted(rights.iter().copied())),
        };
        Some(Found::new(fault, place, rights))
    }

    /// The text of that side.
    fn text(&self, line: usize) -> Option<&'a str> {
        str::from_utf8(self.value(line)?).ok()
    }

    /// A fault of that line, with the line's name.
    fn in_line(&self, fault: Fault, line: usize) -> Found {
        let place = format!("line {} ({})", self.number(line), self.name(line));
        let side = (line <= self.rights).then_some(line);
        Found::new(fault, place, side.into_iter().collect())
    }

    /// A fault of that line, which is none of a job's.
    fn at(&self, fault: Fault, line: usize) -> Found {
        Found::new(fault, format!("line {}", self.number(line)), Vec::new())
    }

    /// The line's number in the text, for people.
    fn number(&self, line: usize) -> usize {
        self.before + line + 1
    }
}

/// The number of these digits. More of them than a number of the machine holds are over any bound.
fn value_of(digits: &[u8]) -> usize {
    let digits = str::from_utf8(digits).ok();
    let number = digits.and_then(|digits| digits.parse().ok());
    number.unwrap_or(usize::MAX)
}

/// How many different v letters both sides have together.
fn v_letters(left: &str, right: &str) -> usize {
    let items = left.split(' ').chain(right.split(' '));
    let letters: BTreeSet<_> = items.filter(|item| is_v_letter(item)).collect();
    letters.len()
}

#[cfg(test)]
mod tests;
