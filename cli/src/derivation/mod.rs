//! Where a refused derivation is at fault. That it is refused, and by which number, is for CHECK alone to say, also of one line of it; this
//! finds the line for people.

mod step;

use std::collections::BTreeSet;

use puvainy::Entry;

use crate::law::Made;
use crate::refusals::{Fault, Found};
use crate::side;
use crate::term::{MOST_V_LETTERS, Term, is_v_letter};
use crate::whole::{self, in_whole};
use step::Step;

/// The lines before the step lines: left's and right's.
const SIDES: usize = 2;

/// A derivation's text, cut after each line feed. Line 0 is left's, line 1 right's, line K + 1 that of step K.
pub struct Derivation<'a> {
    bytes: &'a [u8],
    lines: Vec<&'a [u8]>,
}

impl<'a> Derivation<'a> {
    pub fn new(bytes: &'a [u8]) -> Derivation<'a> {
        let lines = whole::lines(bytes);
        Derivation { bytes, lines }
    }

    /// The terms of these lines, or both sides if there are none, each with its name, where they can be shown as text; none of a text that
    /// is too long.
    pub fn terms(&self, lines: &[usize]) -> Vec<(String, &'a str)> {
        if self.is_long() {
            return Vec::new();
        }
        let lines = if lines.is_empty() { &[0, 1] } else { lines };
        let text = |term: &'a [u8]| str::from_utf8(term.strip_suffix(b"\r").unwrap_or(term)).ok();
        let shown = |&line: &usize| Some((name(line), text(self.term(line)?)?));
        lines.iter().filter_map(shown).collect()
    }

    /// The first fault that the number stands for, if it is one that can be placed. `holds` says of a derivation's text whether CHECK takes
    /// its lines for a chain.
    pub fn fault(&self, number: usize, holds: impl FnMut(&[u8]) -> bool) -> Option<Found> {
        match number {
            1 => self.in_text().or_else(|| self.in_lines()),
            2 => self.in_terms(side::in_term),
            3 => self.in_terms(side::in_size),
            4 => self.in_letters(),
            11 => Some(Found::new(
                Fault::NoStep,
                format!("behind {}", place(1)),
                vec![],
            )),
            12 => self.in_chain(holds),
            _ => None,
        }
    }

    fn is_long(&self) -> bool {
        self.bytes.len() > Entry::Check.most_job()
    }

    /// The line without its line feed.
    fn line(&self, line: usize) -> Option<&'a [u8]> {
        let text = self.lines.get(line)?;
        Some(text.strip_suffix(b"\n").unwrap_or(text))
    }

    /// What stands behind the key in that line, if the line has it.
    fn value(&self, line: usize) -> Option<&'a [u8]> {
        whole::value(self.lines.get(line)?, key(line))
    }

    /// The text of the term in that line.
    fn term(&self, line: usize) -> Option<&'a [u8]> {
        let value = self.value(line)?;
        match line < SIDES {
            true => Some(value),
            false => Step::read(value).ok().map(|step| step.result),
        }
    }

    /// A fault of the text as a whole.
    fn in_text(&self) -> Option<Found> {
        let is_answer = self.bytes.starts_with(b"answer=");
        let answer = || is_answer.then(|| Found::new(Fault::Answer, "line 1".to_owned(), vec![]));
        in_whole(self.bytes, Entry::Check.most_job()).or_else(answer)
    }

    /// A line that is missing, is another one or lacks its end, or a step line with a wrong part.
    fn in_lines(&self) -> Option<Found> {
        (0..self.lines.len().max(SIDES)).find_map(|line| {
            let (fault, told) = self.in_line(line)?;
            let place = match fault {
                Fault::Step => format!("line {}", line + 1),
                _ => place(line) + &told,
            };
            Some(Found::new(fault, place, vec![]))
        })
    }

    /// What is wrong with the line, and what is told of the place in it.
    fn in_line(&self, line: usize) -> Option<(Fault, String)> {
        let fault = match (self.lines.get(line), self.value(line)) {
            (None, _) => Fault::Missing,
            (_, None) if line < SIDES => Fault::Key,
            (_, None) => Fault::Step,
            (Some(text), _) if !text.ends_with(b"\n") => Fault::End,
            (_, Some(value)) if line >= SIDES => return Step::read(value).err(),
            _ => return None,
        };
        Some((fault, String::new()))
    }

    /// The first term with a fault, and what is told of its place.
    fn in_terms(&self, find: fn(&[u8]) -> Option<(Fault, String)>) -> Option<Found> {
        (0..self.lines.len()).find_map(|line| {
            let (fault, told) = find(self.term(line)?)?;
            Some(Found::new(
                fault,
                format!("{}{told}", place(line)),
                vec![line],
            ))
        })
    }

    /// The line in which the first v letter too many stands.
    fn in_letters(&self) -> Option<Found> {
        let mut letters = BTreeSet::new();
        for line in 0..self.lines.len() {
            let term = str::from_utf8(self.term(line)?).ok()?;
            for item in term.split(' ').filter(|item| is_v_letter(item)) {
                letters.insert(item);
                if letters.len() > MOST_V_LETTERS {
                    let count = letters.len();
                    let told = format!("{}, where {item} is v letter {count}", place(line));
                    return Some(Found::new(Fault::Letters, told, vec![line]));
                }
            }
        }
        None
    }

    /// The first step line that does not hold, each being asked as a derivation by itself; or the last, which does not lead to right.
    fn in_chain(&self, mut holds: impl FnMut(&[u8]) -> bool) -> Option<Found> {
        for line in SIDES..self.lines.len() {
            let step = Step::read(self.value(line)?).ok()?;
            if !holds(&self.alone(line, step.result)?) {
                return self.in_step(line, &step, holds);
            }
        }
        let last = self.lines.len() - 1;
        Some(Found::new(Fault::Stops, place(last), vec![last, 1]))
    }

    /// The derivation of that step line alone, with this result, from the term before it.
    fn alone(&self, line: usize, result: &[u8]) -> Option<Vec<u8>> {
        let from = self.term(before(line))?;
        let step = self.line(line)?.strip_suffix(self.term(line)?)?;
        let sides = [b"left=", from, b"\nright=", result, b"\n"].concat();
        Some([&sides, step, result, b"\n"].concat())
    }

    /// Why a step line that does not hold does not, and with which result it would, where that is one alone.
    fn in_step(
        &self,
        line: usize,
        step: &Step,
        mut holds: impl FnMut(&[u8]) -> bool,
    ) -> Option<Found> {
        let term = Term::read(str::from_utf8(self.term(before(line))?).ok()?)?;
        let part = term.part(step.turns);
        let made = part.map(|part| step.law.makes(step.direction, part));
        let mut told = place(line);
        let fault = match made {
            None => Fault::Outside,
            Some(Made::Nothing) => Fault::Match,
            Some(Made::Any) => Fault::Result,
            Some(Made::One(part)) => {
                let result = term.with(step.turns, part)?.text();
                if holds(&self.alone(line, result.as_bytes())?) {
                    told += &format!(", which makes {result}");
                }
                Fault::Result
            }
        };
        Some(Found::new(fault, told, vec![before(line), line]))
    }
}

/// The line of the term that a step line leads on from.
fn before(line: usize) -> usize {
    match line {
        SIDES => 0,
        _ => line - 1,
    }
}

/// The key that a line of a derivation has.
fn key(line: usize) -> &'static str {
    match line {
        0 => "left",
        1 => "right",
        _ => "step",
    }
}

/// The line's name for people.
fn name(line: usize) -> String {
    match line {
        0 | 1 => key(line).to_owned(),
        _ => format!("step {}", line - 1),
    }
}

fn place(line: usize) -> String {
    format!("line {} ({})", line + 1, name(line))
}

#[cfg(test)]
mod tests;
