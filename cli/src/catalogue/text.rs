//! Where a refused put or withdrawal is at fault. That it is refused, and by which number, is for the entry alone to say; this finds the
//! line for people.

use puvainy::{Change, Entry, LEAST_NUMBER, MOST_NUMBER, MOST_PUT};

use crate::failure::brief;
use crate::job::Job;
use crate::refusals::{Fault, Found};
use crate::whole::{self, in_ends, in_whole, is_number};

/// A put's or a withdrawal's text, cut after each line feed.
pub struct Text<'a> {
    bytes: &'a [u8],
    lines: Vec<&'a [u8]>,
    /// The keys of its first lines.
    keys: &'static [&'static str],
    /// What stands behind these in a put: a job as RENAME takes it.
    job: Option<Job<'a>>,
}

impl<'a> Text<'a> {
    pub fn new(change: Change, bytes: &'a [u8]) -> Text<'a> {
        let lines = whole::lines(bytes);
        let keys: &[_] = match change {
            Change::Put => &["number", "key"],
            Change::Withdraw => &["number"],
        };
        let before = lines.iter().take(keys.len());
        let rest = &bytes[before.map(|line| line.len()).sum()..];
        let job = (change == Change::Put).then(|| Job::behind(keys.len(), Entry::Rename, rest));
        Text {
            bytes,
            lines,
            keys,
            job,
        }
    }

    /// The two sides of a put, each with its name, where they can be shown as text; none of a text that is too long.
    pub fn sides(&self) -> Vec<(String, &'a str)> {
        match &self.job {
            Some(job) if self.bytes.len() <= MOST_PUT => job.sides(|_| true),
            _ => Vec::new(),
        }
    }

    /// The first fault that the number stands for, if it is one that can be placed.
    pub fn fault(&self, number: usize) -> Option<Found> {
        match number {
            1 => self.in_text().or_else(|| self.in_lines()),
            13 => Some(self.in_value(Fault::Listed, 0)),
            14 => Some(self.in_value(Fault::Unlisted, 0)),
            _ => self.job.as_ref()?.fault(number),
        }
    }

    /// A fault of the text as a whole.
    fn in_text(&self) -> Option<Found> {
        in_whole(self.bytes, MOST_PUT).or_else(|| in_ends(&self.lines))
    }

    /// A line that is missing, is another one, lacks its end or holds a wrong value; or a line too many.
    fn in_lines(&self) -> Option<Found> {
        let first = (0..self.keys.len()).find_map(|line| self.in_line(line));
        first.or_else(|| match &self.job {
            Some(job) => job.in_lines(),
            None => self.in_more(),
        })
    }

    fn in_line(&self, line: usize) -> Option<Found> {
        let Some(text) = self.lines.get(line) else {
            return Some(self.at(Fault::Missing, line));
        };
        let Some(value) = self.value(line) else {
            return Some(self.at(Fault::Key, line));
        };
        let fault = match line {
            _ if !text.ends_with(b"\n") => return Some(self.at(Fault::End, line)),
            0 if !is_entry_number(value) => Fault::Number,
            1 if value != b"raw" && value != b"words" => Fault::Name,
            _ => return None,
        };
        Some(self.in_value(fault, line))
    }

    /// Something behind the only line.
    fn in_more(&self) -> Option<Found> {
        let more = self.keys.len();
        let place = format!("line {}", more + 1);
        (self.lines.len() > more).then(|| Found::new(Fault::More, place, Vec::new()))
    }

    /// What stands behind the key in that line, if the line has it.
    fn value(&self, line: usize) -> Option<&'a [u8]> {
        whole::value(self.lines.get(line)?, self.keys[line])
    }

    /// A fault of that line, with the line's name.
    fn at(&self, fault: Fault, line: usize) -> Found {
        let place = format!("line {} ({})", line + 1, self.keys[line]);
        Found::new(fault, place, Vec::new())
    }

    /// A fault of what stands behind the key, which is shown.
    fn in_value(&self, fault: Fault, line: usize) -> Found {
        let mut found = self.at(fault, line);
        match self.value(line) {
            None | Some([]) => {}
            Some(value) => found.place += &format!(", {}", brief(&String::from_utf8_lossy(value))),
        }
        found
    }
}

fn is_entry_number(digits: &[u8]) -> bool {
    let number = str::from_utf8(digits)
        .ok()
        .and_then(|text| text.parse().ok());
    is_number(digits) && number.is_some_and(|number| (LEAST_NUMBER..=MOST_NUMBER).contains(&number))
}

#[cfg(test)]
mod tests;
