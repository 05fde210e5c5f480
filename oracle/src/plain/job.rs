//! The lines of a job of all entries but WEIGH, and the refusals that come before a search.

use super::term::{Term, v_letters_of};
use crate::Entry;

/// The bytes of a job of WORDS, RENAME, SAME or WEIGH, and of one of FIND.
pub const MOST_BYTES: usize = 1024;
pub const MOST_FIND_BYTES: usize = 4096;
/// The right sides of a job of FIND; the others have one.
pub const MOST_RIGHTS: usize = 16;
pub const MOST_NODES: usize = 31;
/// The v letters of an equation, or of a derivation.
pub const MOST_LETTERS: usize = 6;
pub const KEYS: [&str; 6] = ["left=", "right=", "steps=", "size=", "depth=", "nodes="];
pub const BOUNDS: [u32; 4] = [16, 31, 15, 4096];

#[derive(Clone, Copy, Debug, Eq, PartialEq)]
pub struct Limits {
    pub steps: usize,
    pub size: usize,
    pub depth: usize,
    pub nodes: usize,
}

/// Left and one right side, as they were written; they differ.
#[derive(Clone, Debug)]
pub struct Equation {
    pub left: Term,
    pub right: Term,
}

impl Equation {
    /// The smaller side, then the larger.
    pub fn oriented(&self) -> (&Term, &Term) {
        if self.left <= self.right {
            (&self.left, &self.right)
        } else {
            (&self.right, &self.left)
        }
    }
}

/// A job that passed every refusal before 7: left with each right side, in the job's order.
#[derive(Clone, Debug)]
pub struct Job {
    pub equations: Vec<Equation>,
    pub limits: Limits,
}

impl Job {
    /// Reads a job, or gives the first refusal that applies, looked at in the order 1, 9, 2 to 6, 10.
    pub fn read(entry: Entry, text: &[u8]) -> Result<Job, u8> {
        let lines = Lines::read(entry, text).ok_or(1)?;
        if lines.rights.len() > MOST_RIGHTS {
            return Err(9);
        }
        let left = Term::read(lines.left).ok_or(2)?;
        let rights = lines.rights.into_iter().map(Term::read);
        let rights: Vec<Term> = rights.collect::<Option<_>>().ok_or(2)?;
        refusal(&left, &rights, &lines.limits).map_or(Ok(()), Err)?;
        let [steps, size, depth, nodes] = lines.limits.map(|value| value as usize);
        let equation = |right| Equation {
            left: left.clone(),
            right,
        };
        Ok(Job {
            equations: rights.into_iter().map(equation).collect(),
            limits: Limits {
                steps,
                size,
                depth,
                nodes,
            },
        })
    }
}

/// The first of refusals 3 to 6 and 10 that applies.
fn refusal(left: &Term, rights: &[Term], limits: &[u32; 4]) -> Option<u8> {
    measured(left, rights)
        .or_else(|| are_above(limits, &BOUNDS).then_some(5))
        .or_else(|| compared(left, rights))
}

/// 3 or 4: a side that is too large, an equation with too many letters.
pub fn measured(left: &Term, rights: &[Term]) -> Option<u8> {
    let is_large = |side: &Term| side.size() > MOST_NODES;
    let has_many_letters = |right| v_letters_of(left, right).len() > MOST_LETTERS;
    if is_large(left) || rights.iter().any(is_large) {
        Some(3)
    } else if rights.iter().any(has_many_letters) {
        Some(4)
    } else {
        None
    }
}

/// Whether any limit is above its bound.
pub fn are_above(limits: &[u32], bounds: &[u32]) -> bool {
    limits.iter().zip(bounds).any(|(value, most)| value > most)
}

/// 6 or 10: a right side that is left, or one of several that comes before it.
pub fn compared(left: &Term, rights: &[Term]) -> Option<u8> {
    if rights.contains(left) {
        Some(6)
    } else if rights.len() > 1 && rights.iter().any(|right| right < left) {
        Some(10)
    } else {
        None
    }
}

/// What stands after the key in each line, the limits read.
struct Lines<'a> {
    left: &'a [u8],
    rights: Vec<&'a [u8]>,
    limits: [u32; 4],
}

impl<'a> Lines<'a> {
    /// The lines of a text that is well formed for this entry.
    fn read(entry: Entry, text: &'a [u8]) -> Option<Lines<'a>> {
        let (most_bytes, most_rights) = match entry {
            Entry::Find => (MOST_FIND_BYTES, usize::MAX),
            _ => (MOST_BYTES, 1),
        };
        if text.len() > most_bytes {
            return None;
        }
        let [left, right, limit_keys @ ..] = KEYS;
        let mut rest = text;
        let left = line(&mut rest, left)?;
        let mut rights = vec![line(&mut rest, right)?];
        while rights.len() < most_rights
            && let Some(value) = line(&mut rest, right)
        {
            rights.push(value);
        }
        let mut limits = [0; 4];
        for (limit, key) in limits.iter_mut().zip(limit_keys) {
            *limit = number(line(&mut rest, key)?)?;
        }
        rest.is_empty().then_some(Lines {
            left,
            rights,
            limits,
        })
    }
}

/// Takes a line with this key off the front, and gives what stands after the key.
pub fn line<'a>(rest: &mut &'a [u8], key: &str) -> Option<&'a [u8]> {
    let line_end = rest.iter().position(|&byte| byte == b'\n')?;
    let value = rest[..line_end].strip_prefix(key.as_bytes())?;
    *rest = &rest[line_end + 1..];
    Some(value)
}

/// The key of the line at this place of a text that has so many lines.
pub fn key(at: usize, lines: usize) -> &'static str {
    let rights_end = lines - BOUNDS.len();
    if at < rights_end {
        KEYS[at.min(1)]
    } else {
        KEYS[2 + at - rights_end]
    }
}

/// The text of lines with these values after their keys: left, the right sides, the four limits.
pub fn write<V: AsRef<[u8]>>(values: &[V]) -> Vec<u8> {
    let lines = values.iter().enumerate().map(|(at, value)| {
        let key = key(at, values.len()).as_bytes();
        [key, value.as_ref(), b"\n"].concat()
    });
    lines.collect::<Vec<_>>().concat()
}

/// A decimal number without needless leading zeros. One too large for 32 bits is given as the largest.
pub fn number(digits: &[u8]) -> Option<u32> {
    let well_formed = match digits {
        [] => false,
        [b'0', _, ..] => false,
        _ => digits.iter().all(u8::is_ascii_digit),
    };
    well_formed.then(|| {
        digits.iter().fold(0u32, |value, &digit| {
            value
                .saturating_mul(10)
                .saturating_add(u32::from(digit - b'0'))
        })
    })
}
