//! Terms as runs: one number a node, operator first. The order of runs is the order of terms.

use super::job::number;

/// A v letter is its own number; these stand above all letters.
pub const ZERO: u16 = 0xfff0;
pub const ONE: u16 = 0xfff1;
pub const SUM: u16 = 0xfff2;
pub const PRODUCT: u16 = 0xfff3;

/// The c letters come after all v letters.
pub const FIRST_C: u16 = 1_000;
pub const V_LETTERS: u32 = 1_000;
pub const C_LETTERS: u32 = 100;

#[derive(Clone, Debug, Eq, Hash, Ord, PartialEq, PartialOrd)]
pub struct Term(Box<[u16]>);

impl Term {
    /// A term of a run that is known to be one.
    pub fn of(run: Vec<u16>) -> Term {
        debug_assert_eq!(end(&run, 0), run.len());
        Term(run.into_boxed_slice())
    }

    /// Reads items parted by one space; nothing else is a term.
    pub fn read(text: &[u8]) -> Option<Term> {
        let mut run = Vec::new();
        let mut missing = 1usize;
        for item in text.split(|&byte| byte == b' ') {
            let code = read_item(item)?;
            missing = missing.checked_sub(1)? + arity(code);
            run.push(code);
        }
        (missing == 0).then(|| Term(run.into_boxed_slice()))
    }

    pub fn run(&self) -> &[u16] {
        &self.0
    }

    pub fn size(&self) -> usize {
        self.0.len()
    }

    pub fn depth(&self) -> usize {
        let mut depths = Vec::new();
        for &code in self.0.iter().rev() {
            let depth = match (arity(code), depths.len()) {
                (2, count) => 1 + depths.drain(count - 2..).max().unwrap_or(0),
                _ => 0,
            };
            depths.push(depth);
        }
        depths[0]
    }

    pub fn letters(&self) -> impl Iterator<Item = u16> + '_ {
        self.0.iter().copied().filter(|&code| is_letter(code))
    }

    pub fn show(&self) -> String {
        let items: Vec<String> = self.0.iter().map(|&code| show_item(code)).collect();
        items.join(" ")
    }
}

pub fn is_letter(code: u16) -> bool {
    code < ZERO
}

/// Whether it is a letter that renamings move, and that refusal 4 counts.
pub fn is_v(code: u16) -> bool {
    code < FIRST_C
}

pub fn is_c(code: u16) -> bool {
    is_letter(code) && !is_v(code)
}

/// How many parts a node has.
pub fn arity(code: u16) -> usize {
    if code == SUM || code == PRODUCT { 2 } else { 0 }
}

/// Where the subterm that begins at `start` ends.
pub fn end(run: &[u16], start: usize) -> usize {
    let mut missing = 1;
    let mut at = start;
    while missing > 0 {
        missing = missing - 1 + arity(run[at]);
        at += 1;
    }
    at
}

/// The subterm that begins at `start`.
pub fn part(run: &[u16], start: usize) -> &[u16] {
    &run[start..end(run, start)]
}

/// The different letters of both terms, rising.
pub fn letters_of(left: &Term, right: &Term) -> Vec<u16> {
    different(left.letters().chain(right.letters()))
}

/// Their different v letters, rising.
pub fn v_letters_of(left: &Term, right: &Term) -> Vec<u16> {
    v_letters(left.letters().chain(right.letters()))
}

/// The different v letters among these, rising.
pub fn v_letters(letters: impl Iterator<Item = u16>) -> Vec<u16> {
    different(letters.filter(|&letter| is_v(letter)))
}

fn different(letters: impl Iterator<Item = u16>) -> Vec<u16> {
    let mut letters: Vec<u16> = letters.collect();
    letters.sort_unstable();
    letters.dedup();
    letters
}

fn read_item(item: &[u8]) -> Option<u16> {
    match item {
        b"+" => Some(SUM),
        b"*" => Some(PRODUCT),
        b"0" => Some(ZERO),
        b"1" => Some(ONE),
        [b'v', digits @ ..] => below(V_LETTERS, digits),
        [b'c', digits @ ..] => below(C_LETTERS, digits).map(|number| FIRST_C + number),
        _ => None,
    }
}

/// The number, if it is one of so many.
fn below(count: u32, digits: &[u8]) -> Option<u16> {
    let number = number(digits).filter(|&number| number < count)?;
    Some(number as u16)
}

fn show_item(code: u16) -> String {
    match code {
        SUM => "+".to_owned(),
        PRODUCT => "*".to_owned(),
        ZERO => "0".to_owned(),
        ONE => "1".to_owned(),
        letter => show_letter(letter),
    }
}

pub fn show_letter(letter: u16) -> String {
    match is_v(letter) {
        true => format!("v{letter}"),
        false => format!("c{}", letter - FIRST_C),
    }
}
