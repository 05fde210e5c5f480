//! The catalogue: what puts and withdrawals say, 64 places, and the count of kinds made afresh after each call.

use super::job::{Equation, Job, MOST_BYTES, line, number};
use super::rename::{least_lists, least_sides, term_lines, word_lines};
use super::term::Term;
use super::words::Word;
use crate::{Ask, CATALOGUE, Entry, Sent};

pub const PLACES: usize = 64;
pub const MOST_NUMBER: u32 = 999;

/// What an accepted call gives: the place that was taken or set free, and the count of kinds then held.
#[derive(Clone, Copy, Debug, Eq, PartialEq)]
pub struct Done {
    pub place: usize,
    pub kinds: usize,
}

/// What a call on a catalogue gives, or the number of the refusal.
pub type Kept = Result<Done, u8>;

/// The number that such a call returns.
pub fn returned(kept: &Kept) -> usize {
    match kept {
        Ok(done) => 100 + done.kinds,
        Err(refusal) => usize::from(*refusal),
    }
}

#[derive(Clone, Copy, Debug, Eq, Ord, PartialEq, PartialOrd)]
pub enum Key {
    Raw,
    Words,
}

impl Key {
    pub const ALL: [Key; 2] = [Key::Raw, Key::Words];

    pub fn name(self) -> &'static str {
        ["raw", "words"][self as usize]
    }

    fn named(name: &[u8]) -> Option<Key> {
        let mut all = Key::ALL.into_iter();
        all.find(|key| key.name().as_bytes() == name)
    }

    pub fn other(self) -> Key {
        match self {
            Key::Raw => Key::Words,
            Key::Words => Key::Raw,
        }
    }
}

/// A put that passed refusals 1 to 6.
#[derive(Clone, Debug)]
pub struct Put {
    pub number: u32,
    pub key: Key,
    pub equation: Equation,
}

impl Put {
    /// Reads a put, or gives the first of refusals 1 to 6 that applies. What stands behind the key's line is a job
    /// as RENAME takes it.
    pub fn read(text: &[u8]) -> Result<Put, u8> {
        let (number, key, rest) = head(text).ok_or(1)?;
        let mut job = Job::read(Entry::Rename, rest)?;
        let equation = job.equations.pop().expect("a job has an equation");
        Ok(Put {
            number,
            key,
            equation,
        })
    }
}

/// The number and the key of a put that is not too long, and what stands behind them.
fn head(text: &[u8]) -> Option<(u32, Key, &[u8])> {
    let mut rest = text;
    let number = number_line(&mut rest)?;
    let key = Key::named(line(&mut rest, "key=")?)?;
    (text.len() <= MOST_BYTES).then_some((number, key, rest))
}

/// The number that a withdrawal names, if it is well formed.
pub fn read_withdrawal(text: &[u8]) -> Result<u32, u8> {
    let mut rest = text;
    let number = number_line(&mut rest).ok_or(1)?;
    let is_good = rest.is_empty() && text.len() <= MOST_BYTES;
    if is_good { Ok(number) } else { Err(1) }
}

fn number_line(rest: &mut &[u8]) -> Option<u32> {
    number(line(rest, "number=")?).filter(|number| (1..=MOST_NUMBER).contains(number))
}

/// An entry that is held.
#[derive(Clone, Debug)]
pub struct Held {
    pub number: u32,
    pub key: Key,
    pub renamed: Renamed,
    /// RENAME's first two lines, or its last two, by the key.
    pub lines: String,
}

/// What RENAME makes of an equation: its sides, its word lists, or nothing where its words agree.
#[derive(Clone, Debug)]
pub enum Renamed {
    Sides(Term, Term),
    Lists(Vec<Word>, Vec<Word>),
    Agreed,
}

impl Held {
    fn new(put: &Put) -> Held {
        let Put { key, equation, .. } = put;
        let (renamed, lines) = match key {
            Key::Raw => {
                let (left, right) = least_sides(equation);
                let lines = term_lines(&left, &right);
                (Renamed::Sides(left, right), lines)
            }
            Key::Words => {
                let lists = least_lists(equation);
                let lines = word_lines(lists.as_ref());
                let lists = lists.map(|(left, right)| Renamed::Lists(left, right));
                (lists.unwrap_or(Renamed::Agreed), lines)
            }
        };
        Held {
            number: put.number,
            key: *key,
            renamed,
            lines,
        }
    }

    /// Two entries are of one kind if key and lines agree.
    pub fn is_of_kind(&self, other: &Held) -> bool {
        self.key == other.key && self.lines == other.lines
    }
}

/// The places, each free or with an entry.
#[derive(Clone, Debug)]
pub struct Catalogue {
    places: [Option<Held>; PLACES],
}

impl Default for Catalogue {
    fn default() -> Catalogue {
        Catalogue {
            places: [const { None }; PLACES],
        }
    }
}

impl Catalogue {
    /// What a call gives. Where it is refused, nothing is changed.
    pub fn call(&mut self, sent: &Sent) -> Kept {
        if sent.numbers != CATALOGUE {
            return Err(99);
        }
        let place = match sent.ask {
            Ask::Put => self.put(&sent.text),
            Ask::Withdraw => self.withdraw(&sent.text),
        }?;
        let kinds = self.kinds();
        Ok(Done { place, kinds })
    }

    /// Takes the first free place.
    fn put(&mut self, text: &[u8]) -> Result<usize, u8> {
        let put = Put::read(text)?;
        if self.is_listed(put.number) {
            return Err(13);
        }
        let free = self.places.iter().position(Option::is_none).ok_or(15)?;
        self.places[free] = Some(Held::new(&put));
        Ok(free)
    }

    fn withdraw(&mut self, text: &[u8]) -> Result<usize, u8> {
        let number = read_withdrawal(text)?;
        let place = self.place_of(number).ok_or(14)?;
        self.places[place] = None;
        Ok(place)
    }

    fn place_of(&self, number: u32) -> Option<usize> {
        let is_there =
            |place: &Option<Held>| place.as_ref().is_some_and(|held| held.number == number);
        self.places.iter().position(is_there)
    }

    pub fn is_listed(&self, number: u32) -> bool {
        self.place_of(number).is_some()
    }

    /// What a place holds.
    pub fn at(&self, place: usize) -> Option<&Held> {
        self.places[place].as_ref()
    }

    /// The entries held, in the order of their places.
    pub fn held(&self) -> Vec<&Held> {
        self.places.iter().flatten().collect()
    }

    /// The count of kinds made afresh: an entry counts if none before it is of its kind.
    pub fn kinds(&self) -> usize {
        let held = self.held();
        let is_first = |at: &usize| {
            !held[..*at]
                .iter()
                .any(|before| before.is_of_kind(held[*at]))
        };
        (0..held.len()).filter(is_first).count()
    }
}
