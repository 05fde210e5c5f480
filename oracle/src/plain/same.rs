//! The answer of SAME: by the counts of words, and where they agree by the words. Each word is made by its number among
//! those of its side. No list is multiplied out, put in order or printed, as WORDS does.

use std::collections::BTreeMap;

use super::job::Equation;
use super::term::{ONE, PRODUCT, SUM, Term, ZERO, end};
use super::words::Word;

/// The two answers.
pub const YES: &str = "same=yes\n";
pub const NO: &str = "same=no\n";

/// A term's run, and how many words the subterm at each node has.
struct Counted<'a> {
    run: &'a [u16],
    counts: Vec<usize>,
}

impl Counted<'_> {
    /// A sum has as many words as both its parts, a product so many times so many.
    fn new(term: &Term) -> Counted<'_> {
        let run = term.run();
        let mut counts = vec![0; run.len()];
        for (at, &code) in run.iter().enumerate().rev() {
            counts[at] = match code {
                ZERO => 0,
                SUM => counts[at + 1] + counts[end(run, at + 1)],
                PRODUCT => counts[at + 1] * counts[end(run, at + 1)],
                _ => 1,
            };
        }
        Counted { run, counts }
    }

    fn count(&self) -> usize {
        self.counts[0]
    }

    /// The words, in the order of their numbers.
    fn words(&self) -> impl Iterator<Item = Word> {
        (0..self.count()).map(|number| self.word(0, number))
    }

    /// The word with this number of the subterm at a node. Those of a sum's left part come first; those of a product
    /// begin with the left part's first word, each word of the right part behind it, and so on.
    fn word(&self, at: usize, number: usize) -> Word {
        let parts = || [at + 1, end(self.run, at + 1)];
        match self.run[at] {
            ZERO => unreachable!("0 has no word"),
            ONE => Vec::new(),
            SUM => {
                let [left, right] = parts();
                match number.checked_sub(self.counts[left]) {
                    None => self.word(left, number),
                    Some(number) => self.word(right, number),
                }
            }
            PRODUCT => {
                let [left, right] = parts();
                let count = self.counts[right];
                let front = self.word(left, number / count);
                [front, self.word(right, number % count)].concat()
            }
            letter => vec![letter],
        }
    }
}

/// How many words a term has.
pub fn count(term: &Term) -> usize {
    Counted::new(term).count()
}

/// Whether both have the same words, each as often.
pub fn have_same_words(left: &Term, right: &Term) -> bool {
    let [left, right] = [left, right].map(Counted::new);
    if left.count() != right.count() {
        return false;
    }
    let mut missing: BTreeMap<Word, usize> = BTreeMap::new();
    for word in left.words() {
        *missing.entry(word).or_default() += 1;
    }
    right.words().all(|word| take(&mut missing, &word))
}

/// Takes a word away, if it is there.
fn take(words: &mut BTreeMap<Word, usize>, word: &Word) -> bool {
    let held = words.get_mut(word).filter(|count| **count > 0);
    held.map(|count| *count -= 1).is_some()
}

/// The answer of SAME.
pub fn same_line(equation: &Equation) -> &'static str {
    match have_same_words(&equation.left, &equation.right) {
        true => YES,
        false => NO,
    }
}
