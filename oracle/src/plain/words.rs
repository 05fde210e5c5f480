//! The words of a term, and the answer of WORDS.

use super::job::Equation;
use super::term::{ONE, PRODUCT, SUM, Term, ZERO, part, show_letter};

pub type Word = Vec<u16>;

/// The summands when multiplied out, sorted, repeats kept.
pub fn words(term: &Term) -> Vec<Word> {
    let mut list = multiplied_out(term.run());
    list.sort();
    list
}

fn multiplied_out(run: &[u16]) -> Vec<Word> {
    match run[0] {
        ZERO => Vec::new(),
        ONE => vec![Vec::new()],
        node @ (SUM | PRODUCT) => {
            let left = part(run, 1);
            let right = multiplied_out(part(run, 1 + left.len()));
            let left = multiplied_out(left);
            if node == SUM {
                return [left, right].concat();
            }
            let joined = left
                .iter()
                .flat_map(|one| right.iter().map(move |other| [&one[..], other].concat()));
            joined.collect()
        }
        letter => vec![vec![letter]],
    }
}

/// The word lists of both sides, the smaller first.
pub fn word_lists(equation: &Equation) -> (Vec<Word>, Vec<Word>) {
    oriented(words(&equation.left), words(&equation.right))
}

pub fn oriented<T: Ord>(one: T, other: T) -> (T, T) {
    if one <= other {
        (one, other)
    } else {
        (other, one)
    }
}

/// Letters parted by a space, words by `;`, the empty word `1`, no words `0`.
pub fn show_words(list: &[Word]) -> String {
    if list.is_empty() {
        return "0".to_owned();
    }
    let shown: Vec<String> = list.iter().map(|word| show_word(word)).collect();
    shown.join(";")
}

fn show_word(word: &[u16]) -> String {
    if word.is_empty() {
        return "1".to_owned();
    }
    let letters: Vec<String> = word.iter().map(|&letter| show_letter(letter)).collect();
    letters.join(" ")
}

/// The first place where the lists differ, counted from 0; none where they are the same. A list that is a beginning
/// of the other differs from it at its end.
pub fn first_difference(left: &[Word], right: &[Word]) -> Option<usize> {
    let places = left.len().max(right.len());
    (0..places).find(|&place| left.get(place) != right.get(place))
}

/// The answer of WORDS.
pub fn words_text(equation: &Equation) -> String {
    let (left, right) = word_lists(equation);
    let lists = format!("left={}\nright={}\n", show_words(&left), show_words(&right));
    match first_difference(&left, &right) {
        None => format!("same=yes\n{lists}"),
        Some(place) => format!("same=no\n{lists}differ={place}\n"),
    }
}
