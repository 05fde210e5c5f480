//! The least equation over all renamings of its v letters, and the answer of RENAME.

use super::job::Equation;
use super::term::{Term, is_v, v_letters, v_letters_of};
use super::words::{Word, oriented, show_words, word_lists};

/// The answer of RENAME.
pub fn rename_text(equation: &Equation) -> String {
    let (left, right) = least_sides(equation);
    term_lines(&left, &right) + &word_lines(least_lists(equation).as_ref())
}

/// Its first two lines.
pub fn term_lines(left: &Term, right: &Term) -> String {
    format!("left={}\nright={}\n", left.show(), right.show())
}

/// Its last two lines: both lists, or `-` twice if there are none.
pub fn word_lines(lists: Option<&(Vec<Word>, Vec<Word>)>) -> String {
    let (left, right) = match lists {
        Some((left, right)) => (show_words(left), show_words(right)),
        None => ("-".to_owned(), "-".to_owned()),
    };
    format!("wleft={left}\nwright={right}\n")
}

/// Both sides renamed.
pub fn least_sides(equation: &Equation) -> (Term, Term) {
    let letters = v_letters_of(&equation.left, &equation.right);
    least(letters, |renaming| {
        (
            renamed_term(&equation.left, renaming),
            renamed_term(&equation.right, renaming),
        )
    })
}

/// Both word lists renamed by themselves; none if they agree.
pub fn least_lists(equation: &Equation) -> Option<(Vec<Word>, Vec<Word>)> {
    let (left, right) = word_lists(equation);
    if left == right {
        return None;
    }
    let letters = v_letters(left.iter().chain(&right).flatten().copied());
    Some(least(letters, |renaming| {
        (
            renamed_list(&left, renaming),
            renamed_list(&right, renaming),
        )
    }))
}

/// The v letter that takes the number 0, the one that takes 1, and so on.
type Renaming = [u16];

/// The least oriented pair over all renamings of these letters.
fn least<T: Ord>(mut letters: Vec<u16>, rename: impl Fn(&Renaming) -> (T, T)) -> (T, T) {
    let mut best: Option<(T, T)> = None;
    loop {
        let (left, right) = rename(&letters);
        let pair = oriented(left, right);
        if best.as_ref().is_none_or(|held| pair < *held) {
            best = Some(pair);
        }
        if !advance(&mut letters) {
            return best.expect("one renaming was tried");
        }
    }
}

/// Goes on to the next order of the letters; says no after the last.
fn advance(order: &mut [u16]) -> bool {
    let Some(rise) = order.windows(2).rposition(|pair| pair[0] < pair[1]) else {
        return false;
    };
    let above = order.iter().rposition(|&letter| letter > order[rise]);
    order.swap(rise, above.expect("the next letter is above"));
    order[rise + 1..].reverse();
    true
}

/// The number that a v letter takes; every other item is kept.
fn renamed(code: u16, renaming: &Renaming) -> u16 {
    if !is_v(code) {
        return code;
    }
    let number = renaming.iter().position(|&old| old == code);
    number.expect("a renaming has every v letter") as u16
}

fn renamed_term(term: &Term, renaming: &Renaming) -> Term {
    let run = term.run().iter().map(|&code| renamed(code, renaming));
    Term::of(run.collect())
}

fn renamed_list(list: &[Word], renaming: &Renaming) -> Vec<Word> {
    let mut new: Vec<Word> = list
        .iter()
        .map(|word| word.iter().map(|&old| renamed(old, renaming)).collect())
        .collect();
    new.sort();
    new
}
