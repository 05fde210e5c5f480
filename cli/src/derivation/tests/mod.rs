//! Held to CHECK: the fault that is found is one of the number that it gives, and the line that it is told in is the first of such.

mod damaged;
mod places;

use puvainy::{Buffers, Room};

use super::*;
use crate::refusals::DERIVATIONS;

/// A derivation of three lines that is good.
const GOOD: &str = "left=+ v4 * v0 + v2 v1\nright=+ + * v0 v1 * v0 v2 v4\n\
    step=left_distrib back at=r to=+ v4 + * v0 v2 * v0 v1\n\
    step=add_comm forward at=r to=+ v4 + * v0 v1 * v0 v2\n\
    step=add_comm forward at=. to=+ + * v0 v1 * v0 v2 v4\n";

/// What is found of a refused derivation.
fn fault(text: &[u8]) -> (usize, Found) {
    let mut buffers = Buffers::new(0, Room::Grows);
    let number = buffers.ask(Entry::Check, text).unwrap_err();
    let holds = |text: &[u8]| buffers.ask(Entry::Check, text).is_ok();
    (number, Derivation::new(text).fault(number, holds).unwrap())
}

/// The number of the fault's row.
fn number(fault: Fault) -> usize {
    let row = DERIVATIONS.iter().find(|row| row.fault == fault);
    row.unwrap().number
}

#[test]
fn the_terms_about_a_line_that_does_not_hold_are_shown() {
    let text = GOOD.replacen("at=. to", "at=l to", 1);
    let (_, found) = fault(text.as_bytes());
    let shown = Derivation::new(text.as_bytes()).terms(&found.sides);
    let due = [
        ("step 2", "+ v4 + * v0 v1 * v0 v2"),
        ("step 3", "+ + * v0 v1 * v0 v2 v4"),
    ];
    assert_eq!(shown, due.map(|(key, term)| (key.to_owned(), term)));
    let (_, found) = fault(GOOD.replacen("back", "forward", 1).as_bytes());
    assert_eq!(found.sides, [0, 2]);
    let (_, found) = fault(GOOD.replacen("right=+ +", "right=* +", 1).as_bytes());
    assert_eq!(found.sides, [4, 1]);
    let whole = Derivation::new(GOOD.as_bytes());
    let names: Vec<_> = whole.terms(&[]).into_iter().map(|(key, _)| key).collect();
    assert_eq!(names, ["left", "right"]);
}

/// As many lines as 8,192 bytes hold, the last of which does not lead to a long right side: no line alone is too long a text.
#[test]
fn a_line_of_a_text_of_full_length_is_found() {
    let long = "+ v0 ".repeat(15) + "v0";
    let one = "step=add_comm forward at=. to=+ v0 v0\n";
    let begin = format!("left=+ v0 v0\nright={long}\n");
    let count = (8192 - begin.len()) / one.len();
    let text = begin + &one.repeat(count);
    let (given, found) = fault(text.as_bytes());
    assert_eq!((given, found.fault), (12, Fault::Stops));
    let wrong = text
        .replacen("at=. to=+ v0 v0\n", "at=l to=+ v0 v0\n", count)
        .replacen("at=l", "at=.", count - 1);
    let (_, found) = fault(wrong.as_bytes());
    let last = format!("line {} (step {count})", count + 2);
    assert_eq!((found.fault, found.place), (Fault::Match, last));
}
