//! Each line of a derivation by three judges, and what the Rust's own search and words say of it.

use super::{Difference, differ};
use crate::plain::check::{self, Derivation, GOOD, Stated};
use crate::plain::law::{LAWS, Piece};
use crate::plain::term::Term;
use crate::plain::tried;
use crate::rust::chain;
use crate::{Call, Entry, Given};

/// Holds what plain gives to a derivation, if it passes refusals 1 to 4.
pub fn hold(call: &Call, given: &Given) -> Result<(), Box<Difference>> {
    let Ok(derivation) = Derivation::read(&call.job) else {
        return Ok(());
    };
    let shown = derivation.show();
    if shown.as_bytes() != call.job {
        let text = String::from_utf8_lossy(&call.job).into_owned();
        return Err(differ(
            call,
            "the text and what was read of it",
            shown,
            text,
        ));
    }
    for (source, stated) in derivation.lines() {
        hold_line(call, source, stated)?;
    }
    let Derivation { left, right, .. } = &derivation;
    if given.is_ok() && !chain::have_same_words(left, right) {
        let (good, other) = ("good".to_owned(), "other words".to_owned());
        return Err(differ(call, "plain and the Rust's words", good, other));
    }
    Ok(())
}

/// All judges of a line say the same of it, and the Rust's search leads from one of its terms to the other.
fn hold_line(call: &Call, source: &Term, stated: &Stated) -> Result<(), Box<Difference>> {
    let plain = check::is_line(source, stated);
    let others = [
        ("plain and all lines tried", tried::is_line(source, stated)),
        (
            "plain and the Rust's laws and matching",
            chain::is_line(source, stated),
        ),
    ];
    for (what, other) in others {
        if plain != other {
            let on = format!("on {}: {}", source.show(), stated.show());
            return Err(differ(
                call,
                what,
                format!("{plain} {on}"),
                format!("{other} {on}"),
            ));
        }
    }
    if *source == stated.result {
        return Ok(());
    }
    hold_search(call, source, stated, plain)
}

/// The Rust's own line between the two terms is a good one; it finds one where the stated one is searchable.
fn hold_search(
    call: &Call,
    source: &Term,
    stated: &Stated,
    is_line: bool,
) -> Result<(), Box<Difference>> {
    let is_rising = *source < stated.result;
    let (left, right) = match is_rising {
        true => (source, &stated.result),
        false => (&stated.result, source),
    };
    let what = "plain and the line that the Rust's search finds";
    let sides = format!("left={}\nright={}\n", left.show(), right.show());
    let Some(own) = chain::own_line(left, right) else {
        let is_due = is_line && is_searchable(stated.law, stated.forward == is_rising);
        return match is_due {
            true => Err(differ(call, what, stated.show(), sides + "none\n")),
            false => Ok(()),
        };
    };
    is_good(call, what, sides + &own)
}

/// Plain calls this derivation good.
fn is_good(call: &Call, what: &'static str, text: String) -> Result<(), Box<Difference>> {
    let given = check::check(text.as_bytes());
    match given.as_deref() == Ok(GOOD) {
        true => Ok(()),
        false => Err(differ(call, what, super::show(&given), text)),
    }
}

/// Whether the side replaced has every letter of the law.
fn is_searchable(law: usize, forward: bool) -> bool {
    let (from, to) = LAWS[law].sides(forward);
    let is_bound = |piece| matches!(piece, &Piece::Node(_)) || from.contains(piece);
    to.iter().all(is_bound)
}

/// The three kinds of line from every proved block of an answer are good, and hold as any derivation. A path of WEIGH
/// that is too long for CHECK is looked at in parts.
pub fn hold_proved(call: &Call, given: &Given) -> Result<(), Box<Difference>> {
    let Ok(answer) = given else { return Ok(()) };
    for text in check::derivations(answer)
        .iter()
        .flat_map(|text| check::parts(text))
    {
        let check = Call {
            entry: Entry::Check,
            job: text.clone().into_bytes(),
            ..call.clone()
        };
        is_good(call, "CHECK and the lines of a proved block", text)?;
        hold(&check, &Ok(GOOD.to_vec()))?;
    }
    Ok(())
}
