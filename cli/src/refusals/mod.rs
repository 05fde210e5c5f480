//! What is said of a refusal: a table for jobs, and beside it one for jobs of WEIGH, one for derivations and one for puts and withdrawals.
//! The guide shows them too.

mod changes;
mod derivations;
mod jobs;
mod weighings;

use puvainy::Entry;

pub use changes::CHANGES;
pub use derivations::DERIVATIONS;
pub use jobs::JOBS;
use weighings::WEIGHINGS;

/// What is wrong with a refused text.
#[derive(Clone, Copy, Debug, Eq, PartialEq)]
pub enum Fault {
    Long,
    Mark,
    Windows,
    Missing,
    Key,
    Second,
    Stray,
    End,
    More,
    Digits,
    Weights,
    Rights,
    Return,
    Empty,
    Space,
    Item,
    Part,
    Left,
    Nodes,
    NodesRight,
    Letters,
    LettersRight,
    Bound,
    Cost,
    Weight,
    Same,
    SameRight,
    Before,
    Slots,
    SlotsRight,
    Room,
    RoomRights,
    Answer,
    Step,
    Parts,
    Law,
    Direction,
    Place,
    To,
    NoStep,
    Outside,
    Match,
    Result,
    Stops,
    NoCatalogue,
    Number,
    Name,
    Listed,
    Unlisted,
    Full,
}

/// A fault, and in words where it is.
#[derive(Debug, Eq, PartialEq)]
pub struct Found {
    pub fault: Fault,
    pub place: String,
    /// The sides that it is in, if any: 0 is left, K right side K. Of a derivation the lines of the terms, the first is 0.
    pub sides: Vec<usize>,
}

impl Found {
    pub fn new(fault: Fault, place: String, sides: Vec<usize>) -> Found {
        Found {
            fault,
            place,
            sides,
        }
    }
}

/// A row of the table, in which the numbers stand in the order in which they are looked at. Back quotes are for the guide.
pub struct Row {
    pub number: usize,
    pub fault: Fault,
    pub wrong: &'static str,
    pub to_do: &'static str,
}

const fn row(number: usize, fault: Fault, wrong: &'static str, to_do: &'static str) -> Row {
    Row {
        number,
        fault,
        wrong,
        to_do,
    }
}

/// What is wrong with a term, in a job as in a derivation.
const SPACE: Row = row(
    2,
    Fault::Space,
    "an item is expected here, and there is none",
    "put one space between items, none at the ends",
);
const ITEM: Row = row(
    2,
    Fault::Item,
    "the item is none of `+`, `*`, `0`, `1`, `v0` to `v999`, `c0` to `c99`",
    "write each item so, and one space between items",
);
const PART: Row = row(
    2,
    Fault::Part,
    "a sign lacks a part",
    "count the parts: each sign has two",
);
const LEFT: Row = row(
    2,
    Fault::Left,
    "the term is whole before this item",
    "put each sign before its two parts",
);

/// The rows for a job of that entry.
pub fn of_jobs(entry: Entry) -> impl Iterator<Item = &'static Row> {
    let own = match entry {
        Entry::Weigh => &WEIGHINGS[..],
        _ => &[],
    };
    own.iter().chain(&JOBS)
}

/// What is wrong, where, what to do, by the first row that fits: a sentence without its full stop. Where the fault is not found, the
/// number's first row is told.
pub fn sentence<'a>(
    rows: impl IntoIterator<Item = &'a Row>,
    number: usize,
    found: Option<Found>,
) -> String {
    let fits = |row: &&Row| match &found {
        Some(found) => row.fault == found.fault,
        None => row.number == number,
    };
    let Some(Row { wrong, to_do, .. }) = rows.into_iter().find(fits) else {
        return format!("this command knows nothing of refusal {number}; see the guide");
    };
    let place = found.map_or_else(String::new, |found| format!("{}: ", found.place));
    format!("{place}{wrong}; {to_do} (refusal {number})").replace('`', "")
}

#[cfg(test)]
mod tests {
    use super::*;

    #[test]
    fn the_guide_shows_the_tables() {
        let guide = include_str!("../../../docs/guide.md");
        for (title, rows) in [
            ("Refusals\n", &JOBS[..]),
            ("A refused weighing\n", &WEIGHINGS),
            ("A refused derivation\n", &DERIVATIONS),
            ("A refused put or withdrawal\n", &CHANGES),
        ] {
            let mut sections = guide.split("\n## ");
            let section = sections.find(|text| text.starts_with(title)).unwrap();
            let shown = section.lines().filter(|line| line.starts_with("| "));
            let shown: Vec<Vec<&str>> = shown
                .skip(1)
                .map(|line| line.split(" | ").collect())
                .collect();
            assert_eq!(shown.len(), rows.len());
            for (cells, row) in shown.iter().zip(rows) {
                assert_eq!(cells[0], format!("| {}", row.number));
                assert_eq!(cells[1], row.wrong);
                assert_eq!(cells[3], format!("{} |", row.to_do));
            }
        }
    }

    #[test]
    fn a_number_without_a_row_is_told_as_such() {
        let told = sentence(&JOBS, 98, None);
        assert!(told.starts_with("this command knows nothing of refusal 98"));
    }
}
