//! The table of derivations, which CHECK takes.

use super::{Fault, ITEM, LEFT, PART, Row, SPACE, row};

pub const DERIVATIONS: [Row; 26] = [
    row(
        1,
        Fault::Long,
        "the text has over 8,192 bytes",
        "cut the derivation in two: the result of a line in the middle is `right` of the one and `left` of the other",
    ),
    row(
        1,
        Fault::Mark,
        "the text is saved in an encoding that is not plain",
        "save as plain text, or as UTF-8 without a mark (BOM)",
    ),
    row(
        1,
        Fault::Answer,
        "this is an answer, of which only three kinds of line make a derivation",
        "keep the lines left=, right= and step= of one block, and leave out all others",
    ),
    row(
        1,
        Fault::Missing,
        "the line is missing",
        "write left, then right, then the step lines",
    ),
    row(
        1,
        Fault::Key,
        "the line does not begin with its name",
        "write left, then right, then the step lines, each name in small letters with = behind it",
    ),
    row(
        1,
        Fault::Step,
        "behind right there is a line that is no step line",
        "write step lines alone there, and end the text after the last",
    ),
    row(
        1,
        Fault::End,
        "the line has no line feed at its end",
        "end every line, the last one too",
    ),
    row(
        1,
        Fault::Parts,
        "the line has fewer than four parts",
        "write a law, forward or back, at= and a place, to= and a term, with one space between them",
    ),
    row(
        1,
        Fault::Law,
        "the law is none of the ten",
        "write its name as the table of laws has it, and one space behind it",
    ),
    row(
        1,
        Fault::Direction,
        "the direction is neither forward nor back",
        "write one of the two, and one space behind it",
    ),
    row(
        1,
        Fault::Place,
        "the place is not at= with a dot, or with l and r, behind it",
        "write at=. for the top, else at= and an l or r for each turn, and one space behind it",
    ),
    row(
        1,
        Fault::To,
        "the result does not begin with to=",
        "write to= and behind it the whole term after this line",
    ),
    row(
        2,
        Fault::Return,
        "the line ends the Windows way",
        "save with Unix line ends",
    ),
    row(2, Fault::Empty, "the term is empty", "write a term"),
    SPACE,
    ITEM,
    PART,
    LEFT,
    row(
        3,
        Fault::Nodes,
        "the term has over 31 nodes",
        "give a part that no line changes a letter of its own, in all the terms",
    ),
    row(
        4,
        Fault::Letters,
        "all terms together have over six different v letters",
        "give a part that no line changes a letter of its own, or a fixed table a c letter, in all the terms; or cut the derivation in two, where each half has fewer v letters",
    ),
    row(
        11,
        Fault::NoStep,
        "there is no step line",
        "write a line for each change; where nothing changes there is nothing to file",
    ),
    row(
        12,
        Fault::Outside,
        "the place is not in the term before this line",
        "follow the place from the top sign of the term before: below a letter, 0 or 1 there is nothing",
    ),
    row(
        12,
        Fault::Match,
        "the law, read in this direction, does not match at this place",
        "compare the part at the place with the law; try the other direction, or another place",
    ),
    row(
        12,
        Fault::Result,
        "the result is not what this line makes of the term before",
        "write the other side of the law at the place, and all the rest of the term before as it was",
    ),
    row(
        12,
        Fault::Stops,
        "every line holds, but the last result is another term than right",
        "write the lines that are missing behind it, or the last result as right if that is the plan you mean",
    ),
    row(
        8,
        Fault::Room,
        "the answer is longer than the output room",
        "give 12 bytes of room at least",
    ),
];
