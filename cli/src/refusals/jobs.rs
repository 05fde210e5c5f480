//! The table of jobs.

use super::{Fault, ITEM, LEFT, PART, Row, SPACE, row};

const SHARED: &str = "give a part that all plans of the job share a letter of its own";
const SHARED_ALONE: &str = "ask for such a one in a job of its own, and there give a part that both plans share a letter of its own";
const FEWER: &str =
    "give a part that all plans of the job share a letter of its own, or a fixed table a c letter";
const FEWER_ALONE: &str = "ask for such a one in a job of its own, and there give a part that both plans share a letter of its own, or a fixed table a c letter";

pub const JOBS: [Row; 29] = [
    row(
        1,
        Fault::Long,
        "the job has over 4,096 bytes, or of WORDS, RENAME or SAME over 1,024",
        "write nothing but the job's lines, of which at most 16 are right lines, with WORDS, RENAME and SAME one, and no space or 0 that is not needed",
    ),
    row(
        1,
        Fault::Mark,
        "the text is saved in an encoding that is not plain",
        "save as plain text, or as UTF-8 without a mark (BOM)",
    ),
    row(
        1,
        Fault::Windows,
        "the line ends the Windows way",
        "save with Unix line ends",
    ),
    row(
        1,
        Fault::Missing,
        "the line is missing",
        "write all the lines: left, right, steps, size, depth, nodes",
    ),
    row(
        1,
        Fault::Key,
        "the line does not begin with its name",
        "write the lines in their order, each name in small letters with = behind it",
    ),
    row(
        1,
        Fault::Second,
        "WORDS, RENAME and SAME take one right line",
        "ask each right side in a job of its own",
    ),
    row(
        1,
        Fault::Stray,
        "a right line stands behind steps",
        "write all right lines between left and steps",
    ),
    row(
        1,
        Fault::End,
        "the line has no line feed at its end",
        "end every line, the last one too",
    ),
    row(
        1,
        Fault::More,
        "something stands behind the last line",
        "end the text after nodes",
    ),
    row(
        1,
        Fault::Digits,
        "the limit is no plain number",
        "write digits alone, with no needless 0 in front",
    ),
    row(
        9,
        Fault::Rights,
        "the job has over 16 right lines",
        "ask for the rest in another job",
    ),
    row(
        2,
        Fault::Return,
        "the side's line ends the Windows way",
        "save with Unix line ends",
    ),
    row(2, Fault::Empty, "the side is empty", "write a term"),
    SPACE,
    ITEM,
    PART,
    LEFT,
    row(3, Fault::Nodes, "the side has over 31 nodes", SHARED),
    row(
        3,
        Fault::NodesRight,
        "of several right sides none may have over 31 nodes",
        SHARED_ALONE,
    ),
    row(
        4,
        Fault::Letters,
        "both sides together have over six different v letters",
        FEWER,
    ),
    row(
        4,
        Fault::LettersRight,
        "of several right sides none may have over six different v letters together with left",
        FEWER_ALONE,
    ),
    row(
        5,
        Fault::Bound,
        "the limit is over its bound: steps 16, size 31, depth 15, nodes 4096",
        "lower the limit",
    ),
    row(
        6,
        Fault::Same,
        "both sides are the same term",
        "do nothing: there is nothing to derive",
    ),
    row(
        6,
        Fault::SameRight,
        "of several right sides none may be the same term as left",
        "leave such a line out: there is nothing to derive",
    ),
    row(
        10,
        Fault::Before,
        "of several right sides none may come before left in the order of terms",
        "ask for such a one in a job of its own, where the smaller plan becomes left by itself",
    ),
    row(
        7,
        Fault::Slots,
        "FIND would note more terms than there are slots",
        "narrow `size` and `depth`, then `steps` and `nodes`; or give more slots, where they are below 65535",
    ),
    row(
        7,
        Fault::SlotsRight,
        "of several right sides not all came up before the slots ran out",
        "ask for such a one in a job of its own, with narrower `size` and `depth`, or with more slots, where they are below 65535",
    ),
    row(
        8,
        Fault::Room,
        "the answer is longer than the output room",
        "give more room; or, with FIND, go by a plan in between, with a job for each half",
    ),
    row(
        8,
        Fault::RoomRights,
        "of several right sides the blocks together are longer than the output room",
        "give more room; or ask for fewer right sides at a time",
    ),
];
