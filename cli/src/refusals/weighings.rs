//! The table of jobs of WEIGH. What is not in it stands in that of jobs.

use super::{Fault, Row, row};

pub const WEIGHINGS: [Row; 11] = [
    row(
        1,
        Fault::Long,
        "the job has over 1,024 bytes",
        "write nothing but its seven lines, and no space or 0 that is not needed",
    ),
    row(
        1,
        Fault::Missing,
        "the line is missing",
        "write all the lines: left, right, cost, size, depth, nodes, weights",
    ),
    row(
        1,
        Fault::Key,
        "the line does not begin with its name",
        "write left, right, cost, size, depth, nodes, weights, each name in small letters with = behind it",
    ),
    row(
        1,
        Fault::Second,
        "WEIGH takes one right line",
        "ask each right side in a job of its own",
    ),
    row(
        1,
        Fault::Weights,
        "the weights are not ten plain numbers, parted by one space",
        "write a number for each law, in the order of the table of laws, with no needless 0 in front and no space at the ends",
    ),
    row(
        1,
        Fault::More,
        "something stands behind the last line",
        "end the text after weights",
    ),
    row(
        5,
        Fault::Bound,
        "the limit is over its bound: size 31, depth 15, nodes 4096",
        "lower the limit",
    ),
    row(
        16,
        Fault::Cost,
        "the cost is over 99",
        "lower it; if no derivation is that light, lower the weights",
    ),
    row(
        16,
        Fault::Weight,
        "the weight is none from 1 to 9",
        "write one of these: 1 for a law that costs next to nothing, 9 for the dearest",
    ),
    row(
        7,
        Fault::Slots,
        "WEIGH would note more terms than there are slots",
        "lower `cost`, or narrow `size` and `depth`, then `nodes`; or give more slots, where they are below 65535",
    ),
    row(
        8,
        Fault::Room,
        "the answer is longer than the output room",
        "give more room; or go by a plan in between, with a job for each half",
    ),
];
