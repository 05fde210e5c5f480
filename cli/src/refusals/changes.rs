//! The table of puts and withdrawals. What is not in it stands in that of jobs.

use super::{Fault, Row, row};

pub const CHANGES: [Row; 10] = [
    row(
        99,
        Fault::NoCatalogue,
        "the file is no catalogue, which has 1,384,452 bytes",
        "name a catalogue's file, or one that is not there yet, which is an empty catalogue",
    ),
    row(
        1,
        Fault::Long,
        "the text has over 1,024 bytes",
        "write nothing but the lines of a put, or of a withdrawal, and no space or 0 that is not needed",
    ),
    row(
        1,
        Fault::Missing,
        "the line is missing",
        "write all the lines: number, and in a put key, left, right, steps, size, depth, nodes",
    ),
    row(
        1,
        Fault::Second,
        "a put takes one right line",
        "put each right side under a number of its own",
    ),
    row(
        1,
        Fault::More,
        "something stands behind the last line",
        "end a put after nodes, a withdrawal after its number",
    ),
    row(
        1,
        Fault::Number,
        "the number is none from 1 to 999",
        "write one of these, digits alone, with no needless 0 in front",
    ),
    row(
        1,
        Fault::Name,
        "the key is neither raw nor words",
        "write key=raw or key=words",
    ),
    row(
        13,
        Fault::Listed,
        "the number is listed already",
        "take another, or withdraw the entry that has it first",
    ),
    row(
        14,
        Fault::Unlisted,
        "the number is not listed",
        "write one that is; if its entry was withdrawn before, do nothing",
    ),
    row(
        15,
        Fault::Full,
        "64 entries are listed, which is all that a catalogue holds",
        "withdraw one first, or put this one into another catalogue",
    ),
];
