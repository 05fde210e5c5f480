//! The word that checks derivations.

use puvainy::Entry;

use super::{Word, jobs};

pub const CHECK: Word = Word {
    name: "check",
    usage: "[--room N] [--names FILE] [FILE...]",
    does: "whether a derivation, by hand or from another planner, leads from its left plan to its right",
    more: "\
A derivation is read from each FILE, or from standard input if none is named (or by the FILE -): a line
left=, a line right=, and lines step= as find and weigh print them, nothing else. A good one gives the one
line `answer=good` on standard output; of several FILEs each answer stands after a line `# FILE`, in the
order given. What is wrong with a refused one, in which line, and what to do about it, is said on standard
error. Of an answer that find or weigh gave, check these three kinds of line:

  grep -E '^(left|right|step)=' ANSWER | puvainy check

  --room N      bytes of room for an answer, 0 to 33554432 (as many as it needs unless said)
  --names FILE  lines `v0 Orders` or `c0 Prices`: the names are used where people read, on standard error
  --            what follows is a FILE, even if it begins with -
",
    run: |words| jobs::run(&CHECK, Entry::Check, words),
};
