//! The words that put jobs to an entry: find, words, rename, same, weigh.

use std::ffi::OsString;

use puvainy::{Entry, MOST_ROOM, MOST_SLOTS, Room};

use super::{Run, Word};
use crate::args::{Arg, Args, sources, unknown};
use crate::ask::{Asking, ask};
use crate::failure::{Failure, Status};
use crate::names::Names;

pub const FIND: Word = word(
    "find",
    "a shortest derivation from the smaller plan to the larger, or that there is none within the limits; \
     of several right sides a block for each",
    |words| run(&FIND, Entry::Find, words),
);

pub const WORDS: Word = word(
    "words",
    "the words of both plans when multiplied out, whether they are the same, and if not, at which word they part",
    |words| run(&WORDS, Entry::Words, words),
);

pub const RENAME: Word = word(
    "rename",
    "the equation of both plans under the least renaming of its v letters; c letters stay as they are",
    |words| run(&RENAME, Entry::Rename, words),
);

pub const SAME: Word = word(
    "same",
    "whether both plans have the same words, in one line: the first that words prints for the job",
    |words| run(&SAME, Entry::Same, words),
);

pub const WEIGH: Word = word(
    "weigh",
    "a lightest derivation from the smaller plan to the larger, by a weight for each law, or the one in hand where nodes \
     run out, or that there is none within the cost and the limits",
    |words| run(&WEIGH, Entry::Weigh, words),
);

/// A word that asks an entry.
const fn word(name: &'static str, does: &'static str, run: Run) -> Word {
    Word {
        name,
        usage: USAGE,
        does,
        more: MORE,
        run,
    }
}

const USAGE: &str = "[--slots N] [--room N] [--names FILE] [FILE...]";

const MORE: &str = "\
A job is read from each FILE, or from standard input if none is named (or by the FILE -). The answer goes
to standard output; of several FILEs each after a line `# FILE`, in the order given. What is wrong with a
refused job, and what to do about it, about a none and about an answer=atmost, is said on standard error; so
is, by words and with names, the word at which the lists part. A job of find has 1 to 16 lines right=, one
behind the other, and gets a block of the answer for each; one of words, rename, same or weigh has one such
line. A job of weigh has a line cost= in place of steps=, and a last line weights= with a number 1 to 9 for
each of the ten laws. By answer=atmost it gives the derivation in hand where nodes ran out: the plans are
equal, and a lighter derivation may exist. An atmost, a none and a no are answers: go by the lines printed,
not by the exit status.

  --slots N     slots for the terms that are noted, 0 to 65535 (65535 unless said); find and weigh use them
  --room N      bytes of room for an answer, 0 to 33554432 (as many as it needs unless said)
  --names FILE  lines `v0 Orders` or `c0 Prices`: the names are used where people read, on standard error
  --            what follows is a FILE, even if it begins with -
";

/// Reads the options and asks.
pub fn run(word: &Word, entry: Entry, words: Vec<OsString>) -> Result<Status, Failure> {
    let mut asking = Asking {
        entry,
        slots: MOST_SLOTS,
        room: Room::Grows,
        names: Names::default(),
    };
    let (mut jobs, mut names) = (Vec::new(), None);
    let mut args = Args::new(words);
    while let Some(arg) = args.next() {
        let option = match arg {
            Arg::File(source) => {
                jobs.push(source);
                continue;
            }
            Arg::Option(option) => option,
        };
        match option.as_str() {
            "--help" => return word.helps(&mut args),
            "--slots" if entry != Entry::Check => {
                asking.slots = args.number(&option, 0, MOST_SLOTS)?
            }
            "--room" => asking.room = Room::Bytes(args.number(&option, 0, MOST_ROOM)?),
            "--names" => names = Some(args.value(&option, "a file")?),
            _ => return Err(unknown(&option)),
        }
    }
    let jobs = sources(jobs)?;
    asking.names = Names::chosen(names)?;
    ask(asking, jobs)
}
