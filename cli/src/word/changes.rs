//! The words that change a catalogue: put, withdraw.

use std::ffi::OsString;

use puvainy::Change;

use super::Word;
use crate::args::{Arg, Args, sources, unknown};
use crate::catalogue::{Changing, Kept, make_all};
use crate::failure::{Failure, Status};
use crate::names::Names;

pub const PUT: Word = Word {
    name: "put",
    usage: "--catalogue FILE [--names FILE] [TEXT...]",
    does: "an equation is put into a catalogue, under a number: how many kinds the catalogue then holds",
    more: "\
A put is read from each TEXT, or from standard input if none is named (or by the TEXT -): a line number=,
1 to 999, a line key=, raw or words, and the six lines of a job. It gives the one line `kinds=N` on standard
output, once the catalogue is on the disk; of several TEXTs each stands after a line `# TEXT`. They are put
one after the other, in the order given. What is wrong with a refused one, and what to do about it, is said
on standard error; it leaves the catalogue as it was, and the others are put.

  --catalogue FILE  the catalogue's file; one that is not there yet is an empty catalogue. FILE.new and
                    FILE.lock beside it are the command's own
  --names FILE      lines `v0 Orders` or `c0 Prices`: the names are used where people read, on standard error
  --                what follows is a TEXT, even if it begins with -
",
    run: |words| run(&PUT, Change::Put, words),
};

pub const WITHDRAW: Word = Word {
    name: "withdraw",
    usage: "--catalogue FILE [TEXT...]",
    does: "the equation with a number is taken out of a catalogue: how many kinds are left",
    more: "\
A withdrawal is read from each TEXT, or from standard input if none is named (or by the TEXT -): the one
line number=. It gives the one line `kinds=N` on standard output, once the catalogue is on the disk; of
several TEXTs each stands after a line `# TEXT`. They are made one after the other, in the order given. What
is wrong with a refused one, and what to do about it, is said on standard error; it leaves the catalogue as
it was, and the others are made.

  echo number=7 | puvainy withdraw --catalogue FILE

  --catalogue FILE  the catalogue's file; one that is not there yet is an empty catalogue. FILE.new and
                    FILE.lock beside it are the command's own
  --                what follows is a TEXT, even if it begins with -
",
    run: |words| run(&WITHDRAW, Change::Withdraw, words),
};

/// Reads the options and makes the changes.
fn run(word: &Word, change: Change, words: Vec<OsString>) -> Result<Status, Failure> {
    let (mut catalogue, mut names, mut texts) = (None, None, Vec::new());
    let mut args = Args::new(words);
    while let Some(arg) = args.next() {
        match arg {
            Arg::File(source) => texts.push(source),
            Arg::Option(option) => match option.as_str() {
                "--help" => return word.helps(&mut args),
                "--catalogue" => catalogue = Some(args.value(&option, "a file")?),
                "--names" if change == Change::Put => names = Some(args.value(&option, "a file")?),
                _ => return Err(unknown(&option)),
            },
        }
    }
    let Some(catalogue) = catalogue else {
        return Err(Failure(format!(
            "{} changes a catalogue: name its file by --catalogue FILE",
            word.name
        )));
    };
    let texts = sources(texts)?;
    let changing = Changing {
        change,
        kept: Kept::named(&catalogue)?,
        names: Names::chosen(names)?,
    };
    make_all(&changing, &texts)
}
