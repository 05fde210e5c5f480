//! The words of the command, in one table: each later entry adds its row here.

mod changes;
mod check;
mod draw;
mod jobs;

use std::ffi::{OsStr, OsString};

use crate::args::Args;
use crate::failure::{Failure, Status, shown};
use crate::streams::print;

pub struct Word {
    pub name: &'static str,
    /// How it is called, behind its name.
    pub usage: &'static str,
    /// What it does, in one line.
    pub does: &'static str,
    /// The rest of its help.
    pub more: &'static str,
    run: Run,
}

/// Does what the words behind its name ask.
type Run = fn(Vec<OsString>) -> Result<Status, Failure>;

pub const WORDS: [&Word; 9] = [
    &jobs::FIND,
    &jobs::WORDS,
    &jobs::RENAME,
    &check::CHECK,
    &changes::PUT,
    &changes::WITHDRAW,
    &jobs::SAME,
    &jobs::WEIGH,
    &draw::DRAW,
];

const STATUSES: &str = "\
Exit status: 0 answered, 1 refused (of several texts or blocks: any), 2 could not read or write, or a
wrong call.
";

/// Does what the words ask.
pub fn run(mut words: Vec<OsString>) -> Result<Status, Failure> {
    if words.is_empty() {
        let all = names();
        return Err(Failure(format!(
            "what shall be done? Name one of {all}, or --help"
        )));
    }
    let first = words.remove(0);
    match (first.to_string_lossy().as_ref(), &words[..]) {
        ("--help" | "-h", []) => printed(&help()),
        ("--help" | "-h", [name]) => printed(&named(name)?.help()),
        ("--version" | "-V", []) => printed(concat!("puvainy ", env!("CARGO_PKG_VERSION"), "\n")),
        (option @ ("--help" | "-h" | "--version" | "-V"), _) => {
            Err(Failure(format!("too much follows {option}")))
        }
        _ => (named(&first)?.run)(words),
    }
}

fn named(name: &OsStr) -> Result<&'static Word, Failure> {
    let word = WORDS.into_iter().find(|word| name == word.name);
    word.ok_or_else(|| {
        let (name, all) = (shown(&name.to_string_lossy()), names());
        Failure(format!(
            "there is no command \"{name}\": name one of {all}, or --help"
        ))
    })
}

fn printed(text: &str) -> Result<Status, Failure> {
    print(text)?;
    Ok(Status::Answered)
}

fn names() -> String {
    WORDS.map(|word| word.name).join(", ")
}

/// The help of the whole.
fn help() -> String {
    let mut text = "Puvainy derives that two report plans are equal.\n\n".to_owned();
    for word in WORDS {
        text += &format!(
            "  puvainy {} {}\n      {}\n",
            word.name, word.usage, word.does
        );
    }
    text += "\n  puvainy COMMAND --help   all about one (or -h)\n  puvainy --version        (or -V)\n\n";
    text + STATUSES
}

impl Word {
    /// Its whole help.
    fn help(&self) -> String {
        let Word {
            name,
            usage,
            does,
            more,
            ..
        } = self;
        format!("puvainy {name} {usage}\n    {does}\n\n{more}\n{STATUSES}")
    }

    /// Prints its help, where an option asks for it.
    fn helps(&self, args: &mut Args) -> Result<Status, Failure> {
        args.no_value("--help")?;
        printed(&self.help())
    }
}
