//! Answers a job, or a derivation, by one of the six entries that print an answer, from Rust.
//! host ENTRY FILE: ENTRY is find, words, rename, same or weigh, which take a job, or check, which takes a derivation;
//! the FILE `-` is standard input.
//! Prints the answer, or `answer=refused` and `number=N`. Status 1: the answer could not be written;
//! 2: wrong arguments, or the text could not be read.
//!
//! A host that swaps plans goes by the line `answer=` of an answer of weigh, or of each block of one of find.
//! `answer=proved` and, of weigh, `answer=atmost` have a derivation from left to right, with its proof: the plans are
//! equal and may be swapped. Of an atmost a lighter one may exist. By any other such line nothing may be swapped.

use std::ffi::OsStr;
use std::fs::File;
use std::io::{Error, Read, Write, stdin, stdout};
use std::process::ExitCode;

use puvainy::{Asked, Buffers, Entry, MOST_DERIVATION, Room};

const SLOTS: usize = 400;
const ROOM: usize = 32_768;
/// One byte more than any text may have, so that a longer one is seen to be too long.
const READ: u64 = MOST_DERIVATION as u64 + 1;

/// The job or derivation, or why there is none.
fn read(name: &OsStr) -> Result<Vec<u8>, String> {
    let cannot = |verb: &str, error| format!("cannot {verb} {}: {error}", name.display());
    let mut file: Box<dyn Read> = match name == "-" {
        true => Box::new(stdin()),
        false => Box::new(File::open(name).map_err(|error| cannot("open", error))?),
    };
    let mut text = Vec::new();
    let read = file.by_ref().take(READ).read_to_end(&mut text);
    read.map_err(|error| cannot("read", error))?;
    Ok(text)
}

fn write(asked: Asked) -> Result<(), Error> {
    match asked {
        Ok(answer) => stdout().write_all(answer)?,
        Err(number) => writeln!(stdout(), "answer=refused\nnumber={number}")?,
    }
    stdout().flush()
}

fn failed(status: u8, why: &str) -> ExitCode {
    eprintln!("{why}");
    ExitCode::from(status)
}

fn main() -> ExitCode {
    let words: Vec<_> = std::env::args_os().skip(1).collect();
    let named = |word: &OsStr| Entry::named(word.to_str()?);
    let ([_, name], Some(entry)) = (&words[..], words.first().and_then(|word| named(word))) else {
        let usage = "usage: host find|words|rename|check|same|weigh FILE (- is standard input)";
        return failed(2, usage);
    };
    let text = match read(name) {
        Ok(text) => text,
        Err(why) => return failed(2, &format!("host: {why}")),
    };
    let mut buffers = Buffers::new(SLOTS, Room::Bytes(ROOM));
    match write(buffers.ask(entry, &text)) {
        Ok(()) => ExitCode::SUCCESS,
        Err(error) => failed(1, &format!("host: cannot write the answer: {error}")),
    }
}
