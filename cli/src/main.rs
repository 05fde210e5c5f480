//! The command `puvainy`: each entry from a shell. A word says what is asked; every word stands in one table (`word`).

mod args;
mod ask;
mod catalogue;
mod closed;
mod derivation;
mod failure;
mod job;
mod law;
mod names;
mod picture;
mod refusals;
mod side;
mod streams;
mod term;
mod whole;
mod word;

use std::process::ExitCode;

use failure::{Status, say};

fn main() -> ExitCode {
    let status = word::run(std::env::args_os().skip(1).collect()).unwrap_or_else(|failure| {
        say(&failure.0);
        Status::Failed
    });
    ExitCode::from(status as u8)
}
