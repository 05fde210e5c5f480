//! The words of a call, behind the first: options with their values, and files.

use std::collections::VecDeque;
use std::ffi::{OsStr, OsString};
use std::os::unix::ffi::OsStrExt;

use crate::failure::{Failure, shown};
use crate::streams::Source;

/// One of the words.
pub enum Arg {
    /// An option by its long name, as in `--slots`.
    Option(String),
    File(Source),
}

/// The words that are left to read.
pub struct Args {
    rest: VecDeque<OsString>,
    /// The value that stands in the option's own word, as in `--slots=400`.
    value: Option<OsString>,
    /// Whether `--` was met: what follows is files.
    only_files: bool,
}

impl Args {
    pub fn new(words: Vec<OsString>) -> Args {
        Args {
            rest: words.into(),
            value: None,
            only_files: false,
        }
    }

    /// Nothing, for an option without a value.
    pub fn no_value(&mut self, option: &str) -> Result<(), Failure> {
        match self.value.take() {
            None => Ok(()),
            Some(_) => Err(Failure(format!("{option} takes no value"))),
        }
    }

    /// The value of the option that was read last.
    pub fn value(&mut self, option: &str, what: &str) -> Result<OsString, Failure> {
        let given = self.value.take().or_else(|| self.rest.pop_front());
        given.ok_or_else(|| Failure(format!("{option} takes {what}, and nothing follows it")))
    }

    /// Its value, a number.
    pub fn number(&mut self, option: &str, least: usize, most: usize) -> Result<usize, Failure> {
        let what = format!("a number from {least} to {most}");
        let given = self.value(option, &what)?;
        let digits = given.to_string_lossy();
        let is_plain = digits.bytes().all(|byte| byte.is_ascii_digit());
        match digits.parse() {
            Ok(number) if is_plain && (least..=most).contains(&number) => Ok(number),
            _ => Err(Failure(format!(
                "{option} takes {what}, not \"{}\"",
                shown(&digits)
            ))),
        }
    }
}

impl Iterator for Args {
    type Item = Arg;

    fn next(&mut self) -> Option<Arg> {
        let word = self.rest.pop_front()?;
        if self.only_files || word == "-" || !word.as_bytes().starts_with(b"-") {
            return Some(Arg::File(Source::named(&word)));
        }
        if word == "--" {
            self.only_files = true;
            return self.next();
        }
        let mut parts = word.as_bytes().splitn(2, |&byte| byte == b'=');
        let name = String::from_utf8_lossy(parts.next().unwrap_or_default());
        let value = parts.next().map(OsStr::from_bytes);
        self.value = value.map(OsStr::to_owned);
        let long = if name == "-h" { "--help" } else { &name };
        Some(Arg::Option(long.to_owned()))
    }
}

/// The files to read, standard input if none is named.
pub fn sources(mut named: Vec<Source>) -> Result<Vec<Source>, Failure> {
    if named.is_empty() {
        named.push(Source::Input);
    }
    let inputs = named.iter().filter(|&source| *source == Source::Input);
    match inputs.count() > 1 {
        true => Err(Failure(
            "- is standard input, which can be read once only".to_owned(),
        )),
        false => Ok(named),
    }
}

/// What is said of an option that the word does not have.
pub fn unknown(option: &str) -> Failure {
    Failure(format!(
        "there is no option {} here; --help shows those there are",
        shown(option)
    ))
}

#[cfg(test)]
mod tests {
    use super::*;

    fn args(words: &[&str]) -> Args {
        Args::new(words.iter().map(OsString::from).collect())
    }

    /// The next word as a text, `None` at the end.
    fn told(args: &mut Args) -> Option<String> {
        args.next().map(|arg| match arg {
            Arg::Option(option) => option,
            Arg::File(source) => source.name(),
        })
    }

    #[test]
    fn options_and_files_may_stand_in_any_order() {
        let mut args = args(&["a.job", "--slots", "7", "-", "--room=0", "-h", "--", "-x"]);
        assert_eq!(told(&mut args).unwrap(), "a.job");
        assert_eq!(told(&mut args).unwrap(), "--slots");
        assert_eq!(args.number("--slots", 0, 7), Ok(7));
        assert_eq!(told(&mut args).unwrap(), "standard input");
        assert_eq!(told(&mut args).unwrap(), "--room");
        assert_eq!(args.number("--room", 0, 7), Ok(0));
        assert_eq!(told(&mut args).unwrap(), "--help");
        let last = args.next();
        assert!(matches!(last, Some(Arg::File(Source::File(file))) if file.as_os_str() == "-x"));
        assert_eq!(told(&mut args), None);
    }

    #[test]
    fn a_value_is_a_plain_number_within_its_bounds() {
        for given in ["", "8", "+7", "-1", "7 ", "x", "99999999999999999999"] {
            let mut args = args(&["--slots", given]);
            assert!(matches!(args.next(), Some(Arg::Option(_))));
            let Failure(why) = args.number("--slots", 0, 7).unwrap_err();
            assert_eq!(
                why,
                format!("--slots takes a number from 0 to 7, not \"{given}\"")
            );
        }
    }

    #[test]
    fn a_missing_value_and_a_needless_one_are_told() {
        let mut args = args(&["--help=yes", "--slots"]);
        assert_eq!(told(&mut args).unwrap(), "--help");
        assert!(args.no_value("--help").is_err());
        assert_eq!(told(&mut args).unwrap(), "--slots");
        assert!(
            args.number("--slots", 0, 7)
                .unwrap_err()
                .0
                .ends_with("nothing follows it")
        );
    }
}
