//! Words of a command line that say which calls to make.

use std::slice::Iter;
use std::str::FromStr;

use crate::About;
use crate::generate::{KINDS, Names, Plan, Plays};

pub type Failure = Box<dyn std::error::Error>;

/// Takes an option of a plan, with its value from the words that follow; says no if it is none.
pub fn take(plan: &mut Plan, option: &str, rest: &mut Iter<&str>) -> Result<bool, Failure> {
    match option {
        "--seed" => plan.seed = value(option, rest)?,
        "--count" => plan.count = value(option, rest)?,
        "--light" => plan.light = true,
        "--one" | "--many" | "--check" | "--fixed" | "--same" | "--weigh" | "--atmost" => {
            plan.about.extend(about(option));
        }
        "--max-job" => plan.most_bytes = value(option, rest)?,
        "--max-slots" => plan.most_slots = value(option, rest)?,
        "--max-room" => plan.most_room = value(option, rest)?,
        "--kind" => {
            let name: String = value(option, rest)?;
            let kind = KINDS.iter().position(|kind| kind.name == name);
            plan.kind = Some(kind.ok_or_else(|| format!("there is no kind {name}"))?);
        }
        _ => return Ok(false),
    }
    Ok(true)
}

/// Takes an option of plays likewise.
pub fn take_plays(plays: &mut Plays, option: &str, rest: &mut Iter<&str>) -> Result<bool, Failure> {
    match option {
        "--seed" => plays.seed = value(option, rest)?,
        "--first" => plays.first = value(option, rest)?,
        "--plays" => plays.count = value(option, rest)?,
        "--calls" => plays.calls = value(option, rest)?,
        "--short" => plays.is_short = true,
        "--fixed" => plays.has_c = true,
        _ => return Ok(false),
    }
    Ok(true)
}

/// Takes an option of names likewise.
pub fn take_names(names: &mut Names, option: &str, rest: &mut Iter<&str>) -> Result<bool, Failure> {
    match option {
        "--seed" => names.seed = value(option, rest)?,
        "--first" => names.first = value(option, rest)?,
        "--count" => names.count = value(option, rest)?,
        "--fixed" => names.has_c = true,
        _ => return Ok(false),
    }
    Ok(true)
}

/// Which calls `--one`, `--many`, `--check`, `--fixed`, `--same`, `--weigh` or `--atmost` asks for.
pub fn about(option: &str) -> Option<About> {
    match option {
        "--one" => Some(About::One),
        "--many" => Some(About::Many),
        "--check" => Some(About::Check),
        "--fixed" => Some(About::Fixed),
        "--same" => Some(About::Same),
        "--weigh" => Some(About::Weigh),
        "--atmost" => Some(About::AtMost),
        _ => None,
    }
}

/// The value that follows an option.
pub fn value<T: FromStr>(option: &str, rest: &mut Iter<&str>) -> Result<T, Failure> {
    let parsed = rest.next().and_then(|word| word.parse().ok());
    parsed.ok_or_else(|| format!("{option} needs a value").into())
}

pub fn unknown(option: &str) -> Failure {
    format!("there is no option {option}").into()
}
