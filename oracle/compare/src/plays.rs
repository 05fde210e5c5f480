//! Plays on catalogues of the library's, each call held to the oracle's.

use std::process::ExitCode;

use oracle::Sent;
use oracle::cases::catalogue;
use oracle::checked::Judged;
use oracle::generate::{PLAY_KINDS, Plays, Random};
use oracle::options::{self, Failure};
use oracle::plain::catalogue::returned;
use oracle::play::{Played, play};
use oracle::tally::PlayTally;

use crate::kept::{Catalogues, number_fault};
use crate::strides::{self, Way};

/// Calls out of a hundred that are made on numbers which no calls have left, too.
const STRAY: usize = 2;

pub fn compare(words: &[&str]) -> Result<ExitCode, Failure> {
    let mut plays = Plays::default();
    let way = strides::read(words, |option, rest| {
        options::take_plays(&mut plays, option, rest)
    })?;
    Ok(strides::tell(|| {
        let cases = run_cases()?;
        let (tally, strays) = run_plays(&plays, &way)?;
        Ok(format!(
            "{cases} cases, {strays} calls on numbers that no calls have left\n{tally}"
        ))
    }))
}

/// The documents' cases, each list on an empty catalogue; says how many calls there are.
fn run_cases() -> Result<usize, String> {
    let mut random = Random::new(0, 0);
    let mut catalogues = Catalogues::default();
    let mut calls = 0;
    for case in catalogue::plays()
        .into_iter()
        .chain(catalogue::fixed_plays())
    {
        catalogues.begin(&mut random);
        let mut judged = Judged::new(true);
        for (sent, due) in &case.calls {
            let kept = judged.call(sent)?;
            let fault = catalogues
                .fault(sent, &kept, &judged.plain, &mut random)
                .or_else(|| number_fault(returned(&kept), *due));
            held(fault, sent).map_err(|fault| format!("case {}\n{fault}", case.name))?;
            calls += 1;
        }
    }
    Ok(calls)
}

/// What a thread has: its catalogues, its counts, and how many stray calls it made.
#[derive(Default)]
struct Own {
    catalogues: Catalogues,
    tally: PlayTally,
    strays: usize,
}

/// The plays; and how many stray calls were made.
fn run_plays(plays: &Plays, way: &Way) -> Result<(PlayTally, usize), String> {
    let indices = plays.first..plays.first + plays.count;
    let begin = |_| Own::default();
    let make = |own: &mut Own, index| run_play(plays, index, way.is_plain, own);
    let (mut total, mut strays) = (PlayTally::default(), 0);
    for own in strides::run(way.threads, indices, begin, make)? {
        total.add(own.tally);
        strays += own.strays;
    }
    Ok((total, strays))
}

fn run_play(plays: &Plays, index: u64, is_plain: bool, own: &mut Own) -> Result<(), String> {
    let mut random = Random::new(!plays.seed, index);
    own.catalogues.begin(&mut random);
    own.tally.begin();
    let mut calls = 0;
    let made = play(plays, index, is_plain, |played| {
        calls += 1;
        own.strays += one(&played, &mut own.catalogues, &mut random)?;
        own.tally.count(&played);
        Ok(())
    });
    made.map_err(|fault| format!("seed={} first={index} call={calls}\n{fault}", plays.seed))
}

/// Makes the call, perhaps after the same one on other numbers; says how many of those were made.
fn one(played: &Played, catalogues: &mut Catalogues, random: &mut Random) -> Result<usize, String> {
    let &Played {
        kind,
        sent,
        kept,
        catalogue,
    } = played;
    let is_stray = kind.is_some() && random.percent(STRAY);
    let told = |fault: String| match kind {
        Some(kind) => format!("kind={}\n{fault}", PLAY_KINDS[kind].name),
        None => fault,
    };
    if is_stray {
        let fault = catalogues.stray_fault(sent, random);
        let fault = fault.map(|fault| format!("on other numbers: {fault}"));
        held(fault, sent).map_err(told)?;
    }
    let fault = catalogues.fault(sent, kept, catalogue, random);
    held(fault, sent).map_err(told)?;
    Ok(usize::from(is_stray))
}

fn held(fault: Option<String>, sent: &Sent) -> Result<(), String> {
    let Some(fault) = fault else { return Ok(()) };
    Err(format!("{}--- difference\n{fault}", sent.show()))
}
