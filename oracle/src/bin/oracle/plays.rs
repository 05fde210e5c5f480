//! The word `catalogue`: plays on catalogues.

use std::io::{self, BufWriter, Write};
use std::time::Instant;

use oracle::generate::Plays;
use oracle::options::{self, Failure, unknown};
use oracle::plain::catalogue::returned;
use oracle::play::{Played, play};
use oracle::tally::PlayTally;
use oracle::{CATALOGUE, list};

/// What is printed of plays: counts, the calls, or the calls with what they return.
#[derive(Clone, Copy, PartialEq)]
enum Printed {
    Counts,
    Calls,
    Returned,
}

impl Printed {
    /// Writes a call as this asks for; those on a buffer of another length are in no list.
    fn write(self, out: &mut impl Write, played: &Played) -> io::Result<()> {
        let sent = played.sent;
        match self {
            _ if sent.numbers != CATALOGUE => Ok(()),
            Printed::Counts => Ok(()),
            Printed::Calls => list::write_sent(out, sent),
            Printed::Returned => list::write_returned(out, sent, returned(played.kept)),
        }
    }
}

pub fn command(words: &[&str]) -> Result<bool, Failure> {
    let mut plays = Plays::default();
    let (mut is_plain, mut printed) = (false, Printed::Counts);
    let mut rest = words.iter();
    while let Some(&option) = rest.next() {
        if options::take_plays(&mut plays, option, &mut rest)? {
            continue;
        }
        match option {
            "--plain" => is_plain = true,
            "--generate" => printed = Printed::Calls,
            "--list" => printed = Printed::Returned,
            _ => return Err(unknown(option)),
        }
    }
    let start = Instant::now();
    let mut tally = PlayTally::default();
    let mut out = BufWriter::new(io::stdout().lock());
    for index in plays.first..plays.first + plays.count {
        tally.begin();
        let made = play(&plays, index, is_plain, |played| {
            tally.count(&played);
            let written = printed.write(&mut out, &played);
            written.map_err(|error| error.to_string())
        });
        if let Err(difference) = made {
            eprint!("seed={} first={index}\n{difference}", plays.seed);
            return Ok(false);
        }
    }
    if printed == Printed::Counts {
        let seconds = start.elapsed().as_secs();
        writeln!(out, "{tally}, no difference, {seconds} s")?;
    }
    out.flush()?;
    Ok(true)
}
