//! The word `names`: pairs of equations for RENAME.

use std::time::Instant;

use oracle::generate::{Names, PAIR_KINDS};
use oracle::names::hold;
use oracle::options::{self, Failure, unknown};
use oracle::tally::NameTally;
use oracle::{checked, plain};

pub fn command(words: &[&str]) -> Result<bool, Failure> {
    let (mut names, mut is_plain) = (Names::default(), false);
    let mut rest = words.iter();
    while let Some(&option) = rest.next() {
        if options::take_names(&mut names, option, &mut rest)? {
            continue;
        }
        match option {
            "--plain" => is_plain = true,
            _ => return Err(unknown(option)),
        }
    }
    let start = Instant::now();
    let mut tally = NameTally::default();
    for index in names.indices() {
        let pair = names.pair(index);
        let held = hold(&pair, |call| match is_plain {
            true => Ok(plain::answer(call.entry, &call.job, call.slots, call.room)),
            false => checked::answer(call).map_err(|difference| difference.to_string()),
        });
        match held {
            Ok(related) => tally.count(&pair, &related),
            Err(difference) => {
                let kind = PAIR_KINDS[pair.kind].name;
                eprint!(
                    "seed={} first={index} kind={kind}\n{difference}",
                    names.seed
                );
                return Ok(false);
            }
        }
    }
    println!("{tally}, no difference, {} s", start.elapsed().as_secs());
    Ok(true)
}
