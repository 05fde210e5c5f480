//! Pairs of equations put to the library's RENAME, each call held to the oracle's.

use std::process::ExitCode;

use oracle::generate::{Names, PAIR_KINDS, Random};
use oracle::names::hold;
use oracle::options::{self, Failure};
use oracle::tally::NameTally;

use crate::held::Buffers;
use crate::one;
use crate::strides::{self, Way};

pub fn compare(words: &[&str]) -> Result<ExitCode, Failure> {
    let mut names = Names::default();
    let way = strides::read(words, |option, rest| {
        options::take_names(&mut names, option, rest)
    })?;
    Ok(strides::tell(|| Ok(run_pairs(&names, &way)?.to_string())))
}

/// The pairs, three calls each.
fn run_pairs(names: &Names, way: &Way) -> Result<NameTally, String> {
    let begin = |thread| {
        let buffers = Buffers::new(&mut Random::new(names.seed, thread));
        (buffers, NameTally::default())
    };
    let make = |(buffers, tally): &mut (Buffers, NameTally), index| {
        let pair = names.pair(index);
        let mut random = Random::new(!names.seed, index);
        let held = hold(&pair, |call| one(way.is_plain, call, buffers, &mut random));
        let related = held.map_err(|fault| {
            let (name, seed) = (PAIR_KINDS[pair.kind].name, names.seed);
            format!("seed={seed} first={index} kind={name}\n{fault}")
        })?;
        tally.count(&pair, &related);
        Ok(())
    };
    let ended = strides::run(way.threads, names.indices(), begin, make)?;
    let mut total = NameTally::default();
    for (_, tally) in ended {
        total.add(tally);
    }
    Ok(total)
}
