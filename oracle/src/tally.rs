//! Counts of what calls gave, by kind, entry and answer.

mod names;
mod parted;
mod places;
mod plays;
mod same;
mod weigh;

use std::collections::BTreeMap;
use std::fmt;

use crate::generate::KINDS;
use crate::plain::nones::nones;
use crate::{Call, Entry, Given};

pub use names::NameTally;
use parted::Parted;
pub use plays::PlayTally;
use same::Same;
use weigh::Weigh;

/// How often each key was counted.
type Counts = BTreeMap<String, usize>;

#[derive(Default)]
pub struct Tally {
    calls: usize,
    kinds: BTreeMap<usize, Counts>,
    entries: BTreeMap<&'static str, Counts>,
    /// The blocks of answers that have several.
    blocks: Counts,
    paths: BTreeMap<usize, usize>,
    cuts: Cuts,
    parted: Parted,
    same: Same,
    weigh: Weigh,
    /// The step lines of good derivations.
    chains: BTreeMap<usize, usize>,
}

/// The nones of answers and blocks, those that say `cut=yes`, and those whose `cut` the former rule made otherwise.
#[derive(Default)]
struct Cuts {
    nones: usize,
    yes: usize,
    otherwise: usize,
}

impl Cuts {
    /// Counts the nones of FIND's answer to a job.
    fn count(&mut self, job: &[u8], answer: &[u8]) {
        let nodes = values(job, "nodes=").next().map(str::parse);
        let Some(Ok(nodes)) = nodes else {
            panic!("an answered job has a node limit");
        };
        for said in nones(answer) {
            self.nones += 1;
            self.yes += usize::from(said.cut);
            self.otherwise += usize::from(said.cut != said.was_cut(nodes));
        }
    }

    fn add(&mut self, other: &Cuts) {
        self.nones += other.nones;
        self.yes += other.yes;
        self.otherwise += other.otherwise;
    }
}

impl Tally {
    pub fn count(&mut self, kind: usize, call: &Call, given: &Given) {
        self.calls += 1;
        let outcome = outcome(given);
        let entry = self.entries.entry(call.entry.name()).or_default();
        let kind = self.kinds.entry(kind).or_default();
        for counts in [entry, kind] {
            *counts.entry(outcome.clone()).or_default() += 1;
        }
        let Ok(text) = given else { return };
        match call.entry {
            Entry::Find => self.cuts.count(&call.job, text),
            Entry::Words => self.parted.count(text),
            Entry::Rename => {}
            Entry::Check => {
                let lines = values(&call.job, "step=").count();
                *self.chains.entry(lines).or_default() += 1;
            }
            Entry::Same => self.same.count(&call.job, text),
            Entry::Weigh => {
                self.weigh.count(&call.job, text);
                return;
            }
        }
        let blocks = outcomes(text);
        if blocks.len() > 1 {
            for block in blocks {
                *self.blocks.entry(block).or_default() += 1;
            }
        }
        for steps in values(text, "steps=") {
            let steps = steps.parse().expect("a number of lines");
            *self.paths.entry(steps).or_default() += 1;
        }
    }

    /// Adds what another one counted.
    pub fn add(&mut self, other: Tally) {
        self.calls += other.calls;
        for (kind, counts) in other.kinds {
            add(self.kinds.entry(kind).or_default(), counts);
        }
        for (entry, counts) in other.entries {
            add(self.entries.entry(entry).or_default(), counts);
        }
        add(&mut self.blocks, other.blocks);
        add(&mut self.paths, other.paths);
        self.cuts.add(&other.cuts);
        self.parted.add(&other.parted);
        self.same.add(&other.same);
        self.weigh.add(other.weigh);
        add(&mut self.chains, other.chains);
    }
}

fn add<K: Ord>(counts: &mut BTreeMap<K, usize>, others: BTreeMap<K, usize>) {
    for (key, count) in others {
        *counts.entry(key).or_default() += count;
    }
}

/// `refused N`, `proved`, `none`, `several` for several blocks, `good` for CHECK, or `answered` for the others.
fn outcome(given: &Given) -> String {
    match given {
        Err(number) => format!("refused {number}"),
        Ok(text) => match &outcomes(text)[..] {
            [] => "answered".to_owned(),
            [only] => only.clone(),
            _ => "several".to_owned(),
        },
    }
}

/// What each block of FIND's answer, or CHECK's, says first.
fn outcomes(text: &[u8]) -> Vec<String> {
    values(text, "answer=").map(str::to_owned).collect()
}

/// What stands in the lines with this key.
fn values<'a>(text: &'a [u8], key: &'a str) -> impl Iterator<Item = &'a str> {
    let text = std::str::from_utf8(text).expect("answers and good texts are ASCII");
    text.lines().filter_map(move |line| line.strip_prefix(key))
}

impl fmt::Display for Cuts {
    fn fmt(&self, out: &mut fmt::Formatter<'_>) -> fmt::Result {
        let Cuts {
            nones,
            yes,
            otherwise,
        } = self;
        write!(
            out,
            "nones as answers or blocks: {nones}, cut=yes in {yes}, "
        )?;
        write!(out, "cut otherwise by the former rule in {otherwise}")
    }
}

impl fmt::Display for Tally {
    fn fmt(&self, out: &mut fmt::Formatter<'_>) -> fmt::Result {
        for (&kind, counts) in &self.kinds {
            writeln!(out, "{:11} {}", KINDS[kind].name, show(counts))?;
        }
        for (entry, counts) in &self.entries {
            writeln!(out, "{entry:11} {}", show(counts))?;
        }
        writeln!(out, "blocks      {}", show(&self.blocks))?;
        writeln!(
            out,
            "lines in the path of a proved answer or block of FIND: {}",
            show_each(&self.paths)
        )?;
        writeln!(out, "{}", self.cuts)?;
        writeln!(out, "{}", self.parted)?;
        writeln!(out, "{}", self.same)?;
        writeln!(out, "{}", self.weigh)?;
        let lines: usize = self.chains.iter().map(|(lines, count)| lines * count).sum();
        let most = self.chains.keys().max().unwrap_or(&0);
        writeln!(
            out,
            "lines of good derivations: {lines}, up to {most} in one"
        )?;
        write!(out, "{} calls", self.calls)
    }
}

fn show(counts: &Counts) -> String {
    let all: usize = counts.values().sum();
    format!("{all:6} ({})", show_each(counts))
}

fn show_each<K: fmt::Display>(counts: &BTreeMap<K, usize>) -> String {
    let each: Vec<String> = counts
        .iter()
        .map(|(what, count)| format!("{what}: {count}"))
        .collect();
    each.join(", ")
}
