//! Counts of what calls on catalogues gave.

use std::collections::BTreeMap;
use std::fmt;

use super::{Counts, add, show};
use crate::Ask;
use crate::generate::PLAY_KINDS;
use crate::plain::catalogue::{PLACES, returned};
use crate::play::Played;

#[derive(Default)]
pub struct PlayTally {
    plays: usize,
    calls: usize,
    /// Calls of no kind read back what is held.
    kinds: BTreeMap<Option<usize>, Counts>,
    entries: BTreeMap<&'static str, Counts>,
    /// Calls after which no place was free, and after which none was taken.
    full: usize,
    empty: usize,
    most_kinds: usize,
    /// The kinds held in this play.
    held: usize,
}

impl PlayTally {
    /// A play begins, with nothing held.
    pub fn begin(&mut self) {
        self.plays += 1;
        self.held = 0;
    }

    pub fn count(&mut self, played: &Played) {
        self.calls += 1;
        let outcome = self.outcome(played);
        let kind = self.kinds.entry(played.kind).or_default();
        let entry = self.entries.entry(played.sent.ask.name()).or_default();
        for counts in [kind, entry] {
            *counts.entry(outcome.clone()).or_default() += 1;
        }
        let Ok(done) = played.kept else { return };
        self.held = done.kinds;
        self.most_kinds = self.most_kinds.max(done.kinds);
        let taken = played.catalogue.held().len();
        self.full += usize::from(taken == PLACES);
        self.empty += usize::from(taken == 0);
    }

    /// `refused N`, or whether the entry brought or took away a kind.
    fn outcome(&self, played: &Played) -> String {
        let Ok(done) = played.kept else {
            return format!("refused {}", returned(played.kept));
        };
        let outcome = match (played.sent.ask, done.kinds == self.held) {
            (Ask::Put, false) => "new kind",
            (Ask::Put, true) => "kind held",
            (Ask::Withdraw, false) => "last of its kind",
            (Ask::Withdraw, true) => "kind stays",
        };
        outcome.to_owned()
    }

    /// Adds what another one counted.
    pub fn add(&mut self, other: PlayTally) {
        self.plays += other.plays;
        self.calls += other.calls;
        for (kind, counts) in other.kinds {
            add(self.kinds.entry(kind).or_default(), counts);
        }
        for (entry, counts) in other.entries {
            add(self.entries.entry(entry).or_default(), counts);
        }
        self.full += other.full;
        self.empty += other.empty;
        self.most_kinds = self.most_kinds.max(other.most_kinds);
    }
}

impl fmt::Display for PlayTally {
    fn fmt(&self, out: &mut fmt::Formatter<'_>) -> fmt::Result {
        for (kind, counts) in &self.kinds {
            let name = kind.map_or("read back", |kind| PLAY_KINDS[kind].name);
            writeln!(out, "{name:11} {}", show(counts))?;
        }
        for (entry, counts) in &self.entries {
            writeln!(out, "{entry:11} {}", show(counts))?;
        }
        let PlayTally {
            full,
            empty,
            most_kinds,
            ..
        } = self;
        writeln!(
            out,
            "accepted calls that left 64 entries: {full}, none: {empty}; most kinds at once: {most_kinds}"
        )?;
        write!(out, "{} plays, {} calls", self.plays, self.calls)
    }
}
