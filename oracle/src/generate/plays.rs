//! Plays: calls on one catalogue, drawn one by one by what it holds.

use super::puts::{self, Known};
use super::random::Random;
use super::{unfit, withdrawals};
use crate::Sent;
use crate::plain::catalogue::{Catalogue, PLACES};

/// Which plays to make.
#[derive(Clone, Debug)]
pub struct Plays {
    pub seed: u64,
    /// The index of the first one.
    pub first: u64,
    pub count: u64,
    /// The calls of each, but for those that read back what it holds.
    pub calls: usize,
    /// Short texts and no other buffers, for a program that replays them.
    pub is_short: bool,
    /// Whether c letters are among the letters.
    pub has_c: bool,
}

impl Default for Plays {
    fn default() -> Plays {
        Plays {
            seed: 1,
            first: 0,
            count: 10,
            calls: 500,
            is_short: false,
            has_c: false,
        }
    }
}

impl Plays {
    /// The play of this index, whatever the others are.
    pub fn player(&self, index: u64) -> Player {
        let mut random = Random::new(self.seed, index).with_c(self.has_c);
        let (phase, left) = Phase::Drain.next(&mut random);
        let is_varied = random.percent(30);
        Player {
            random,
            is_short: self.is_short,
            is_varied,
            phase,
            left,
            known: Vec::new(),
        }
    }
}

/// A play in the making.
pub struct Player {
    pub random: Random,
    pub is_short: bool,
    /// Whether it seldom comes back to an equation, so that up to 64 kinds are held.
    pub is_varied: bool,
    phase: Phase,
    /// The calls left in this phase.
    left: usize,
    /// Equations that were put, held or not.
    pub known: Vec<Known>,
}

/// Where a play goes: up to 64 entries and beyond, up and down, or down to few or none.
#[derive(Clone, Copy)]
enum Phase {
    Fill,
    Mix,
    Drain,
}

impl Phase {
    /// The phase that follows, and how long it is.
    fn next(self, random: &mut Random) -> (Phase, usize) {
        let next = match self {
            Phase::Fill => Phase::Mix,
            Phase::Mix => random.pick(&[Phase::Drain, Phase::Drain, Phase::Fill]),
            Phase::Drain => random.pick(&[Phase::Fill, Phase::Fill, Phase::Fill, Phase::Mix]),
        };
        let calls = match next {
            Phase::Fill => random.between(60, 130),
            Phase::Mix => random.between(20, 100),
            Phase::Drain => random.between(30, 120),
        };
        (next, calls)
    }
}

/// A kind of call on a catalogue, its shares while it fills, in the mixed phase and while it is drained, and what
/// it is.
pub struct PlayKind {
    pub name: &'static str,
    pub shares: [usize; 3],
    pub what: &'static str,
    make: Make,
}

type Make = fn(&mut Player, &Catalogue) -> Sent;

const fn kind(name: &'static str, shares: [usize; 3], what: &'static str, make: Make) -> PlayKind {
    PlayKind {
        name,
        shares,
        what,
        make,
    }
}

/// The kinds; the shares of each phase make a thousand.
#[rustfmt::skip]
pub const PLAY_KINDS: [PlayKind; 25] = [
    kind("fresh", [290, 96, 20], "a put of a new equation", puts::fresh),
    kind("again", [110, 50, 10], "of one that was put before", puts::again),
    kind("renamed", [130, 60, 14], "of such a one with other letters, sides perhaps exchanged", puts::renamed),
    kind("other-key", [70, 30, 8], "of such a one under the other key", puts::other_key),
    kind("agreed", [70, 30, 8], "of two sides with the same words", puts::agreed),
    kind("alike", [110, 52, 10], "of such a one with one item changed or one side rewritten", puts::alike),
    kind("large", [8, 8, 4], "of up to 324 words a side and six letters", puts::large),
    kind("listed", [30, 50, 24], "under a number that is listed", puts::listed),
    kind("put-number", [14, 30, 12], "numbers about 1 and 999, and what is no number", unfit::numbers),
    kind("put-key", [12, 26, 10], "what is no key", unfit::keys),
    kind("put-lines", [14, 34, 12], "malformed lines", unfit::lines),
    kind("put-sides", [10, 22, 8], "a side that is no term", unfit::sides),
    kind("put-nodes", [8, 16, 6], "sides of 29 nodes and more", unfit::nodes),
    kind("put-letters", [8, 16, 6], "five to eight letters", unfit::letters),
    kind("put-limits", [10, 22, 8], "limits at 0, 1 and about their bounds", unfit::limits),
    kind("put-equal", [6, 12, 4], "equal sides", unfit::equal),
    kind("put-faults", [14, 40, 16], "several reasons to refuse", unfit::faults),
    kind("put-bytes", [4, 10, 4], "texts of 1,023 bytes and more", unfit::bytes),
    kind("put-damage", [10, 24, 8], "good texts with damaged bytes", unfit::damaged),
    kind("held", [20, 110, 370], "a withdrawal of a listed number", withdrawals::held),
    kind("last", [8, 80, 180], "of the last entry of a kind", withdrawals::last),
    kind("one-of", [8, 80, 160], "of one entry of several of a kind", withdrawals::one_of),
    kind("unlisted", [14, 40, 52], "of a number that isn't listed", withdrawals::unlisted),
    kind("no-number", [12, 40, 32], "malformed withdrawals", withdrawals::malformed),
    kind("buffers", [10, 22, 14], "a buffer of another length", unfit::buffers),
];

impl Player {
    /// The next call on what the catalogue holds, with its kind.
    pub fn draw(&mut self, catalogue: &Catalogue) -> (usize, Sent) {
        let held = catalogue.held().len();
        match self.phase {
            Phase::Fill if held == PLACES => self.left = self.left.min(BEYOND),
            Phase::Drain if held == 0 => self.left = self.left.min(BEYOND),
            _ => {}
        }
        if self.left == 0 {
            (self.phase, self.left) = self.phase.next(&mut self.random);
        }
        self.left -= 1;
        let kind = self.by_share();
        let mut sent = (PLAY_KINDS[kind].make)(self, catalogue);
        if self.is_short {
            sent.text.truncate(MOST_SHORT);
        }
        (kind, sent)
    }

    /// A kind, each as likely as its share in this phase says.
    fn by_share(&mut self) -> usize {
        let (phase, is_short) = (self.phase as usize, self.is_short);
        let share = |kind: &PlayKind| match is_short && kind.name == "buffers" {
            true => 0,
            false => kind.shares[phase],
        };
        self.random.by_share(&PLAY_KINDS.each_ref().map(share))
    }

    /// Withdrawals that read back what is held: of all numbers, or in a short play of those listed and of some
    /// others, in any order.
    pub fn reading_back(&mut self, catalogue: &Catalogue) -> Vec<Sent> {
        withdrawals::reading_back(self, catalogue)
    }
}

/// The calls for which a phase goes on when the catalogue is full, or empty.
const BEYOND: usize = 8;

/// The most bytes of a short play's text; longer ones are cut, and refused all the same.
const MOST_SHORT: usize = 1_026;
