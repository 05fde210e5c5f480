//! Calls made from a seed, by kind.

mod bent;
mod broken;
mod chains;
mod changes;
mod cuts;
mod derived;
mod draft;
mod equations;
mod far;
mod hand;
mod kinds;
mod listed;
mod measured;
mod most;
mod names;
mod parted;
mod plans;
mod plays;
mod puts;
mod random;
mod refused;
mod same;
mod searched;
mod spoilt;
mod tables;
mod terms;
mod unfit;
mod unread;
mod unweighed;
mod weigh;
mod withdrawals;

use crate::{About, Call};
pub use kinds::{KINDS, Kind};
pub use names::{Names, PAIR_KINDS, Pair};
pub use plays::{PLAY_KINDS, Player, Plays};
pub use random::Random;

/// Which calls to make.
#[derive(Clone, Debug)]
pub struct Plan {
    pub seed: u64,
    pub count: u64,
    /// One kind, or all by their shares.
    pub kind: Option<usize>,
    /// Which kinds are among the mixed; all, if none is said.
    pub about: Vec<About>,
    /// No heavy calls among the mixed.
    pub light: bool,
    pub most_bytes: usize,
    pub most_slots: usize,
    pub most_room: usize,
}

impl Default for Plan {
    fn default() -> Plan {
        Plan {
            seed: 1,
            count: 1_000,
            kind: None,
            about: Vec::new(),
            light: false,
            most_bytes: usize::MAX,
            most_slots: usize::MAX,
            most_room: usize::MAX,
        }
    }
}

impl Plan {
    /// The calls in order, each with its kind.
    pub fn calls(&self) -> impl Iterator<Item = (usize, Call)> + '_ {
        (0..self.count).map(|index| self.call(index))
    }

    /// The call of this index, whatever the others are, with its kind.
    pub fn call(&self, index: u64) -> (usize, Call) {
        let mut random = Random::new(self.seed, index);
        let kind = self.kind.unwrap_or_else(|| self.by_share(&mut random));
        let Kind { has_c, make, .. } = KINDS[kind];
        random = random.with_c(has_c);
        let mut call = make(&mut random);
        call.job.truncate(self.most_bytes);
        call.slots = call.slots.min(self.most_slots);
        call.room = call.room.min(self.most_room);
        (kind, call)
    }

    /// A kind, each as likely as its share says.
    fn by_share(&self, random: &mut Random) -> usize {
        let share = |kind: &Kind| {
            let is_light = !(self.light && kind.is_heavy());
            if is_light && kind.about.is_among(&self.about) {
                kind.share
            } else {
                0
            }
        };
        random.by_share(&KINDS.each_ref().map(share))
    }
}
