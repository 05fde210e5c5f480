//! What WEIGH's answers say: totals and lines of paths, how near those in hand are, `cut`, and how many were put beside
//! FIND.

use std::collections::BTreeMap;
use std::fmt;

use super::{add, show_each};
use crate::checked::beside_find;
use crate::plain::weigh::job::WeighJob;
use crate::plain::weigh::said::{Said, said};

/// The answers by lines and by totals of their paths; the nones, with those of them that say `cut=yes`.
#[derive(Default)]
pub struct Weigh {
    lines: BTreeMap<usize, usize>,
    totals: BTreeMap<usize, usize>,
    in_hand: InHand,
    nones: [usize; 2],
    beside_find: Beside,
}

/// The answers with a path in hand, by its lines and by how much heavier it is than no path is.
#[derive(Default)]
struct InHand {
    lines: BTreeMap<usize, usize>,
    above: BTreeMap<usize, usize>,
}

/// Of the answers whose weights are all alike those that FIND's were put beside: proved, with a path in hand, nones, and
/// nones that say `cut=yes`, of which FIND tells nothing.
#[derive(Default)]
struct Beside([usize; 4]);

impl Weigh {
    /// Counts the answer to a job.
    pub fn count(&mut self, job: &[u8], answer: &[u8]) {
        let (job, said) = (WeighJob::read(job).expect("a good job"), said(answer));
        let beside = match said {
            Said::Proved { .. } => 0,
            Said::AtMost {
                steps,
                total,
                atleast,
                ..
            } => {
                let InHand { lines, above } = &mut self.in_hand;
                *lines.entry(steps).or_default() += 1;
                *above.entry(total - atleast).or_default() += 1;
                1
            }
            Said::None { cut, .. } => {
                self.nones[usize::from(cut)] += 1;
                2 + usize::from(cut)
            }
        };
        if let (Some(steps), Some(total)) = (said.steps(), said.total()) {
            *self.lines.entry(steps).or_default() += 1;
            *self.totals.entry(total).or_default() += 1;
        }
        if beside_find(&job, &said).is_some() {
            self.beside_find.0[beside] += 1;
        }
    }

    pub fn add(&mut self, other: Weigh) {
        add(&mut self.lines, other.lines);
        add(&mut self.totals, other.totals);
        add(&mut self.in_hand.lines, other.in_hand.lines);
        add(&mut self.in_hand.above, other.in_hand.above);
        for (count, more) in self.nones.iter_mut().zip(other.nones) {
            *count += more;
        }
        let beside = self.beside_find.0.iter_mut();
        for (count, more) in beside.zip(other.beside_find.0) {
            *count += more;
        }
    }

    /// How many totals are in a range.
    fn totals(&self, range: std::ops::Range<usize>) -> usize {
        self.totals.range(range).map(|(_, count)| count).sum()
    }
}

impl fmt::Display for Weigh {
    fn fmt(&self, out: &mut fmt::Formatter<'_>) -> fmt::Result {
        let most = self.totals.keys().max().unwrap_or(&0);
        let [low, middle, high] = [0..10, 10..30, 30..100].map(|range| self.totals(range));
        let [no, yes] = self.nones;
        let Beside([proved, in_hand, none, cut]) = self.beside_find;
        write!(out, "WEIGH: lines {}; ", show_each(&self.lines))?;
        write!(
            out,
            "totals below 10 in {low}, below 30 in {middle}, above in {high}, up to {most}; {}; cut=no in {no}, cut=yes in {yes}; ",
            self.in_hand
        )?;
        write!(
            out,
            "all weights alike, beside FIND: proved {proved}, atmost {in_hand}, none {none}, none with cut=yes {cut}"
        )
    }
}

impl fmt::Display for InHand {
    fn fmt(&self, out: &mut fmt::Formatter<'_>) -> fmt::Result {
        let InHand { lines, above } = self;
        let count: usize = lines.values().sum();
        let most = lines.keys().max().unwrap_or(&0);
        let (lines, above) = (show_each(lines), show_each(above));
        write!(
            out,
            "atmost {count}: lines {lines}, up to {most}; total above atleast by {above}"
        )
    }
}
