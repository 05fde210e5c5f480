//! What SAME's answers rest on: counts of words, or lists.

use std::fmt;

use super::places::Places;
use crate::Entry;
use crate::plain::job::{Equation, Job};
use crate::plain::same::{YES, count};
use crate::plain::words::{first_difference, words};

/// The answers that say yes, those that say no by the counts alone, and of the others where the lists part.
#[derive(Default)]
pub struct Same {
    yes: usize,
    by_counts: usize,
    places: Places,
}

impl Same {
    /// Counts the answer to a job.
    pub fn count(&mut self, job: &[u8], answer: &[u8]) {
        if answer == YES.as_bytes() {
            self.yes += 1;
            return;
        }
        let job = Job::read(Entry::Same, job).expect("a good job");
        let Equation { left, right } = &job.equations[0];
        if count(left) != count(right) {
            self.by_counts += 1;
            return;
        }
        let place = first_difference(&words(left), &words(right));
        self.places.count(place.expect("the words differ"));
    }

    pub fn add(&mut self, other: &Same) {
        self.yes += other.yes;
        self.by_counts += other.by_counts;
        self.places.add(&other.places);
    }
}

impl fmt::Display for Same {
    fn fmt(&self, out: &mut fmt::Formatter<'_>) -> fmt::Result {
        let Same {
            yes,
            by_counts,
            places,
        } = self;
        write!(
            out,
            "SAME: yes in {yes}, no by the counts in {by_counts}, else {places}"
        )
    }
}
