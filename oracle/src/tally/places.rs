//! At which places lists of words part.

use std::fmt;

/// How many lists part at the first word, how many elsewhere by the digits of the place, and the largest place.
#[derive(Default)]
pub struct Places {
    zero: usize,
    /// Of one digit, of two, of three.
    digits: [usize; 3],
    most: usize,
}

impl Places {
    pub fn count(&mut self, place: usize) {
        match place {
            0 => self.zero += 1,
            _ => self.digits[place.ilog10() as usize] += 1,
        }
        self.most = self.most.max(place);
    }

    pub fn add(&mut self, other: &Places) {
        self.zero += other.zero;
        for (count, more) in self.digits.iter_mut().zip(other.digits) {
            *count += more;
        }
        self.most = self.most.max(other.most);
    }
}

impl fmt::Display for Places {
    fn fmt(&self, out: &mut fmt::Formatter<'_>) -> fmt::Result {
        let Places {
            zero,
            digits: [one, two, three],
            most,
        } = self;
        write!(
            out,
            "parted at 0 in {zero}, at 1 to 9 in {one}, at 10 to 99 in {two}, at 100 and more in {three}, up to {most}"
        )
    }
}
