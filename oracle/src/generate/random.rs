//! Numbers drawn from a seed (splitmix64), the same on every machine.

pub struct Random {
    state: u64,
    /// Whether c letters are among the letters drawn.
    has_c: bool,
}

const STEP: u64 = 0x9e37_79b9_7f4a_7c15;

impl Random {
    /// The numbers for one call of a list, whatever the other calls draw.
    pub fn new(seed: u64, index: u64) -> Random {
        let mut first = Random::from(seed);
        Random::from(first.next() ^ index.wrapping_mul(STEP))
    }

    fn from(state: u64) -> Random {
        let has_c = false;
        Random { state, has_c }
    }

    /// The same numbers, for makers that draw c letters too.
    pub fn with_c(self, has_c: bool) -> Random {
        Random { has_c, ..self }
    }

    pub fn has_c(&self) -> bool {
        self.has_c
    }

    fn next(&mut self) -> u64 {
        self.state = self.state.wrapping_add(STEP);
        let mut mixed = self.state;
        mixed = (mixed ^ (mixed >> 30)).wrapping_mul(0xbf58_476d_1ce4_e5b9);
        mixed = (mixed ^ (mixed >> 27)).wrapping_mul(0x94d0_49bb_1331_11eb);
        mixed ^ (mixed >> 31)
    }

    /// A number below `count`.
    pub fn below(&mut self, count: usize) -> usize {
        ((self.next() >> 16) % count as u64) as usize
    }

    /// A number from `least` to `most`, both possible.
    pub fn between(&mut self, least: usize, most: usize) -> usize {
        least + self.below(most + 1 - least)
    }

    pub fn percent(&mut self, share: usize) -> bool {
        self.below(100) < share
    }

    pub fn byte(&mut self) -> u8 {
        self.below(256) as u8
    }

    pub fn pick<T: Clone>(&mut self, of: &[T]) -> T {
        of[self.below(of.len())].clone()
    }

    /// A place in the list, each as likely as the share there says.
    pub fn by_share(&mut self, shares: &[usize]) -> usize {
        let mut drawn = self.below(shares.iter().sum());
        let mut at = 0;
        while drawn >= shares[at] {
            drawn -= shares[at];
            at += 1;
        }
        at
    }

    /// One below, at, or one above the number.
    pub fn around(&mut self, number: usize) -> usize {
        (number + self.below(3)).saturating_sub(1)
    }

    pub fn shuffle<T>(&mut self, list: &mut [T]) {
        for last in (1..list.len()).rev() {
            list.swap(last, self.below(last + 1));
        }
    }
}
