//! Buffers lent to a call out of the middle of longer ones.

/// How many elements on each side of a lent part are watched.
const MARGIN: usize = 64;

/// A long buffer that keeps its contents from call to call.
#[derive(Default)]
pub struct Buffer<T> {
    all: Vec<T>,
    start: usize,
    length: usize,
    /// What stood in the margins when the part was lent.
    margins: [Vec<T>; 2],
}

impl<T: Copy + Default + PartialEq> Buffer<T> {
    /// Chooses a part of this length, which starts a little off the buffer's own start.
    pub fn choose(&mut self, off: usize, length: usize) {
        self.start = MARGIN + off;
        self.length = length;
        let needed = self.start + length + MARGIN;
        if self.all.len() < needed {
            self.all.resize(needed, T::default());
        }
    }

    /// Fills the chosen part.
    pub fn fill(&mut self, mut value: impl FnMut() -> T) {
        self.part_mut().fill_with(&mut value);
    }

    /// Fills the margins, and remembers what stands there.
    pub fn watch(&mut self, mut value: impl FnMut() -> T) {
        let end = self.start + self.length;
        for range in [self.start - MARGIN..self.start, end..end + MARGIN] {
            self.all[range].fill_with(&mut value);
        }
        self.margins = self.around();
    }

    pub fn part(&self) -> &[T] {
        &self.all[self.start..self.start + self.length]
    }

    pub fn part_mut(&mut self) -> &mut [T] {
        &mut self.all[self.start..self.start + self.length]
    }

    /// Whether the margins are as they were.
    pub fn is_kept_around(&self) -> bool {
        self.around() == self.margins
    }

    fn around(&self) -> [Vec<T>; 2] {
        let end = self.start + self.length;
        [self.start - MARGIN..self.start, end..end + MARGIN].map(|range| self.all[range].to_vec())
    }
}
