//! The entries, called as a host calls them.

use oracle::Given;
use puvainy::{ANSWER, Entry, MOST_SLOTS, SLOT};

/// Room for any answer of the bench.
pub const ROOM: usize = 1 << 20;

/// The slots and the output that every call shares: each leaves them as it likes for the next.
pub struct Workspace {
    pub numbers: Vec<u32>,
    pub output: Vec<u8>,
}

impl Workspace {
    pub fn new() -> Workspace {
        Workspace {
            numbers: vec![0xdead_beef; MOST_SLOTS * SLOT],
            output: vec![0; ROOM],
        }
    }

    /// One call with so many slots and bytes of room: what it returns.
    pub fn call(&mut self, entry: Entry, text: &[u8], slots: usize, room: usize) -> usize {
        let (output, numbers) = (&mut self.output[..room], &mut self.numbers[..slots * SLOT]);
        entry.call(text, output, numbers)
    }

    /// The answer of one call.
    pub fn answer(&mut self, entry: Entry, text: &[u8], slots: usize, room: usize) -> Given {
        match self.call(entry, text, slots, room) {
            refused @ 0..ANSWER => Err(refused as u8),
            told => Ok(self.output[..told - ANSWER].to_vec()),
        }
    }
}
