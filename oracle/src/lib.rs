//! The oracle: what documents 01 and 02 and the Rust answer to a job, a derivation or a call on a catalogue.

pub mod cases;
pub mod checked;
pub mod generate;
pub mod list;
pub mod names;
pub mod options;
pub mod plain;
pub mod play;
pub mod rust;
pub mod tally;

/// The entries: CHECK takes a derivation, WEIGH a job of its own, the others a job.
#[derive(Clone, Copy, Debug, Eq, PartialEq)]
pub enum Entry {
    Find,
    Words,
    Rename,
    Check,
    Same,
    Weigh,
}

impl Entry {
    pub const ALL: [Entry; 6] = [
        Entry::Find,
        Entry::Words,
        Entry::Rename,
        Entry::Check,
        Entry::Same,
        Entry::Weigh,
    ];
    /// Those whose job has the six lines of document 01.
    pub const OF_JOBS: [Entry; 4] = [Entry::Find, Entry::Words, Entry::Rename, Entry::Same];

    pub fn name(self) -> &'static str {
        ["find", "words", "rename", "check", "same", "weigh"][self as usize]
    }

    /// The number that stands for it in lists. 5 and 6 are those of PUT and WITHDRAW.
    pub fn number(self) -> usize {
        [1, 2, 3, 4, 7, 8][self as usize]
    }

    pub fn named(name: &str) -> Option<Entry> {
        Entry::ALL.into_iter().find(|entry| entry.name() == name)
    }
}

/// What a call is about: a job of one right side or of several, some of which may be wrong, a
/// derivation for CHECK, any of these with c letters, or a job for SAME, for WEIGH, or for WEIGH with a path in hand where
/// nodes run out, with c letters or without.
#[derive(Clone, Copy, Debug, Eq, PartialEq)]
pub enum About {
    One,
    Many,
    Check,
    Fixed,
    Same,
    Weigh,
    AtMost,
}

impl About {
    /// Whether it is one of these, which are all if none is said.
    pub fn is_among(self, these: &[About]) -> bool {
        these.is_empty() || these.contains(&self)
    }
}

/// What a call gives: the answer's bytes, or the number of the refusal.
pub type Given = Result<Vec<u8>, u8>;

/// The slots and the output bytes of the program that runs FIND.
pub const PROGRAM_SLOTS: usize = 400;
pub const PROGRAM_ROOM: usize = 32_768;

/// One call: the entry, the whole slots, the output's bytes and the text's: a job or a derivation.
#[derive(Clone, Debug, Eq, PartialEq)]
pub struct Call {
    pub entry: Entry,
    pub slots: usize,
    pub room: usize,
    pub job: Vec<u8>,
}

/// The entries on a catalogue.
#[derive(Clone, Copy, Debug, Eq, PartialEq)]
pub enum Ask {
    Put,
    Withdraw,
}

impl Ask {
    pub fn name(self) -> &'static str {
        ["put", "withdraw"][self as usize]
    }

    /// The number that stands for it in lists.
    pub fn number(self) -> usize {
        [5, 6][self as usize]
    }
}

/// The numbers of a catalogue's buffer.
pub const CATALOGUE: usize = 346_113;

/// One call on a catalogue: the entry, the numbers of the buffer and the text.
#[derive(Clone, Debug, Eq, PartialEq)]
pub struct Sent {
    pub ask: Ask,
    pub numbers: usize,
    pub text: Vec<u8>,
}

impl Sent {
    /// A call on a catalogue's whole buffer.
    pub fn new(ask: Ask, text: impl Into<Vec<u8>>) -> Sent {
        Sent {
            ask,
            numbers: CATALOGUE,
            text: text.into(),
        }
    }

    pub fn show(&self) -> String {
        let Sent { ask, numbers, text } = self;
        let text = String::from_utf8_lossy(text);
        format!("entry={} numbers={numbers}\n--- text\n{text}\n", ask.name())
    }
}
