//! Puvainy's entries from Rust: the archive's functions over slices, and buffers that they are asked with.

mod buffers;
pub mod entries;

pub use buffers::{Asked, Buffers, Room};

/// The numbers of a slot.
pub const SLOT: usize = 40;

/// The most slots that are used.
pub const MOST_SLOTS: usize = 65_535;

/// The most bytes of a job, of one of FIND, of a derivation, and of a put or a withdrawal.
pub const MOST_JOB: usize = 1024;
pub const MOST_FIND_JOB: usize = 4096;
pub const MOST_DERIVATION: usize = 8192;
pub const MOST_PUT: usize = 1024;

/// The most right sides of a job of FIND.
pub const MOST_RIGHTS: usize = 16;

/// The most bytes of room that are given: more than any answer has.
pub const MOST_ROOM: usize = 1 << 25;

/// What an answer's length, or the count of kinds, is added to in the number that an entry returns.
pub const ANSWER: usize = 100;

/// The numbers of a catalogue; zeros are an empty one.
pub const CATALOGUE: usize = 346_113;

/// The numbers of each of its places, of which the first is the entry's number, 0 where the place is free; the most places.
pub const PLACE: usize = 5408;
pub const MOST_PLACES: usize = 64;

/// The least and the most number of an entry.
pub const LEAST_NUMBER: usize = 1;
pub const MOST_NUMBER: usize = 999;

/// An entry that takes a text: a job, or CHECK's derivation.
#[derive(Clone, Copy, Debug, Eq, PartialEq)]
pub enum Entry {
    Find,
    Words,
    Rename,
    Check,
    Same,
    Weigh,
}

impl Entry {
    pub const ALL: [Entry; 6] = [
        Entry::Find,
        Entry::Words,
        Entry::Rename,
        Entry::Check,
        Entry::Same,
        Entry::Weigh,
    ];

    pub fn name(self) -> &'static str {
        match self {
            Entry::Find => "find",
            Entry::Words => "words",
            Entry::Rename => "rename",
            Entry::Check => "check",
            Entry::Same => "same",
            Entry::Weigh => "weigh",
        }
    }

    pub fn named(name: &str) -> Option<Entry> {
        Entry::ALL.into_iter().find(|entry| entry.name() == name)
    }

    /// The most bytes of a text that the entry takes.
    pub fn most_job(self) -> usize {
        match self {
            Entry::Find => MOST_FIND_JOB,
            Entry::Words | Entry::Rename | Entry::Same | Entry::Weigh => MOST_JOB,
            Entry::Check => MOST_DERIVATION,
        }
    }

    /// The most right sides of such a text.
    pub fn most_rights(self) -> usize {
        match self {
            Entry::Find => MOST_RIGHTS,
            _ => 1,
        }
    }

    /// Whether it searches, and so takes the workspace.
    pub fn searches(self) -> bool {
        matches!(self, Entry::Find | Entry::Weigh)
    }

    /// Calls the entry over lent buffers: what it returns.
    pub fn call(self, job: &[u8], output: &mut [u8], workspace: &mut [u32]) -> usize {
        match self {
            Entry::Find => entries::find(job, output, workspace),
            Entry::Words => entries::words(job, output),
            Entry::Rename => entries::rename(job, output),
            Entry::Check => entries::check(job, output),
            Entry::Same => entries::same(job, output),
            Entry::Weigh => entries::weigh(job, output, workspace),
        }
    }
}

/// An entry that changes a catalogue by a text: a put or a withdrawal.
#[derive(Clone, Copy, Debug, Eq, PartialEq)]
pub enum Change {
    Put,
    Withdraw,
}

impl Change {
    pub const ALL: [Change; 2] = [Change::Put, Change::Withdraw];

    pub fn name(self) -> &'static str {
        match self {
            Change::Put => "put",
            Change::Withdraw => "withdraw",
        }
    }

    /// Calls the entry over a lent catalogue: what it returns.
    pub fn call(self, text: &[u8], catalogue: &mut [u32]) -> usize {
        match self {
            Change::Put => entries::put(text, catalogue),
            Change::Withdraw => entries::withdraw(text, catalogue),
        }
    }
}

#[cfg(test)]
mod tests {
    use std::fs;
    use std::path::{Path, PathBuf};

    use super::*;

    #[test]
    fn the_numbers_are_those_of_the_header() {
        let header = include_str!("../../include/puvainy.h");
        let numbers = [
            ("SLOT", SLOT),
            ("MOST_SLOTS", MOST_SLOTS),
            ("MOST_JOB", MOST_JOB),
            ("MOST_FIND_JOB", MOST_FIND_JOB),
            ("MOST_DERIVATION", MOST_DERIVATION),
            ("MOST_PUT", MOST_PUT),
            ("MOST_RIGHTS", MOST_RIGHTS),
            ("CATALOGUE", CATALOGUE),
            ("PLACE", PLACE),
            ("MOST_PLACES", MOST_PLACES),
            ("LEAST_NUMBER", LEAST_NUMBER),
            ("MOST_NUMBER", MOST_NUMBER),
            ("ANSWER", ANSWER),
        ];
        for (name, number) in numbers {
            let line = format!("\n#define PUVAINY_{name} {number}\n");
            assert!(header.contains(&line), "{name}");
        }
    }

    /// The names of all entries.
    fn names() -> Vec<&'static str> {
        let names = Entry::ALL.into_iter().map(Entry::name);
        names
            .chain(Change::ALL.into_iter().map(Change::name))
            .collect()
    }

    #[test]
    fn the_header_declares_every_entry_and_its_stack() {
        let header = include_str!("../../include/puvainy.h");
        for name in names() {
            let upper = name.to_uppercase();
            assert!(header.contains(&format!("\nsize_t puvainy_{name}(const uint8_t *")));
            assert!(header.contains(&format!("\n#define PUVAINY_{upper}_STACK ")));
        }
    }

    #[test]
    fn every_entry_is_found_by_its_name() {
        for entry in Entry::ALL {
            assert_eq!(Entry::named(entry.name()), Some(entry));
        }
        assert_eq!(Entry::named("FIND"), None);
        assert_eq!(Entry::named(""), None);
    }

    /// The Rust files below a folder of the repository, but for what is built.
    fn sources(folder: PathBuf) -> Vec<(PathBuf, String)> {
        let mut files = Vec::new();
        for entry in fs::read_dir(folder).unwrap() {
            let path = entry.unwrap().path();
            if path.is_dir() && !path.ends_with("target") {
                files.extend(sources(path));
            } else if path.extension().is_some_and(|ending| ending == "rs") {
                let text = fs::read_to_string(&path).unwrap();
                files.push((path, text));
            }
        }
        files
    }

    #[test]
    fn the_entries_are_declared_once() {
        let repository = Path::new(env!("CARGO_MANIFEST_DIR")).join("..");
        let folders = ["cli", "bench", "oracle", "examples"].map(|folder| repository.join(folder));
        let files: Vec<_> = folders.into_iter().flat_map(sources).collect();
        for name in names() {
            let declaration = format!("fn puvainy_{name}(");
            let declaring = files.iter().filter(|(_, text)| text.contains(&declaration));
            let declaring: Vec<_> = declaring.map(|(file, _)| file).collect();
            assert!(matches!(declaring[..], [file] if file.ends_with("cli/src/entries.rs")));
        }
        let blocks = include_str!("entries.rs").matches("unsafe {").count();
        assert_eq!(blocks, names().len());
    }
}
