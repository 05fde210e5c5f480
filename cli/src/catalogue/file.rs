//! The file in which a catalogue is kept: its numbers, the low byte first. A changed catalogue is written to a new file, seen to the disk,
//! and then given the file's name: wherever that is stopped, the file is the old catalogue or the new one, and whole. The host in C
//! (examples/catalogue.c) keeps such a file in the same way, with the same names beside it.

use std::ffi::OsStr;
use std::fs::{self, File, OpenOptions, TryLockError};
use std::io::{Error, ErrorKind, Write};
use std::path::{Path, PathBuf};

use puvainy::CATALOGUE;

use crate::failure::{Failure, plain};
use crate::streams::Source;

/// The bytes of each number, and of the whole file.
const NUMBER: usize = 4;
const BYTES: usize = NUMBER * CATALOGUE;

pub struct Kept {
    /// The file's name for people, as it was given.
    name: String,
    file: PathBuf,
    /// What is written before it takes the file's name.
    new: PathBuf,
    /// Empty, and left where it is: whoever holds its lock may change the catalogue.
    lock: PathBuf,
}

impl Kept {
    /// The catalogue's file of that name. Of a link the file that it leads to is taken, so that all who change it meet at one lock.
    pub fn named(name: &OsStr) -> Result<Kept, Failure> {
        let path = Path::new(name);
        let is_new = |error: &Error| {
            let is_missing = error.kind() == ErrorKind::NotFound && !name.is_empty();
            is_missing && fs::symlink_metadata(path).is_err()
        };
        let found = match fs::canonicalize(path) {
            Err(error) if is_new(&error) => Ok(path.to_owned()),
            Ok(file) if file.is_dir() => Err(ErrorKind::IsADirectory.into()),
            Ok(file) if !file.is_file() => Err(Error::other("it keeps nothing")),
            found => found,
        };
        let shown = Source::File(path.to_owned()).name();
        let file = found.map_err(|error| cannot("read", &shown, &error))?;
        let beside = |ending| {
            let mut name = file.clone().into_os_string();
            name.push(ending);
            PathBuf::from(name)
        };
        Ok(Kept {
            name: shown,
            new: beside(".new"),
            lock: beside(".lock"),
            file,
        })
    }

    pub fn name(&self) -> &str {
        &self.name
    }

    /// Whether a file is there that is no catalogue: it is left alone, and nothing is put beside it.
    pub fn is_other(&self) -> bool {
        fs::metadata(&self.file).is_ok_and(|is| is.len() != BYTES as u64)
    }

    /// Waits until nobody else changes the catalogue, and tells if that takes a while.
    pub fn lock(&self, tell: impl FnOnce(&str)) -> Result<Locked<'_>, Failure> {
        let cannot = |error| cannot("lock", &self.name, &error);
        let mut options = OpenOptions::new();
        let made = options.write(true).create(true).open(&self.lock);
        // One that another user has made need only be read.
        let lock = made.or_else(|error| File::open(&self.lock).map_err(|_| error));
        let lock = lock.map_err(cannot)?;
        let locked = match lock.try_lock() {
            Err(TryLockError::WouldBlock) => {
                tell(&format!("waiting: {} is in use", self.name));
                lock.lock()
            }
            Err(TryLockError::Error(error)) => Err(error),
            Ok(()) => Ok(()),
        };
        locked.map_err(cannot)?;
        Ok(Locked {
            kept: self,
            _lock: lock,
        })
    }

    /// Makes the new file, with the permissions of the old one, and sees it to the disk. What a stopped run may have left there is gone.
    fn write_new(&self, numbers: &[u32]) -> Result<(), Error> {
        match fs::remove_file(&self.new) {
            Err(error) if error.kind() != ErrorKind::NotFound => return Err(error),
            _ => {}
        }
        let mut options = OpenOptions::new();
        let mut new = options.write(true).create_new(true).open(&self.new)?;
        if let Ok(old) = fs::metadata(&self.file) {
            new.set_permissions(old.permissions())?;
        }
        let bytes: Vec<u8> = numbers.iter().flat_map(|n| n.to_le_bytes()).collect();
        new.write_all(&bytes)?;
        new.sync_all()
    }

    /// Sees the file's name to the disk.
    fn write_folder(&self) -> Result<(), Error> {
        let folder = match self.file.parent() {
            Some(folder) if !folder.as_os_str().is_empty() => folder,
            _ => Path::new("."),
        };
        File::open(folder)?.sync_all()
    }
}

/// A catalogue's file that nobody else changes, until this is dropped or the process ends.
pub struct Locked<'a> {
    kept: &'a Kept,
    _lock: File,
}

impl Locked<'_> {
    /// The catalogue's numbers, zeros if there is no file yet; none if the file is no catalogue.
    pub fn read(&self) -> Result<Vec<u32>, Failure> {
        if self.kept.is_other() {
            return Ok(Vec::new());
        }
        let bytes = match fs::read(&self.kept.file) {
            Err(error) if error.kind() == ErrorKind::NotFound => return Ok(vec![0; CATALOGUE]),
            read => read.map_err(|error| cannot("read", &self.kept.name, &error))?,
        };
        let (numbers, _) = bytes.as_chunks::<NUMBER>();
        Ok(numbers.iter().copied().map(u32::from_le_bytes).collect())
    }

    /// Puts the changed catalogue in the place of the old one. Once this is done, it is on the disk.
    pub fn write(&self, numbers: &[u32]) -> Result<(), Failure> {
        let Kept {
            name, file, new, ..
        } = self.kept;
        let written = self.kept.write_new(numbers);
        written
            .and_then(|()| fs::rename(new, file))
            .map_err(|error| {
                let _ = fs::remove_file(new);
                let Failure(why) = cannot("write", name, &error);
                Failure(format!("{why}; the catalogue is as it was"))
            })?;
        self.kept.write_folder().map_err(|error| {
            let Failure(why) = cannot("write the folder of", name, &error);
            Failure(format!(
                "{why}; the catalogue is changed, but may be the old one if the machine stops"
            ))
        })
    }
}

fn cannot(verb: &str, name: &str, error: &Error) -> Failure {
    Failure(format!("cannot {verb} {name}: {}", plain(error)))
}
