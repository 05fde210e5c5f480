//! Files and standard streams, read and written so that no error is passed over.

use std::ffi::OsStr;
use std::fs::File;
use std::io::{BufWriter, Error, IsTerminal, Read, Write, stdin, stdout};
use std::os::fd::AsFd;
use std::os::unix::ffi::OsStrExt;
use std::path::PathBuf;

use crate::closed;
use crate::failure::{Failure, plain, say, shown};

/// More bytes than any text for an entry may have, so that a longer text is refused and an endless one is not read on.
pub const MOST_TEXT: usize = 1 << 16;

/// Where a text comes from.
#[derive(Clone, Debug, Eq, PartialEq)]
pub enum Source {
    Input,
    File(PathBuf),
}

impl Source {
    /// The file of that name; `-` is standard input.
    pub fn named(name: &OsStr) -> Source {
        match name == "-" {
            true => Source::Input,
            false => Source::File(PathBuf::from(name)),
        }
    }

    /// The line above its answer among several: `# FILE` as it was given, but for a line feed in the name, which is written `\n`.
    pub fn header(&self) -> Vec<u8> {
        let name = match self {
            Source::Input => b"-",
            Source::File(path) => path.as_os_str().as_bytes(),
        };
        let mut header = b"# ".to_vec();
        for &byte in name {
            match byte {
                b'\n' => header.extend(b"\\n"),
                _ => header.push(byte),
            }
        }
        header.push(b'\n');
        header
    }

    /// Its name for people.
    pub fn name(&self) -> String {
        match self {
            Source::Input => "standard input".to_owned(),
            Source::File(path) if path.as_os_str().is_empty() => "\"\"".to_owned(),
            Source::File(path) => shown(&path.to_string_lossy()),
        }
    }

    /// All of it, if it has at most so many bytes.
    pub fn read(&self, most: usize) -> Result<Vec<u8>, Failure> {
        let bytes = self.read_begin(most + 1)?;
        match bytes.len() <= most {
            true => Ok(bytes),
            false => Err(self.unread(&format!("it has over {most} bytes"))),
        }
    }

    /// At most so many bytes of it, from the beginning.
    pub fn read_begin(&self, most: usize) -> Result<Vec<u8>, Failure> {
        let read = match self {
            Source::Input if closed::input() => return Err(self.unread("it is closed")),
            Source::Input => input().and_then(|file| read(file, most)),
            Source::File(path) => File::open(path).and_then(|file| read(file, most)),
        };
        read.map_err(|error| self.unread(&plain(&error)))
    }

    fn unread(&self, why: &str) -> Failure {
        Failure(format!("cannot read {}: {why}", self.name()))
    }
}

/// Says that one of the texts is to be typed at the terminal, if so.
pub fn tell_typed(texts: &[Source], what: &str) {
    if texts.contains(&Source::Input) && stdin().is_terminal() {
        say(&format!(
            "reading a {what} from the terminal; end it by Ctrl-D"
        ));
    }
}

/// Standard input as a file: the library's own takes one that may not be read for an empty one.
fn input() -> Result<File, Error> {
    Ok(File::from(stdin().as_fd().try_clone_to_owned()?))
}

fn read(file: File, most: usize) -> Result<Vec<u8>, Error> {
    let mut bytes = Vec::new();
    file.take(most as u64).read_to_end(&mut bytes)?;
    Ok(bytes)
}

/// Standard output. Each failure to write is told, and none is met with silence.
pub struct Output<W: Write>(BufWriter<W>);

impl Output<File> {
    /// Standard output as a file: the library's own passes over one that may not be written.
    pub fn standard() -> Result<Output<File>, Failure> {
        if closed::output() {
            return Err(unwritten("it is closed"));
        }
        let file = stdout()
            .as_fd()
            .try_clone_to_owned()
            .map_err(cannot_write)?;
        Ok(Output::new(File::from(file)))
    }
}

impl<W: Write> Output<W> {
    pub fn new(to: W) -> Output<W> {
        Output(BufWriter::new(to))
    }

    pub fn write(&mut self, bytes: &[u8]) -> Result<(), Failure> {
        self.0.write_all(bytes).map_err(cannot_write)
    }

    /// Sees to it that what was written is out.
    pub fn flush(&mut self) -> Result<(), Failure> {
        self.0.flush().map_err(cannot_write)
    }
}

/// Prints one text on standard output.
pub fn print(text: &str) -> Result<(), Failure> {
    let mut output = Output::standard()?;
    output.write(text.as_bytes())?;
    output.flush()
}

fn cannot_write(error: Error) -> Failure {
    unwritten(&plain(&error))
}

fn unwritten(why: &str) -> Failure {
    Failure(format!("cannot write to standard output: {why}"))
}

#[cfg(test)]
mod tests {
    use super::*;

    #[test]
    fn a_header_is_the_name_as_it_was_given() {
        let header = |name: &[u8]| Source::named(OsStr::from_bytes(name)).header();
        assert_eq!(header(b"a b.job"), b"# a b.job\n");
        assert_eq!(header(b"\xff\\.job"), b"# \xff\\.job\n");
        assert_eq!(header(b"new\nline"), b"# new\\nline\n");
        assert_eq!(header(b"-"), b"# -\n");
    }
}
