//! Puts and withdrawals, made one after the other on a catalogue that is kept in a file. What is printed as done is on the disk.

mod file;
mod text;

use puvainy::{ANSWER, Change, MOST_PLACES, PLACE};

use crate::ask::{Printer, Told};
use crate::failure::{Failure, Status, counted};
use crate::names::Names;
use crate::refusals::{self, CHANGES, Fault, Found, JOBS};
use crate::streams::{MOST_TEXT, Source, tell_typed};
pub use file::Kept;
use text::Text;

/// What is done to a catalogue, by each of several texts.
pub struct Changing {
    pub change: Change,
    pub kept: Kept,
    pub names: Names,
}

/// Makes all the changes and prints what each gives. The status is the highest of any. A failure to keep the catalogue, or to print what
/// was kept, ends it: what follows might build on what failed.
pub fn make_all(changing: &Changing, texts: &[Source]) -> Result<Status, Failure> {
    let what = match changing.change {
        Change::Put => "put",
        Change::Withdraw => "withdrawal",
    };
    tell_typed(texts, what);
    let mut printer = Printer::standard(texts)?;
    let mut status = Status::Answered;
    for (place, text) in texts.iter().enumerate() {
        let name = text.name();
        let behind = match place + 1 < texts.len() {
            true => format!("; nothing behind {name} is done"),
            false => String::new(),
        };
        let made = changing.make(text, |line| printer.say(line));
        let told = made.map_err(|Failure(why)| Failure(format!("{name}: {why}{behind}")))?;
        status = status.max(told.status);
        let done = match told.status {
            Status::Answered => format!("; {name} is done"),
            _ => String::new(),
        };
        let printed = printer.print(text, &told).and_then(|()| printer.wait());
        printed.map_err(|Failure(why)| Failure(format!("{why}{done}{behind}")))?;
    }
    printer.finish()?;
    Ok(status)
}

impl Changing {
    /// Reads the text, and then makes the change while nobody else does. A file that is no catalogue is no numbers to the entry.
    fn make(&self, source: &Source, tell: impl FnOnce(&str)) -> Result<Told, Failure> {
        let bytes = match source.read_begin(MOST_TEXT) {
            Ok(bytes) => bytes,
            Err(Failure(why)) => return Ok(Told::failed(why)),
        };
        if self.kept.is_other() {
            return Ok(self.refused(source, self.change.call(&bytes, &mut []), &bytes, &[]));
        }
        let file = self.kept.lock(tell)?;
        let mut numbers = file.read()?;
        let number = self.change.call(&bytes, &mut numbers);
        let Some(kinds) = number.checked_sub(ANSWER) else {
            return Ok(self.refused(source, number, &bytes, &numbers));
        };
        file.write(&numbers)?;
        Ok(Told::answered(format!("kinds={kinds}\n").as_bytes()))
    }

    /// What is said of a refusal: of a put's terms with names both sides, of what the catalogue holds the numbers listed.
    fn refused(&self, source: &Source, number: usize, bytes: &[u8], numbers: &[u32]) -> Told {
        let text = Text::new(self.change, bytes);
        let here = |fault| Some(Found::new(fault, self.kept.name().to_owned(), Vec::new()));
        let found = match number {
            99 => here(Fault::NoCatalogue),
            15 => here(Fault::Full),
            _ => text.fault(number),
        };
        let told = refusals::sentence(CHANGES.iter().chain(&JOBS), number, found);
        let mut said = vec![format!("{}: {told}", source.name())];
        match number {
            13..=15 => said.push(format!("listed: {}", listed(numbers))),
            99 => {}
            _ => {
                let sides = text.sides().into_iter();
                said.extend(sides.filter_map(|(key, side)| self.names.side(&key, side)));
            }
        }
        Told::refused(number, said)
    }
}

/// The numbers of a catalogue's entries, in order.
fn listed(numbers: &[u32]) -> String {
    let places = numbers.chunks_exact(PLACE).take(MOST_PLACES);
    let mut listed: Vec<_> = places.map(|place| place[0] as usize).collect();
    listed.retain(|&number| number > 0);
    listed.sort_unstable();
    match listed[..] {
        [] => "nothing".to_owned(),
        _ => counted(listed),
    }
}

#[cfg(test)]
mod tests;
