//! One job or derivation put to the entry: what is printed of it, and what is said to people.

use std::sync::Arc;

use puvainy::{Buffers, Entry, Room};

use super::blocks::{Block, blocks};
use super::{Asking, Told, advice, parting};
use crate::derivation::Derivation;
use crate::failure::{Failure, Status};
use crate::job::Job;
use crate::refusals::{self, DERIVATIONS, Fault, Found};
use crate::streams::{MOST_TEXT, Source};

/// One thread's asker, with buffers of its own.
pub struct Asker {
    asking: Arc<Asking>,
    buffers: Buffers,
}

impl Asker {
    /// An asker with the slots that the entry uses.
    pub fn new(asking: Arc<Asking>) -> Asker {
        let slots = match asking.entry.searches() {
            true => asking.slots,
            false => 0,
        };
        Asker {
            buffers: Buffers::new(slots, asking.room),
            asking,
        }
    }

    /// Reads the text and asks the entry.
    pub fn ask(&mut self, source: &Source) -> Told {
        let bytes = match source.read_begin(MOST_TEXT) {
            Ok(bytes) => bytes,
            Err(Failure(why)) => return Told::failed(why),
        };
        let (name, asking) = (source.name(), &*self.asking);
        let number = match self.buffers.ask(asking.entry, &bytes) {
            Ok(good) if asking.entry == Entry::Check => return Told::answered(good),
            Ok(answer) => return answered(&name, answer, &bytes, asking),
            Err(number) => number,
        };
        let said = match asking.entry {
            Entry::Check => self.broken(&name, number, &bytes),
            _ => refused(&name, number, &Job::new(asking.entry, &bytes), asking),
        };
        Told::refused(number, said)
    }

    /// What is said of a refused derivation. Which of its lines are no chain's is asked of the entry, line by line.
    fn broken(&mut self, name: &str, number: usize, bytes: &[u8]) -> Vec<String> {
        let (derivation, asking) = (Derivation::new(bytes), &*self.asking);
        let holds = |text: &[u8]| {
            let asked = self.buffers.ask(Entry::Check, text);
            matches!(asked, Ok(_) | Err(TOO_LONG))
        };
        let found = derivation.fault(number, holds);
        let found = found.or_else(|| little_room(number, Fault::Room, asking));
        let at = at_fault(&found);
        let told = refusals::sentence(&DERIVATIONS, number, found);
        let mut said = vec![format!("{name}: {told}")];
        for (key, term) in derivation.terms(&at) {
            said.extend(asking.names.side(&key, term));
        }
        said
    }
}

/// The refusal that is looked at last: a derivation that meets it is a chain.
const TOO_LONG: usize = 8;

/// What the answer to a job gives.
fn answered(name: &str, answer: &[u8], bytes: &[u8], asking: &Asking) -> Told {
    let (job, blocks) = (Job::new(asking.entry, bytes), blocks(answer));
    let said = match asking.entry {
        Entry::Words => parting::sentences(name, answer, &asking.names),
        _ => advice::sentences(name, &job, &blocks, asking),
    };
    Told {
        status: status(&blocks),
        said,
        printed: answer.to_vec(),
    }
}

/// The sides or lines that the fault is in.
fn at_fault(found: &Option<Found>) -> Vec<usize> {
    found
        .as_ref()
        .map_or_else(Vec::new, |found| found.sides.clone())
}

/// The status of an answer: as of several jobs, one for each block.
fn status(blocks: &[Block]) -> Status {
    match blocks.iter().any(Block::is_refused) {
        true => Status::Refused,
        false => Status::Answered,
    }
}

/// What is said of a refused job. Of several right sides only those at fault are shown, if there are any.
fn refused(name: &str, number: usize, job: &Job, asking: &Asking) -> Vec<String> {
    let found = job.fault(number).or_else(|| lacking(number, job, asking));
    let at = at_fault(&found);
    let rows = refusals::of_jobs(asking.entry);
    let told = refusals::sentence(rows, number, found);
    let mut said = vec![format!("{name}: {told}")];
    for (key, side) in job.sides(|right| at.is_empty() || at.contains(&right)) {
        said.extend(asking.names.side(&key, side));
    }
    said
}

/// What the job was given too little of.
fn lacking(number: usize, job: &Job, asking: &Asking) -> Option<Found> {
    let too_long = job.one_or_several(Fault::Room, Fault::RoomRights);
    match number {
        7 => Some(advice::too_few(Fault::Slots, asking.slots)),
        _ => little_room(number, too_long, asking),
    }
}

/// The fault of an answer that is too long, with the room that was given.
fn little_room(number: usize, fault: Fault, asking: &Asking) -> Option<Found> {
    match (number, asking.room) {
        (TOO_LONG, Room::Bytes(bytes)) => {
            let place = format!("with --room {bytes}");
            Some(Found::new(fault, place, Vec::new()))
        }
        _ => None,
    }
}
