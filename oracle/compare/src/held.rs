//! One call of the library with dirty buffers, held to what is due.

use oracle::generate::Random;
use oracle::{Call, Entry, Given, checked};
use puvainy::{ANSWER, SLOT, entries};

use crate::lent::Buffer;

/// Bytes from which the output is filled; no output is longer.
const DIRT: usize = 1 << 19;

/// The buffers of one thread: what a call leaves in them, the next one finds.
pub struct Buffers {
    job: Buffer<u8>,
    output: Buffer<u8>,
    workspace: Buffer<u32>,
    /// The workspace before a call.
    former: Vec<u32>,
    dirt: Vec<u8>,
}

impl Buffers {
    pub fn new(random: &mut Random) -> Buffers {
        Buffers {
            job: Buffer::default(),
            output: Buffer::default(),
            workspace: Buffer::default(),
            former: Vec::new(),
            dirt: (0..DIRT).map(|_| random.byte()).collect(),
        }
    }

    /// Makes the call; says what is not as it is due.
    pub fn fault(&mut self, call: &Call, due: &Given, random: &mut Random) -> Option<String> {
        let dirt = self.prepare(call, due, random);
        let (job, output) = (self.job.part(), self.output.part_mut());
        let number = match call.entry {
            Entry::Find => entries::find(job, output, self.workspace.part_mut()),
            Entry::Words => entries::words(job, output),
            Entry::Rename => entries::rename(job, output),
            Entry::Check => entries::check(job, output),
            Entry::Same => entries::same(job, output),
            Entry::Weigh => entries::weigh(job, output, self.workspace.part_mut()),
        };
        self.number_fault(number, due)
            .or_else(|| self.output_fault(dirt, due))
            .or_else(|| self.kept_fault(call, due))
    }

    /// Makes the buffers ready; says where in the dirt the output's bytes begin.
    fn prepare(&mut self, call: &Call, due: &Given, random: &mut Random) -> usize {
        self.job.choose(random.below(8), call.job.len());
        self.job.part_mut().copy_from_slice(&call.job);
        self.job.watch(|| random.byte());

        let dirt = random.below(DIRT - call.room);
        self.output.choose(random.below(8), call.room);
        let bytes = &self.dirt[dirt..dirt + call.room];
        self.output.part_mut().copy_from_slice(bytes);
        self.output.watch(|| random.byte());

        let length = call.slots * SLOT + random.below(SLOT);
        self.workspace.choose(random.below(4), length);
        if matches!(call.entry, Entry::Find | Entry::Weigh) {
            self.soil_workspace(random);
        }
        self.workspace.watch(|| number(random));
        self.former.clear();
        if is_early(due) {
            self.former.extend_from_slice(self.workspace.part());
        }
        dirt
    }

    /// Fills the workspace in one of five calls; else it keeps what former calls left.
    fn soil_workspace(&mut self, random: &mut Random) {
        match random.below(15) {
            0 => self.workspace.fill(|| number(random)),
            1 => self.workspace.fill(|| u32::MAX),
            2 => self.workspace.fill(|| 1),
            _ => {}
        }
    }

    fn number_fault(&self, number: usize, due: &Given) -> Option<String> {
        let due_number = match due {
            Ok(text) => ANSWER + text.len(),
            Err(refusal) => usize::from(*refusal),
        };
        if number == due_number {
            return None;
        }
        let left = self.output.part();
        let left = &left[..number.saturating_sub(ANSWER).min(left.len())];
        let left = String::from_utf8_lossy(left);
        let due = checked::show(due);
        Some(format!(
            "returned {number}, due {due_number}\n--- output\n{left}\n--- due\n{due}"
        ))
    }

    fn output_fault(&self, dirt: usize, due: &Given) -> Option<String> {
        let text = due.as_deref().unwrap_or_default();
        let output = self.output.part();
        let (front, rest) = output.split_at(text.len());
        if front != text {
            let front = String::from_utf8_lossy(front);
            let text = checked::show(due);
            return Some(format!(
                "another text\n--- output\n{front}\n--- due\n{text}"
            ));
        }
        let kept = &self.dirt[dirt + text.len()..dirt + output.len()];
        let other = rest
            .iter()
            .zip(kept)
            .position(|(now, before)| now != before)?;
        Some(format!("output byte {} is changed", text.len() + other))
    }

    fn kept_fault(&self, call: &Call, due: &Given) -> Option<String> {
        let checks = [
            (self.job.part() == call.job, "the job is changed"),
            (
                self.job.is_kept_around(),
                "a byte beside the job is changed",
            ),
            (
                self.output.is_kept_around(),
                "a byte beside the output is changed",
            ),
            (
                self.workspace.is_kept_around(),
                "a number beside the workspace is changed",
            ),
            (
                !is_early(due) || self.workspace.part() == self.former,
                "the workspace is changed by a refusal before the search",
            ),
        ];
        let (_, what) = checks.into_iter().find(|(holds, _)| !holds)?;
        Some(what.to_owned())
    }
}

/// Whether the workspace has to stay as it is: after a refusal that comes before any search.
fn is_early(due: &Given) -> bool {
    matches!(due, Err(1..=6 | 9 | 10 | 16))
}

/// Any 32-bit number, and often one that a slot may hold.
fn number(random: &mut Random) -> u32 {
    match random.below(4) {
        0 => random.below(1 << 32) as u32,
        1 => random.between(4_096, 4_099) as u32,
        _ => random.below(32) as u32,
    }
}
