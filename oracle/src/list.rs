//! Lists of calls with their answers, as records that a program replays byte by byte.
//!
//! A record is one line of decimal numbers parted by a space, then the job's bytes, then the answer's.

use std::io::{self, Write};

use crate::{Call, Given, Sent};

/// Writes a call: entry (1 FIND, 2 WORDS, 3 RENAME, 4 CHECK, 7 SAME, 8 WEIGH), slots, room, job's length; then the job.
pub fn write_call(out: &mut impl Write, call: &Call) -> io::Result<()> {
    writeln!(out, "{}", header(call))?;
    out.write_all(&call.job)
}

/// Writes a call and what it gives. Its line goes on with the refusal's number, or 0, and the
/// answer's length.
pub fn write_record(out: &mut impl Write, call: &Call, given: &Given) -> io::Result<()> {
    let (number, answer) = match given {
        Ok(answer) => (0, &answer[..]),
        Err(number) => (*number, &[][..]),
    };
    writeln!(out, "{} {number} {}", header(call), answer.len())?;
    out.write_all(&call.job)?;
    out.write_all(answer)
}

fn header(call: &Call) -> String {
    let entry = call.entry.number();
    format!("{entry} {} {} {}", call.slots, call.room, call.job.len())
}

/// Writes a call on a catalogue: entry (5 PUT, 6 WITHDRAW), slots and room 0, the text's length; then the text.
pub fn write_sent(out: &mut impl Write, sent: &Sent) -> io::Result<()> {
    writeln!(out, "{}", sent_header(sent))?;
    out.write_all(&sent.text)
}

/// Writes such a call and the number that it returns, which is never 0. No answer follows.
pub fn write_returned(out: &mut impl Write, sent: &Sent, number: usize) -> io::Result<()> {
    writeln!(out, "{} {number} 0", sent_header(sent))?;
    out.write_all(&sent.text)
}

fn sent_header(sent: &Sent) -> String {
    let entry = sent.ask.number();
    format!("{entry} 0 0 {}", sent.text.len())
}
