//! Standard error while jobs are done: what is said of them, and on a terminal a line about how far a long run is.

use std::io::Write;
use std::time::{Duration, Instant};

use crate::failure::spoken;

/// A run that is shorter shows no line.
const SHORT: Duration = Duration::from_secs(1);

/// How long a line stays before it is written anew.
const STAYS: Duration = Duration::from_millis(200);

pub struct Progress<E: Write> {
    error: E,
    jobs: usize,
    is_wanted: bool,
    pub(super) start: Instant,
    pub(super) stays: Duration,
    /// When the line was last written.
    written: Option<Instant>,
    is_on_screen: bool,
}

impl<E: Write> Progress<E> {
    /// Of a run of so many jobs. Lines are wanted on a terminal.
    pub fn new(error: E, jobs: usize, is_wanted: bool) -> Progress<E> {
        Progress {
            error,
            jobs,
            is_wanted,
            start: Instant::now(),
            stays: STAYS,
            written: None,
            is_on_screen: false,
        }
    }

    /// Says the lines. Where they cannot be written, the status alone tells.
    pub fn say(&mut self, lines: &[String]) {
        self.clear();
        let _ = self.error.write_all(spoken(lines).as_bytes());
    }

    /// Whether the run is long, and the line that is shown old.
    pub fn is_due(&self) -> bool {
        let is_fresh = |written: Instant| written.elapsed() < self.stays;
        self.is_wanted && self.start.elapsed() >= SHORT && !self.written.is_some_and(is_fresh)
    }

    /// Shows how many jobs are done.
    pub fn show(&mut self, done: usize) {
        let line = line(done, self.jobs, self.start.elapsed());
        let _ = self.error.write_all(format!("\r{line}\x1b[K").as_bytes());
        self.written = Some(Instant::now());
        self.is_on_screen = true;
    }

    /// Takes the line off the screen.
    pub fn clear(&mut self) {
        if self.is_on_screen {
            let _ = self.error.write_all(b"\r\x1b[K");
            self.is_on_screen = false;
        }
    }
}

impl<E: Write> Drop for Progress<E> {
    fn drop(&mut self) {
        self.clear();
    }
}

/// Jobs done, jobs a second, time left.
fn line(done: usize, jobs: usize, elapsed: Duration) -> String {
    let rate = done as f64 / elapsed.as_secs_f64();
    let left = match done {
        0 => "time left not known yet".to_owned(),
        _ => format!("{} left", time((jobs - done) as f64 / rate)),
    };
    let digits = if rate < 10.0 { 1 } else { 0 };
    format!("puvainy: {done} of {jobs} jobs, {rate:.digits$} a second, {left}")
}

/// So many seconds, rounded up, in words.
fn time(seconds: f64) -> String {
    match seconds.ceil() as u64 {
        whole @ 0..60 => format!("{whole} s"),
        whole @ 60..3600 => format!("{} min {} s", whole / 60, whole % 60),
        whole => format!("{} h {} min", whole / 3600, whole % 3600 / 60),
    }
}

#[cfg(test)]
mod tests {
    use super::*;

    #[test]
    fn a_line_tells_jobs_speed_and_time() {
        let told = |done, jobs, seconds| line(done, jobs, Duration::from_secs(seconds));
        let due = [
            (
                told(0, 9, 2),
                "0 of 9 jobs, 0.0 a second, time left not known yet",
            ),
            (told(3, 9, 2), "3 of 9 jobs, 1.5 a second, 4 s left"),
            (
                told(100, 5000, 2),
                "100 of 5000 jobs, 50 a second, 1 min 38 s left",
            ),
            (
                told(1, 5000, 1),
                "1 of 5000 jobs, 1.0 a second, 1 h 23 min left",
            ),
        ];
        for (line, due) in due {
            assert_eq!(line, format!("puvainy: {due}"));
        }
    }

    #[test]
    fn a_short_run_and_one_without_a_terminal_show_no_line() {
        let mut progress = Progress::new(Vec::new(), 9, true);
        assert!(!progress.is_due());
        progress.start -= SHORT;
        assert!(progress.is_due());
        progress.show(1);
        assert!(!progress.is_due());
        let mut unseen = Progress::new(Vec::new(), 9, false);
        unseen.start -= SHORT;
        assert!(!unseen.is_due());
    }
}
