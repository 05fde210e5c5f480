//! Jobs or derivations put to an entry, over all cores, and their answers printed in their order. Below here a derivation is a job too.

mod advice;
mod asker;
mod blocks;
mod crew;
mod hand;
mod parting;
mod printer;
mod progress;
mod told;
mod wide;

use std::io::Write;
use std::sync::Arc;

use puvainy::{Entry, Room};

use crate::failure::{Failure, Status};
use crate::names::Names;
use crate::streams::{Source, tell_typed};
use asker::Asker;
use crew::News;
pub use printer::Printer;
pub use told::Told;

/// What is asked of every job.
pub struct Asking {
    pub entry: Entry,
    pub slots: usize,
    pub room: Room,
    pub names: Names,
}

/// Asks all the jobs and prints what each gives. The status is the highest of any.
pub fn ask(asking: Asking, jobs: Vec<Source>) -> Result<Status, Failure> {
    let what = match asking.entry {
        Entry::Check => "derivation",
        _ => "job",
    };
    tell_typed(&jobs, what);
    let printer = Printer::standard(&jobs)?;
    let asking = Arc::new(asking);
    let asker = move || {
        let mut asker = Asker::new(asking.clone());
        move |job: &Source| asker.ask(job)
    };
    print_all(jobs, asker, printer)
}

/// Prints what the doers give for all the jobs.
fn print_all<O: Write, E: Write, D: FnMut(&Source) -> Told>(
    jobs: Vec<Source>,
    doer: impl Fn() -> D + Send + Sync + 'static,
    mut printer: Printer<O, E>,
) -> Result<Status, Failure> {
    let mut status = Status::Answered;
    crew::in_order(jobs, doer, |news| match news {
        News::Waiting => printer.wait(),
        News::Done(job, told) => {
            let told = told.unwrap_or_else(|| Told::lost(job));
            status = status.max(told.status);
            printer.print(job, &told)
        }
    })?;
    printer.finish()?;
    Ok(status)
}

#[cfg(test)]
mod tests {
    use super::*;

    #[test]
    fn a_job_that_breaks_down_is_told_and_the_others_are_printed() {
        let jobs = ["a", "b", "c"].map(|name| Source::named(name.as_ref()));
        let doer = || {
            |job: &Source| {
                assert_ne!(job.name(), "b");
                Told::answered(format!("answer {}\n", job.name()).as_bytes())
            }
        };
        let (mut output, mut error) = (Vec::new(), Vec::new());
        let printer = Printer::over(&mut output, &mut error, jobs.len());
        assert_eq!(print_all(jobs.to_vec(), doer, printer), Ok(Status::Failed));
        assert_eq!(output, b"# a\nanswer a\n# b\n# c\nanswer c\n");
        let said = "puvainy: b: this job broke down and is not answered; the others are\n";
        assert_eq!(error, said.as_bytes());
    }
}
