//! Prints what the jobs give, on both standard streams, with the progress line between.

use std::fs::File;
use std::io::{IsTerminal, Stderr, Write, stderr, stdin, stdout};

use super::Told;
use super::progress::Progress;
use crate::failure::Failure;
use crate::streams::{Output, Source};

pub struct Printer<O: Write, E: Write> {
    output: Output<O>,
    progress: Progress<E>,
    /// Whether each answer stands after a line with its file.
    has_several: bool,
    /// Whether answers go to a terminal, as the progress does.
    is_read_here: bool,
    done: usize,
}

impl Printer<File, Stderr> {
    /// For these jobs, on the standard streams. There is no progress line where a job is typed at the terminal.
    pub fn standard(jobs: &[Source]) -> Result<Printer<File, Stderr>, Failure> {
        let is_typed = jobs.contains(&Source::Input) && stdin().is_terminal();
        let is_wanted = jobs.len() > 1 && stderr().is_terminal() && !is_typed;
        let progress = Progress::new(stderr(), jobs.len(), is_wanted);
        let output = Output::standard()?;
        Ok(Printer::new(
            output,
            progress,
            jobs.len(),
            stdout().is_terminal(),
        ))
    }
}

impl<O: Write, E: Write> Printer<O, E> {
    /// For so many jobs, on other streams than the standard ones.
    #[cfg(test)]
    pub fn over(output: O, error: E, jobs: usize) -> Printer<O, E> {
        let progress = Progress::new(error, jobs, false);
        Printer::new(Output::new(output), progress, jobs, false)
    }

    fn new(
        output: Output<O>,
        progress: Progress<E>,
        jobs: usize,
        is_read_here: bool,
    ) -> Printer<O, E> {
        Printer {
            output,
            progress,
            has_several: jobs > 1,
            is_read_here,
            done: 0,
        }
    }

    /// Prints one job's answer, and then what is said of it.
    pub fn print(&mut self, job: &Source, told: &Told) -> Result<(), Failure> {
        if self.is_read_here {
            self.progress.clear();
        }
        if self.has_several {
            self.output.write(&job.header())?;
        }
        self.output.write(&told.printed)?;
        if !told.said.is_empty() {
            self.output.flush()?;
            self.progress.say(&told.said);
        }
        self.done += 1;
        self.show()
    }

    /// Says a line that belongs to no answer.
    pub fn say(&mut self, line: &str) {
        self.progress.say(&[line.to_owned()]);
    }

    /// While the next job is not done: what is printed reaches its reader.
    pub fn wait(&mut self) -> Result<(), Failure> {
        self.output.flush()?;
        self.show()
    }

    /// Shows the progress, after all that is printed is out: while the line stands, nothing is left that could be written behind it.
    fn show(&mut self) -> Result<(), Failure> {
        if self.progress.is_due() {
            self.output.flush()?;
            self.progress.show(self.done);
        }
        Ok(())
    }

    pub fn finish(mut self) -> Result<(), Failure> {
        self.progress.clear();
        self.output.flush()
    }
}

#[cfg(test)]
mod tests {
    use std::cell::RefCell;
    use std::io::Result as Written;
    use std::rc::Rc;
    use std::time::Duration;

    use super::*;

    /// A terminal that shows both streams.
    #[derive(Clone, Default)]
    struct Screen(Rc<RefCell<String>>);

    impl Write for Screen {
        fn write(&mut self, bytes: &[u8]) -> Written<usize> {
            self.0.borrow_mut().push_str(str::from_utf8(bytes).unwrap());
            Ok(bytes.len())
        }

        fn flush(&mut self) -> Written<()> {
            Ok(())
        }
    }

    /// What the screen shows of three jobs, each waited behind; a progress line in short, by the jobs that it tells.
    fn shown(is_read_here: bool) -> String {
        let screen = Screen::default();
        let mut progress = Progress::new(screen.clone(), 3, true);
        progress.start -= Duration::from_secs(2);
        progress.stays = Duration::ZERO;
        let output = Output::new(screen.clone());
        let mut printer = Printer::new(output, progress, 3, is_read_here);
        for (name, said) in [("a", &[][..]), ("b", &["b: none"]), ("c", &[])] {
            let mut told = Told::answered(format!("answer {name}\n").as_bytes());
            told.said = said.iter().map(|line| line.to_string()).collect();
            printer.print(&Source::named(name.as_ref()), &told).unwrap();
            printer.wait().unwrap();
        }
        printer.finish().unwrap();
        let shown = screen.0.borrow().clone();
        let parts = shown
            .split(GONE)
            .map(|part| match part.rsplit_once("\rpuvainy: ") {
                Some((before, line)) => format!("{before}\r<{}>", &line[..1]),
                None => part.to_owned(),
            });
        parts.collect::<Vec<_>>().join(GONE)
    }

    /// What takes away the rest of a line.
    const GONE: &str = "\x1b[K";

    #[test]
    fn the_progress_is_taken_away_before_anything_stands_on_its_line() {
        let due = "# a\nanswer a\n\r<1>\x1b[K\r<1>\x1b[K\
                   \r\x1b[K# b\nanswer b\npuvainy: b: none\n\r<2>\x1b[K\r<2>\x1b[K\
                   \r\x1b[K# c\nanswer c\n\r<3>\x1b[K\r<3>\x1b[K\r\x1b[K";
        assert_eq!(shown(true), due);
    }

    #[test]
    fn answers_that_go_elsewhere_leave_the_progress_where_it_is() {
        let due = "# a\nanswer a\n\r<1>\x1b[K\r<1>\x1b[K\
                   # b\nanswer b\n\r\x1b[Kpuvainy: b: none\n\r<2>\x1b[K\r<2>\x1b[K\
                   # c\nanswer c\n\r<3>\x1b[K\r<3>\x1b[K\r\x1b[K";
        assert_eq!(shown(false), due);
    }
}
