//! What the words of the command share: options about threads and judges, the threads, and what is told at the end.

use std::ops::Range;
use std::process::ExitCode;
use std::slice::Iter;
use std::sync::atomic::{AtomicBool, Ordering};
use std::thread;
use std::time::Instant;

use oracle::options::{Failure, unknown, value};

/// A thread's stack: the Rust and plain call themselves, and the library has arrays on it.
const STACK: usize = 64 << 20;

/// How many threads there are, and whether what is due comes from plain alone.
pub struct Way {
    pub threads: u64,
    pub is_plain: bool,
}

/// Reads `--threads` and `--plain`, and what `take` knows.
pub fn read(
    words: &[&str],
    mut take: impl FnMut(&str, &mut Iter<&str>) -> Result<bool, Failure>,
) -> Result<Way, Failure> {
    let mut way = Way {
        threads: 1,
        is_plain: false,
    };
    let mut rest = words.iter();
    while let Some(&option) = rest.next() {
        if take(option, &mut rest)? {
            continue;
        }
        match option {
            "--threads" => way.threads = value::<u64>(option, &mut rest)?.max(1),
            "--plain" => way.is_plain = true,
            _ => return Err(unknown(option)),
        }
    }
    Ok(way)
}

/// Goes through the indices, each thread at its own stride with buffers and counts of its own, up to the first
/// difference. Gives what the threads hold then.
pub fn run<T: Send>(
    threads: u64,
    indices: Range<u64>,
    begin: impl Fn(u64) -> T + Sync,
    one: impl Fn(&mut T, u64) -> Result<(), String> + Sync,
) -> Result<Vec<T>, String> {
    let stopped = AtomicBool::new(false);
    let stride = |thread| {
        let mut own = begin(thread);
        let mut index = indices.start + thread;
        while index < indices.end && !stopped.load(Ordering::Relaxed) {
            one(&mut own, index).inspect_err(|_| stopped.store(true, Ordering::Relaxed))?;
            index += threads;
        }
        Ok(own)
    };
    thread::scope(|scope| {
        let stride = &stride;
        let start = |thread| {
            let builder = thread::Builder::new().stack_size(STACK);
            let started = builder.spawn_scoped(scope, move || stride(thread));
            started.expect("a thread")
        };
        let started: Vec<_> = (0..threads).map(start).collect();
        let ended = started.into_iter().map(|thread| thread.join());
        ended.map(|own| own.expect("no thread panics")).collect()
    })
}

/// Prints what was counted, or the first difference.
pub fn tell(compare: impl FnOnce() -> Result<String, String>) -> ExitCode {
    let start = Instant::now();
    match compare() {
        Ok(counts) => {
            println!("{counts}, no difference, {} s", start.elapsed().as_secs());
            ExitCode::SUCCESS
        }
        Err(difference) => {
            println!("{difference}");
            ExitCode::FAILURE
        }
    }
}
