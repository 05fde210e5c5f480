//! Drives the static library on generated calls and holds each to the oracle's answer.

mod held;
mod kept;
mod lent;
mod names;
mod plays;
mod strides;

use std::process::ExitCode;

use oracle::cases::cases;
use oracle::generate::{KINDS, Plan, Random};
use oracle::options::{self, Failure, value};
use oracle::tally::Tally;
use oracle::{About, Call, Given, checked, plain};

use held::Buffers;
use strides::Way;

const HELP: &str = "\
compare OPTIONS
    Makes the documents' cases and then generated calls, and holds the static library to the oracle.

compare catalogue [--seed S] [--first N] [--plays N] [--calls N] [--short] [--fixed] [--threads N] [--plain]
    Makes the cases of the catalogue and then plays, as `oracle catalogue` takes them.

compare names [--seed S] [--first N] [--count N] [--fixed] [--threads N] [--plain]
    Makes pairs of equations as `oracle names` does, three calls of RENAME each.

OPTIONS: --seed S (default 1), --count N (default 1000), --first N (default 0, the first call's
    index), --kind K, --one, --many, --check, --fixed, --same, --weigh, --atmost, --light, --max-job N,
    --max-slots N, --max-room N as `oracle check` takes them, --threads N (default 1), --plain (what is due comes
    from plain alone, without the Rust).
";

fn main() -> ExitCode {
    let words: Vec<String> = std::env::args().skip(1).collect();
    let words: Vec<&str> = words.iter().map(String::as_str).collect();
    if words == ["--help"] {
        print!("{HELP}");
        return ExitCode::SUCCESS;
    }
    let run = match &words[..] {
        ["catalogue", rest @ ..] => plays::compare(rest),
        ["names", rest @ ..] => names::compare(rest),
        _ => compare(&words),
    };
    match run {
        Ok(status) => status,
        Err(failure) => {
            eprint!("{failure}\n\n{HELP}");
            ExitCode::from(2)
        }
    }
}

fn compare(words: &[&str]) -> Result<ExitCode, Failure> {
    let (mut plan, mut first) = (Plan::default(), 0);
    let way = strides::read(words, |option, rest| match option {
        "--first" => {
            first = value(option, rest)?;
            Ok(true)
        }
        _ => options::take(&mut plan, option, rest),
    })?;
    Ok(strides::tell(|| {
        let cases = run_cases(&plan.about)?;
        let tally = run_generated(&plan, first, &way)?;
        Ok(format!("{cases} cases\n{tally}"))
    }))
}

/// The documents' cases; says how many there are.
fn run_cases(about: &[About]) -> Result<usize, String> {
    let mut random = Random::new(0, 0);
    let mut buffers = Buffers::new(&mut random);
    let all = cases(about);
    for case in &all {
        if let Some(fault) = buffers.fault(&case.call, &case.given(), &mut random) {
            return Err(format!("case {}\n{}", case.name, show(&case.call, &fault)));
        }
    }
    Ok(all.len())
}

/// The generated calls, from the first index on.
fn run_generated(plan: &Plan, first: u64, way: &Way) -> Result<Tally, String> {
    let begin = |thread| {
        let buffers = Buffers::new(&mut Random::new(plan.seed, thread));
        (buffers, Tally::default())
    };
    let make = |(buffers, tally): &mut (Buffers, Tally), index| {
        let (kind, call) = plan.call(index);
        let mut random = Random::new(!plan.seed, index);
        let given = one(way.is_plain, &call, buffers, &mut random).map_err(|fault| {
            let (name, seed) = (KINDS[kind].name, plan.seed);
            format!("seed={seed} first={index} kind={name}\n{fault}")
        })?;
        tally.count(kind, &call, &given);
        Ok(())
    };
    let ended = strides::run(way.threads, first..first + plan.count, begin, make)?;
    let mut total = Tally::default();
    for (_, tally) in ended {
        total.add(tally);
    }
    Ok(total)
}

/// What the call gives, by the oracle and the library alike.
fn one(
    is_plain: bool,
    call: &Call,
    buffers: &mut Buffers,
    random: &mut Random,
) -> Result<Given, String> {
    let due = if is_plain {
        plain::answer(call.entry, &call.job, call.slots, call.room)
    } else {
        checked::answer(call).map_err(|difference| difference.to_string())?
    };
    match buffers.fault(call, &due, random) {
        None => Ok(due),
        Some(fault) => Err(show(call, &fault)),
    }
}

fn show(call: &Call, fault: &str) -> String {
    let Call {
        entry, slots, room, ..
    } = call;
    let job = String::from_utf8_lossy(&call.job);
    let entry = entry.name();
    format!("entry={entry} slots={slots} room={room}\n--- job\n{job}\n--- difference\n{fault}")
}
