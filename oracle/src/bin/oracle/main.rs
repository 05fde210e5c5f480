//! The oracle's command line.

mod names;
mod plays;

use std::io::{self, BufWriter, Read, Write};
use std::process::ExitCode;
use std::time::Instant;

use oracle::cases::catalogue::{self, Play};
use oracle::cases::{Case, cases};
use oracle::generate::{KINDS, PAIR_KINDS, PLAY_KINDS, Plan};
use oracle::options::{self, Failure, about, unknown, value};
use oracle::tally::Tally;
use oracle::{About, CATALOGUE, Call, Entry, PROGRAM_ROOM, PROGRAM_SLOTS, checked, list};

const HELP: &str = "\
oracle answer ENTRY [--slots N] [--room N] [--number]
    Reads one job, or one derivation, on standard input and prints what the call gives, or the refusal.
    ENTRY is find, words, rename, check, same or weigh. 400 slots and 32768 bytes of room unless said.
    --number prints the number that the call returns instead.
oracle cases [--one] [--many] [--check] [--fixed] [--same] [--weigh] [--atmost] [--catalogue] [--list]
    Runs the documents' cases; or writes them as `oracle list` does, of the catalogue those on its whole buffer.
oracle generate OPTIONS
    Writes calls: a line `entry slots room job_length`, then the job's bytes.
oracle list OPTIONS
    Writes calls with their answers: a line
    `entry slots room job_length number answer_length`, then the job's and the answer's bytes.
oracle check OPTIONS
    Makes the same calls, compares both implementations and prints counts.
oracle catalogue [--seed S] [--first N] [--plays N] [--calls N] [--short] [--fixed] [--plain] [--list | --generate]
    Makes plays (10), each of so many calls (500) on a catalogue that is empty at first, compares both
    implementations and prints counts. --short makes short texts and no other buffers, --fixed draws c letters too,
    --plain leaves the Rust out, --first is the first play's index (0). --list and --generate write the calls on a
    whole buffer as `oracle list` and `oracle generate` do.
oracle names [--seed S] [--first N] [--count N] [--fixed] [--plain]
    Makes pairs of equations (1000), puts each to RENAME and then the lines printed for the first, compares both
    implementations, holds the lines to what a shared name means and prints counts. --fixed draws c letters too.

OPTIONS: --seed S (default 1), --count N (default 1000), --kind K (default all, mixed),
    --one, --many, --check, --fixed, --same, --weigh, --atmost (only kinds for one right side, for several, for
    CHECK, with c letters, for SAME, for WEIGH, for WEIGH with a path in hand; or all that are named),
    --light (no heavy calls), --max-slots N, --max-room N (larger buffers are drawn as this), --max-job N (longer texts are cut).
Entries in records: 1 find, 2 words, 3 rename, 4 check, 5 put, 6 withdraw, 7 same, 8 weigh. Number: 0, or the
    refusal's; of put and withdraw what is returned.

Kinds, with their share in 3,650; of plays with their shares in 1,000 while the catalogue fills, in the mixed phase
and while it is drained; of pairs for names with their share in 1,000, without and with c letters:
";

fn main() -> ExitCode {
    let words: Vec<String> = std::env::args().skip(1).collect();
    match run(&words) {
        Ok(true) => ExitCode::SUCCESS,
        Ok(false) => ExitCode::FAILURE,
        Err(failure) => {
            eprintln!("{failure}");
            ExitCode::from(2)
        }
    }
}

/// Runs a command; says no where something differs from what is due.
fn run(words: &[String]) -> Result<bool, Failure> {
    let words: Vec<&str> = words.iter().map(String::as_str).collect();
    match words[..] {
        ["answer", entry, ref options @ ..] => answer(entry, options),
        ["cases", ref options @ ..] => cases_command(options),
        ["generate", ref options @ ..] => generate(&plan(options)?),
        ["list", ref options @ ..] => write_list(&plan(options)?),
        ["check", ref options @ ..] => check(&plan(options)?),
        ["catalogue", ref options @ ..] => plays::command(options),
        ["names", ref options @ ..] => names::command(options),
        ["--help" | "help"] => {
            print!("{}", help());
            Ok(true)
        }
        _ => Err(help().into()),
    }
}

fn help() -> String {
    let kinds = KINDS.iter().map(|kind| {
        let about = match kind.about {
            About::One => "one",
            About::Many => "many",
            About::Check => "check",
            About::Fixed => "fixed",
            About::Same => "same",
            About::Weigh => "weigh",
            About::AtMost => "atmost",
        };
        format!(
            "    {about:6} {:11} {:4}  {}\n",
            kind.name, kind.share, kind.what
        )
    });
    let of_plays = PLAY_KINDS.iter().map(|kind| {
        let [fill, mix, drain] = kind.shares;
        format!(
            "    play   {:11} {fill:3} {mix:3} {drain:3}  {}\n",
            kind.name, kind.what
        )
    });
    let of_pairs = PAIR_KINDS.iter().map(|kind| {
        let [without, with] = kind.shares;
        format!(
            "    pair   {:11} {without:3} {with:3}  {}\n",
            kind.name, kind.what
        )
    });
    HELP.to_owned() + &kinds.chain(of_plays).chain(of_pairs).collect::<String>()
}

fn answer(entry: &str, words: &[&str]) -> Result<bool, Failure> {
    let entry = Entry::named(entry).ok_or("ENTRY is find, words, rename, check, same or weigh")?;
    let mut call = Call {
        entry,
        slots: PROGRAM_SLOTS,
        room: PROGRAM_ROOM,
        job: Vec::new(),
    };
    let mut number = false;
    let mut rest = words.iter();
    while let Some(&option) = rest.next() {
        match option {
            "--slots" => call.slots = value(option, &mut rest)?,
            "--room" => call.room = value(option, &mut rest)?,
            "--number" => number = true,
            _ => return Err(unknown(option)),
        }
    }
    io::stdin().read_to_end(&mut call.job)?;
    let given = match checked::answer(&call) {
        Ok(given) => given,
        Err(difference) => {
            eprint!("{difference}");
            return Ok(false);
        }
    };
    match given {
        Ok(text) if number => println!("{}", 100 + text.len()),
        Err(refusal) if number => println!("{refusal}"),
        given => print!("{}", checked::show(&given)),
    }
    Ok(true)
}

fn cases_command(words: &[&str]) -> Result<bool, Failure> {
    let mut about_these = Vec::new();
    let (mut is_list, mut is_catalogue) = (false, false);
    for &option in words {
        match option {
            "--list" => is_list = true,
            "--catalogue" => is_catalogue = true,
            _ => about_these.push(about(option).ok_or_else(|| unknown(option))?),
        }
    }
    let is_all = about_these.is_empty() && !is_catalogue;
    let all = match is_all || !about_these.is_empty() {
        true => cases(&about_these),
        false => Vec::new(),
    };
    let mut plays = Vec::new();
    if is_all || is_catalogue {
        plays.extend(catalogue::plays());
    }
    if is_all || about_these.contains(&About::Fixed) {
        plays.extend(catalogue::fixed_plays());
    }
    if is_list {
        list_cases(&all, &plays)
    } else {
        Ok(run_cases(&all, &plays))
    }
}

fn run_cases(all: &[Case], plays: &[Play]) -> bool {
    let mut failed = 0;
    for case in all {
        if let Some(fault) = case.fault() {
            failed += 1;
            println!("case {}\n{fault}", case.name);
        }
    }
    for play in plays {
        for fault in play.faults() {
            failed += 1;
            println!("case {}\n{fault}", play.name);
        }
    }
    let calls: usize = plays.iter().map(|play| play.calls.len()).sum();
    println!("{} passed, {failed} failed", all.len() + calls - failed);
    failed == 0
}

fn list_cases(all: &[Case], plays: &[Play]) -> Result<bool, Failure> {
    let mut out = BufWriter::new(io::stdout().lock());
    for case in all {
        list::write_record(&mut out, &case.call, &case.given())?;
    }
    for (sent, number) in plays.iter().flat_map(|play| &play.calls) {
        if sent.numbers == CATALOGUE {
            list::write_returned(&mut out, sent, *number)?;
        }
    }
    out.flush()?;
    Ok(true)
}

fn plan(words: &[&str]) -> Result<Plan, Failure> {
    let mut plan = Plan::default();
    let mut rest = words.iter();
    while let Some(&option) = rest.next() {
        if !options::take(&mut plan, option, &mut rest)? {
            return Err(unknown(option));
        }
    }
    Ok(plan)
}

fn generate(plan: &Plan) -> Result<bool, Failure> {
    let mut out = BufWriter::new(io::stdout().lock());
    for (_, call) in plan.calls() {
        list::write_call(&mut out, &call)?;
    }
    out.flush()?;
    Ok(true)
}

fn write_list(plan: &Plan) -> Result<bool, Failure> {
    let mut out = BufWriter::new(io::stdout().lock());
    for (_, call) in plan.calls() {
        match checked::answer(&call) {
            Ok(given) => list::write_record(&mut out, &call, &given)?,
            Err(difference) => {
                eprint!("{difference}");
                return Ok(false);
            }
        }
    }
    out.flush()?;
    Ok(true)
}

fn check(plan: &Plan) -> Result<bool, Failure> {
    let start = Instant::now();
    let mut tally = Tally::default();
    for (kind, call) in plan.calls() {
        match checked::answer(&call) {
            Ok(given) => tally.count(kind, &call, &given),
            Err(difference) => {
                eprint!("kind={}\n{difference}", KINDS[kind].name);
                return Ok(false);
            }
        }
    }
    println!("{tally}, no difference, {} s", start.elapsed().as_secs());
    Ok(true)
}
