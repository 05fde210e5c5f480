//! Calls of the built command.

use std::fmt::Display;
use std::io::Write;
use std::path::{Path, PathBuf};
use std::process::{Command, Output, Stdio};
use std::str::Split;

use puvainy::{Buffers, Entry, MOST_SLOTS, Room};

/// The command.
const PUVAINY: &str = env!("CARGO_BIN_EXE_puvainy");

/// The folder of the guide's files.
fn guide() -> PathBuf {
    Path::new(env!("CARGO_MANIFEST_DIR")).join("../docs/guide")
}

/// What a file of the guide holds.
pub fn stored(name: &str) -> String {
    std::fs::read_to_string(guide().join(name)).expect("a file of the guide")
}

/// What a line of the text holds behind its key.
pub fn value<'a>(text: &'a str, key: &str) -> Option<&'a str> {
    let mut lines = text.lines().filter_map(|line| line.split_once('='));
    lines.find_map(|(name, value)| (name == key).then_some(value))
}

/// The number in the line with that key.
pub fn number(text: &str, key: &str) -> usize {
    value(text, key).unwrap().parse().unwrap()
}

/// The job with something else behind that key.
pub fn with(job: &str, key: &str, other: impl Display) -> String {
    let line = |line: &str| match line.split_once('=') {
        Some((name, _)) if name == key => format!("{key}={other}\n"),
        _ => format!("{line}\n"),
    };
    job.lines().map(line).collect()
}

/// A job of FIND as one of WEIGH, with as much cost as steps and a weight of 1 for each law.
pub fn even(job: &str) -> String {
    job.replacen("steps=", "cost=", 1) + "weights=1 1 1 1 1 1 1 1 1 1\n"
}

/// The lines of an answer that tell of its derivation.
pub fn steps(answer: &str) -> String {
    let lines = answer.lines().filter(|line| line.starts_with("step="));
    lines.map(|line| format!("{line}\n")).collect()
}

/// The three kinds of an answer's lines that CHECK takes.
pub fn derivation(answer: &str) -> String {
    let is_kept = |line: &&str| {
        let key = line.split('=').next();
        matches!(key, Some("left" | "right" | "step"))
    };
    let lines = answer.lines().filter(is_kept);
    lines.map(|line| format!("{line}\n")).collect()
}

/// The two sides that a text has in the lines of these keys.
pub fn sides<'a>(text: &'a str, keys: [&str; 2]) -> [&'a str; 2] {
    keys.map(|key| value(text, key).unwrap())
}

/// Both ways to set the sides of an equation beside another's.
pub fn both_ways([left, right]: [&str; 2]) -> [[&str; 2]; 2] {
    [[left, right], [right, left]]
}

/// The guide from one section on, up to another.
pub fn guide_from(section: &str, other: &str) -> String {
    let guide = stored("../guide.md");
    let place = |title| guide.find(&format!("\n## {title}\n")).unwrap();
    guide[place(section)..place(other)].to_owned()
}

/// The laws in the order of the guide's table.
pub fn laws() -> Vec<String> {
    let table = guide_from("The ten laws", "Reading a derivation");
    let rows = table
        .lines()
        .filter_map(|line| line.strip_prefix("| `")?.split('`').next());
    rows.map(str::to_owned).collect()
}

/// Every side of a job of the guide, each once.
pub fn plans() -> Vec<String> {
    let lines = shell("cat *.job").printed;
    let sides = lines.lines().filter_map(|line| line.split_once('='));
    let sides = sides.filter(|(key, _)| matches!(*key, "left" | "right"));
    let mut plans: Vec<_> = sides.map(|(_, side)| side.to_owned()).collect();
    plans.sort();
    plans.dedup();
    plans
}

/// A job of two plans, for an entry that does not go by the limits.
pub fn job_of([left, right]: [&str; 2]) -> String {
    format!("left={left}\nright={right}\nsteps=0\nsize=0\ndepth=0\nnodes=0\n")
}

/// The guide's rule to count the words of a plan.
fn count(items: &mut Split<char>) -> usize {
    match items.next().unwrap() {
        "0" => 0,
        "+" => count(items) + count(items),
        "*" => count(items) * count(items),
        _ => 1,
    }
}

/// How many words each of two plans has, by the guide's rule.
pub fn counts(plans: [&str; 2]) -> [usize; 2] {
    plans.map(|plan| count(&mut plan.split(' ')))
}

/// A picture's row of a job, or of a name: its text, and the colours of its letters.
pub fn drawn(picture: &str, row: &str) -> (String, Vec<(String, String)>) {
    let (_, row) = picture.split_once(&format!("<g id=\"{row}\">")).unwrap();
    let (row, _) = row.split_once("</g>").unwrap();
    let (mut texts, mut letters, mut colour) = (Vec::new(), Vec::new(), None);
    for line in row.lines() {
        if line.starts_with("<rect ") {
            colour = line.split("fill=\"").nth(1).unwrap().split('"').next();
        } else if let Some((_, text)) = line.split_once('>') {
            let text = text.strip_suffix("</text>").unwrap();
            texts.push(text);
            letters.extend(
                colour
                    .take()
                    .map(|colour| (text.to_owned(), colour.to_owned())),
            );
        }
    }
    (texts.join(" "), letters)
}

/// The entry's answer with so many slots, or its refusal's number.
pub fn ask(entry: Entry, slots: usize, job: &str) -> Result<String, usize> {
    let mut buffers = Buffers::new(slots, Room::Grows);
    let answer = buffers.ask(entry, job.as_bytes())?;
    Ok(str::from_utf8(answer).expect("text").to_owned())
}

/// WEIGH's answer with all slots.
pub fn weigh(job: &str) -> String {
    ask(Entry::Weigh, MOST_SLOTS, job).unwrap()
}

/// What a call gave: its status, and the texts on both streams.
#[derive(Debug)]
pub struct Gave {
    pub status: Option<i32>,
    pub printed: String,
    pub said: String,
}

impl From<Output> for Gave {
    fn from(output: Output) -> Gave {
        Gave {
            status: output.status.code(),
            printed: String::from_utf8(output.stdout).expect("text"),
            said: String::from_utf8(output.stderr).expect("text"),
        }
    }
}

/// A call of the command among the guide's files.
pub fn call(words: &[&str]) -> Command {
    let mut command = Command::new(PUVAINY);
    command.args(words).current_dir(guide());
    command
}

/// What the call gives with nothing on standard input.
pub fn puvainy(words: &[&str]) -> Gave {
    puvainy_on(words, b"")
}

/// Likewise, with these bytes on standard input, as far as they are read.
pub fn puvainy_on(words: &[&str], input: &[u8]) -> Gave {
    let mut command = call(words);
    let piped = command
        .stdin(Stdio::piped())
        .stdout(Stdio::piped())
        .stderr(Stdio::piped());
    let mut child = piped.spawn().expect("the command starts");
    let _ = child.stdin.take().expect("it is piped").write_all(input);
    child.wait_with_output().expect("the command ends").into()
}

/// Runs a line of the shell among the guide's files, where $P is the command.
pub fn shell(line: &str) -> Gave {
    let mut command = Command::new("sh");
    command
        .args(["-c", line])
        .env("P", PUVAINY)
        .current_dir(guide());
    command.output().expect("the shell starts").into()
}

/// A folder for the files of one test, which is gone when the test ends.
pub struct Folder(PathBuf);

impl Folder {
    pub fn new(name: &str) -> Folder {
        let name = format!("{name}-{}", std::process::id());
        let folder = Path::new(env!("CARGO_TARGET_TMPDIR")).join(name);
        std::fs::create_dir_all(&folder).expect("a folder");
        Folder(folder)
    }

    /// The name of a file in it.
    pub fn file(&self, name: &str) -> String {
        let file = self.0.join(name);
        file.to_str().expect("text").to_owned()
    }

    /// What lies in it.
    pub fn files(&self) -> Vec<String> {
        let entries = std::fs::read_dir(&self.0).expect("the folder");
        let names = entries.map(|entry| entry.expect("a file").file_name());
        let mut files: Vec<_> = names
            .map(|name| name.into_string().expect("text"))
            .collect();
        files.sort();
        files
    }
}

impl Drop for Folder {
    fn drop(&mut self) {
        let _ = std::fs::remove_dir_all(&self.0);
    }
}
