//! Each exit status, and that no failure to read or write is met with silence.

use std::fs::File;
use std::process::Stdio;
use std::thread::sleep;
use std::time::{Duration, Instant};

use crate::common::{Gave, call, puvainy, puvainy_on, shell, stored};

/// The call failed: it printed nothing and said this.
fn failed(gave: Gave, said: &str) {
    assert_eq!(
        (gave.status, gave.printed.as_str()),
        (Some(2), ""),
        "{gave:?}"
    );
    assert_eq!(gave.said, format!("puvainy: {said}\n"));
}

#[test]
fn an_answer_is_0_from_a_file_and_from_standard_input() {
    for (word, file, answer) in [
        ("find", "archive.job", "archive.answer"),
        ("words", "archive.job", "archive.words"),
        ("rename", "archive.job", "archive.rename"),
        ("same", "archive.job", "archive.same"),
        ("weigh", "by-stock.weighing", "by-stock.weigh"),
    ] {
        let due = stored(answer);
        let named = puvainy(&[word, file]);
        assert_eq!((named.status, &named.printed), (Some(0), &due));
        let job = stored(file);
        for words in [&[word][..], &[word, "-"]] {
            let read = puvainy_on(words, job.as_bytes());
            assert_eq!((read.status, &read.printed), (Some(0), &due));
            assert_eq!(read.said, "");
        }
    }
}

/// A none, and a derivation in hand, of which something is said.
#[test]
fn a_none_and_an_atmost_are_0() {
    for (word, file, answer) in [
        ("find", "archive-steps.job", "archive-steps.answer"),
        ("weigh", "by-stock-cost.weighing", "by-stock-cost.weigh"),
        ("weigh", "quiet-week-20.weighing", "quiet-week-20.weigh"),
        ("weigh", "quiet-week-150.weighing", "quiet-week-150.weigh"),
    ] {
        let gave = puvainy(&[word, file]);
        assert_eq!((gave.status, gave.printed), (Some(0), stored(answer)));
        assert_eq!(gave.said.lines().count(), 1, "{}", gave.said);
    }
}

#[test]
fn a_refusal_is_1_with_its_two_lines_and_a_sentence() {
    for word in ["find", "words", "rename", "same"] {
        let gave = puvainy(&[word, "refused-2.job"]);
        assert_eq!(
            (gave.status, gave.printed.as_str()),
            (Some(1), "answer=refused\nnumber=2\n")
        );
        let said = "puvainy: refused-2.job: line 1 (left), behind item 2: a sign lacks a part; \
                    count the parts: each sign has two (refusal 2)\n";
        assert_eq!(gave.said, said);
    }
}

#[test]
fn what_cannot_be_read_is_2() {
    failed(
        puvainy(&["find", "nowhere.job"]),
        "cannot read nowhere.job: there is no such file",
    );
    failed(puvainy(&["words", "."]), "cannot read .: it is a directory");
    failed(
        puvainy(&["draw", "nowhere"]),
        "cannot read nowhere: there is no such file",
    );
    failed(
        shell("$P find <&-"),
        "cannot read standard input: it is closed",
    );
    let names = puvainy(&["find", "--names", "nowhere", "archive.job"]);
    failed(names, "cannot read nowhere: there is no such file");
    let gave = shell("$P find 0>/dev/null");
    assert_eq!(gave.status, Some(2));
    assert!(
        gave.said
            .starts_with("puvainy: cannot read standard input: "),
        "{}",
        gave.said
    );
}

#[test]
fn a_wrong_call_is_2() {
    failed(
        puvainy(&[]),
        "what shall be done? Name one of find, words, rename, check, put, withdraw, same, weigh, draw, or --help",
    );
    let words = "there is no command \"fnd\": \
                 name one of find, words, rename, check, put, withdraw, same, weigh, draw, or --help";
    failed(puvainy(&["fnd", "archive.job"]), words);
    let option = "there is no option --slot here; --help shows those there are";
    failed(puvainy(&["find", "--slot", "4", "archive.job"]), option);
    let number = "--slots takes a number from 0 to 65535, not \"65536\"";
    failed(puvainy(&["find", "--slots=65536", "archive.job"]), number);
    failed(
        puvainy(&["find", "-", "-"]),
        "- is standard input, which can be read once only",
    );
    failed(
        puvainy(&["draw"]),
        "draw takes one ANSWER, and 0 are named; --help tells more",
    );
}

#[test]
fn an_output_that_is_closed_full_or_unread_is_2() {
    let closed = "cannot write to standard output: it is closed";
    let full = "cannot write to standard output: there is no space left";
    for call in [
        "find archive.job",
        "words archive.job",
        "same archive.job",
        "weigh by-stock.weighing",
        "check archive.derivation",
        "draw archive.answer",
        "--help",
        "find -h",
    ] {
        failed(shell(&format!("$P {call} >&-")), closed);
        failed(shell(&format!("$P {call} >/dev/full")), full);
    }
    let unread = "cannot write to standard output: its reader is gone";
    let (reader, writer) = std::io::pipe().expect("a pipe");
    drop(reader);
    let gave = call(&["find", "archive.job"]).stdout(writer).output();
    failed(gave.expect("the command ends").into(), unread);
    let unwritable = shell("$P find archive.job 1</dev/null");
    assert_eq!(unwritable.status, Some(2));
}

#[test]
fn a_reader_that_leaves_a_long_run_is_told() {
    let many = "archive.job ".repeat(2000);
    let gave = shell(&format!("{{ $P find {many}; echo $? >&2; }} | head -n 1"));
    assert_eq!(gave.printed, "# archive.job\n");
    assert_eq!(
        gave.said,
        "puvainy: cannot write to standard output: its reader is gone\n2\n"
    );
}

#[test]
fn a_failed_output_does_not_wait_for_a_job_that_never_comes() {
    let full = File::create("/dev/full").expect("the full device");
    let mut call = call(&["words", "archive.job", "-"]);
    let mut child = call
        .stdin(Stdio::piped())
        .stdout(full)
        .stderr(Stdio::null())
        .spawn()
        .unwrap();
    let input = child.stdin.take();
    let start = Instant::now();
    let status = loop {
        match child.try_wait().unwrap() {
            None if start.elapsed() < Duration::from_secs(60) => sleep(Duration::from_millis(20)),
            status => break status,
        }
    };
    drop(input);
    assert_eq!(status.and_then(|status| status.code()), Some(2));
}

#[test]
fn a_closed_standard_error_changes_no_answer() {
    let gave = shell("$P find refused-2.job 2>&-; echo $?");
    assert_eq!(gave.printed, "answer=refused\nnumber=2\n1\n");
}

#[test]
fn help_and_version_are_0() {
    let whole = puvainy(&["--help"]);
    assert_eq!((whole.status, whole.said.as_str()), (Some(0), ""));
    for word in [
        "find", "words", "rename", "check", "put", "withdraw", "same", "weigh", "draw",
    ] {
        let usage = match word {
            "put" | "withdraw" => format!("puvainy {word} --catalogue FILE ["),
            _ => format!("puvainy {word} ["),
        };
        assert!(
            whole.printed.contains(&format!("\n  {usage}")),
            "{}",
            whole.printed
        );
        let own = puvainy(&[word, "--help"]);
        assert_eq!(own.status, Some(0));
        assert!(own.printed.starts_with(&usage), "{}", own.printed);
        assert!(own.printed.contains("Exit status: 0 answered, 1 refused"));
    }
    assert_eq!(
        puvainy(&["--help", "draw"]).printed,
        puvainy(&["draw", "-h"]).printed
    );
    for word in ["--version", "-V"] {
        let version = puvainy(&[word]);
        assert_eq!(
            (version.status, version.printed.as_str()),
            (Some(0), "puvainy 0.1.0\n")
        );
    }
    failed(puvainy(&["--version", "x"]), "too much follows --version");
    failed(puvainy(&["find", "--help=x"]), "--help takes no value");
}
