//! Jobs of all kinds: several at a time, bad ones among good ones, slots, room and names.

use crate::common::{puvainy, puvainy_on, shell, stored};

#[test]
fn several_are_printed_in_order_each_after_its_name() {
    let jobs = ["archive", "twice", "nothing-first", "four-joins"];
    let files: Vec<String> = jobs
        .iter()
        .cycle()
        .take(500)
        .map(|job| format!("{job}.job"))
        .collect();
    let mut words = vec!["find"];
    words.extend(files.iter().map(String::as_str));
    let gave = puvainy(&words);
    let answer = |file: &String| stored(&file.replace(".job", ".answer"));
    let due: String = files
        .iter()
        .map(|file| format!("# {file}\n{}", answer(file)))
        .collect();
    assert_eq!((gave.status, gave.printed), (Some(0), due));
}

#[test]
fn a_bad_job_loses_nothing_of_the_others() {
    let files = [
        "find",
        "twice.job",
        "nowhere.job",
        "refused-6.job",
        ".",
        "archive.job",
    ];
    let gave = puvainy(&files);
    let due = format!(
        "# twice.job\n{}# nowhere.job\n# refused-6.job\nanswer=refused\nnumber=6\n# .\n# archive.job\n{}",
        stored("twice.answer"),
        stored("archive.answer")
    );
    assert_eq!((gave.status, gave.printed), (Some(2), due));
    let said: Vec<_> = gave.said.lines().collect();
    assert_eq!(said.len(), 4, "{said:?}");
    assert!(said[0].starts_with("puvainy: twice.job: none: "));
    assert_eq!(
        said[1],
        "puvainy: cannot read nowhere.job: there is no such file"
    );
    assert!(
        said[2].starts_with("puvainy: refused-6.job: lines 1 and 2: both sides are the same term")
    );
    assert_eq!(said[3], "puvainy: cannot read .: it is a directory");
    let refused = puvainy(&["find", "refused-6.job", "archive.job"]);
    assert_eq!(refused.status, Some(1));
}

#[test]
fn each_sentence_stands_behind_its_answer() {
    let both = shell("$P words twice.job refused-6.job - swapped-join.job 2>&1 <refused-2.job");
    let printed = "# twice.job\nsame=no\nleft=v0\nright=v0;v0\ndiffer=1\n\
                   # refused-6.job\nanswer=refused\nnumber=6\n\
                   puvainy: refused-6.job: lines 1 and 2: both sides are the same term; \
                   do nothing: there is nothing to derive (refusal 6)\n\
                   # -\nanswer=refused\nnumber=2\n\
                   puvainy: standard input: line 1 (left), behind item 2: a sign lacks a part; \
                   count the parts: each sign has two (refusal 2)\n\
                   # swapped-join.job\nsame=no\nleft=v0 v1\nright=v1 v0\ndiffer=0\n";
    assert_eq!((both.status, both.printed.as_str()), (Some(1), printed));
}

#[test]
fn a_text_that_is_no_job_is_refused() {
    let large = puvainy_on(&["find"], &[b'a'; 1 << 20]);
    assert_eq!(
        (large.status, large.printed.as_str()),
        (Some(1), "answer=refused\nnumber=1\n")
    );
    assert!(
        large.said.contains(
            "the whole text: the job has over 4,096 bytes, or of WORDS, RENAME or SAME over 1,024; "
        ),
        "{}",
        large.said
    );
    let endless = shell("$P words /dev/zero");
    assert_eq!(endless.status, Some(1));
    let empty = puvainy(&["rename"]);
    assert_eq!(
        (empty.status, empty.printed.as_str()),
        (Some(1), "answer=refused\nnumber=1\n")
    );
    assert!(
        empty
            .said
            .starts_with("puvainy: standard input: line 1 (left): the line is missing; ")
    );
    let foul = stored("archive.job").into_bytes();
    let foul = [&foul[..5], b"\xff\xfe\x00\x1b[2J", &foul[5..]].concat();
    let gave = puvainy_on(&["find"], &foul);
    assert_eq!(
        (gave.status, gave.printed.as_str()),
        (Some(1), "answer=refused\nnumber=2\n")
    );
    assert!(
        gave.said
            .contains("line 1 (left), item 1 (\u{fffd}\u{fffd}\\u{0}\\u{1b}[2J+): "),
        "{}",
        gave.said
    );
}

#[test]
fn slots_and_room_are_as_many_as_are_given() {
    for (job, option, number) in [
        ("refused-7.job", "--slots=400", 7),
        ("refused-8.job", "--room=32768", 8),
    ] {
        let without = puvainy(&["find", job]);
        assert_eq!((without.status, without.said.as_str()), (Some(0), ""));
        assert!(without.printed.starts_with("answer=proved\n"));
        let with = puvainy(&["find", option, job]);
        assert_eq!(with.status, Some(1));
        assert_eq!(with.printed, format!("answer=refused\nnumber={number}\n"));
        let given = option.replace('=', " ");
        assert!(
            with.said
                .starts_with(&format!("puvainy: {job}: with {given}: ")),
            "{}",
            with.said
        );
    }
    let needed = stored("archive.answer").len();
    assert_eq!(
        puvainy(&["find", &format!("--room={needed}"), "archive.job"]).status,
        Some(0)
    );
    assert_eq!(
        puvainy(&["find", &format!("--room={}", needed - 1), "archive.job"]).status,
        Some(1)
    );
    assert_eq!(
        puvainy(&["words", "--slots", "0", "archive.job"]).status,
        Some(0)
    );
}

#[test]
fn names_are_used_on_standard_error_alone() {
    let none = puvainy(&["find", "--names", "names.txt", "archive-steps.job"]);
    assert_eq!(none.printed, stored("archive-steps.answer"));
    assert_eq!(none.said.lines().count(), 3);
    assert!(
        stored("../guide.md").contains(&format!("```\n{}```", none.said)),
        "{}",
        none.said
    );
    let refused = puvainy(&["find", "--names=names.txt", "refused-2-infix.job"]);
    assert_eq!(refused.printed, stored("refused-2-infix.answer"));
    assert!(
        refused
            .said
            .ends_with("puvainy: left: Orders + 0\npuvainy: right: Orders\n"),
        "{}",
        refused.said
    );
    let proved = puvainy(&["find", "--names", "names.txt", "archive.job"]);
    assert_eq!(
        (proved.printed, proved.said.as_str()),
        (stored("archive.answer"), "")
    );
    let same = puvainy(&["words", "--names", "names.txt", "archive.job"]);
    assert_eq!(
        (same.printed, same.said.as_str()),
        (stored("archive.words"), "")
    );
    let wrong = puvainy(&["find", "--names", "archive.job", "archive.job"]);
    assert_eq!((wrong.status, wrong.printed.as_str()), (Some(2), ""));
    assert!(
        wrong
            .said
            .starts_with("puvainy: the names in archive.job: line 1: "),
        "{}",
        wrong.said
    );
}

#[test]
fn the_guide_shows_what_several_jobs_give() {
    let gave = puvainy(&[
        "words",
        "twice.job",
        "refused-6.job",
        "nowhere.job",
        "swapped-join.job",
    ]);
    assert_eq!(gave.status, Some(2));
    assert!(
        stored("../guide.md").contains(&format!("```\n{}```", gave.printed)),
        "{}",
        gave.printed
    );
    let refused = puvainy(&["find", "refused-2.job"]);
    assert!(
        stored("../guide.md").contains(&format!("```\n{}```", refused.said)),
        "{}",
        refused.said
    );
}
