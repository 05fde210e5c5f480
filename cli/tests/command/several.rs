//! Jobs of FIND with several right sides.

use crate::common::{Gave, puvainy, puvainy_on, shell, stored};

/// What one block is: the answer to the job with that right side alone, or the two lines of its refusal.
fn alone(job: &str, right: &str, slots: &str) -> String {
    let is_other = |line: &&str| !line.starts_with("right=") || line == &right;
    let lines = job.lines().filter(is_other);
    let job: String = lines.map(|line| format!("{line}\n")).collect();
    let gave = puvainy_on(&["find", "--slots", slots], job.as_bytes());
    assert!(matches!(gave.status, Some(0 | 1)), "{gave:?}");
    gave.printed
}

/// The answer is blocks, each that of the job with one right side.
fn check_blocks(job: &str, slots: &str) -> Gave {
    let rights = job.lines().filter(|line| line.starts_with("right="));
    let due: String = rights.map(|right| alone(job, right, slots)).collect();
    let gave = puvainy_on(&["find", "--slots", slots], job.as_bytes());
    assert!(gave.printed == due, "{job}");
    gave
}

#[test]
fn each_block_is_the_answer_of_a_job_with_one_right_side() {
    for (job, slots, status) in [
        ("drafts.job", "65535", 0),
        ("drafts.job", "400", 0),
        ("drafts.job", "0", 1),
        ("joins-slots.job", "65535", 0),
        ("joins-slots.job", "400", 1),
        ("joins-slots.job", "20", 1),
        ("joins-narrow.job", "51", 0),
        ("joins-narrow.job", "50", 1),
    ] {
        let gave = check_blocks(&stored(job), slots);
        assert_eq!(gave.status, Some(status), "{job}, {slots} slots");
    }
}

/// Sixteen right sides of 31 nodes make a job of over 1,024 bytes.
#[test]
fn sixteen_right_sides_are_answered() {
    let right = |letter: usize| format!("right={}v{letter}\n", "+ v0 ".repeat(15));
    let sides: String = (0..16).map(right).collect();
    let limits = "steps=16\nsize=31\ndepth=15\nnodes=20\n";
    let left = format!("left={}v0\n", "+ v0 ".repeat(14));
    let job = left + &sides + limits;
    assert!(job.len() > 1024, "{}", job.len());
    let gave = check_blocks(&job, "65535");
    assert_eq!(gave.status, Some(0));
    assert_eq!(gave.printed.matches("answer=none\n").count(), 16);
    let all: Vec<_> = (1..16).map(|right| right.to_string()).collect();
    let all = format!("standard input: right {} and 16: none: ", all.join(", "));
    assert!(gave.said.contains(&all), "{}", gave.said);
}

#[test]
fn a_none_among_blocks_is_0_and_its_right_side_is_told() {
    let gave = puvainy(&["find", "--names", "names.txt", "drafts.job"]);
    assert_eq!(
        (gave.status, gave.printed),
        (Some(0), stored("drafts.answer"))
    );
    let said = "puvainy: drafts.job: right 3: none: nothing was left to open; raise steps, size or depth, \
                or ask puvainy words, one right side to a job, whether the plans are equal at all\n\
                puvainy: left: Archive + (Orders * (South stock + North stock))\n\
                puvainy: right 3: Archive + ((South stock + North stock) * Orders)\n";
    assert_eq!(gave.said, said);
}

#[test]
fn a_refused_block_is_1_and_the_guide_shows_what_is_said() {
    let words = [
        "find",
        "--slots",
        "400",
        "--names",
        "names.txt",
        "joins-slots.job",
    ];
    let gave = puvainy(&words);
    assert_eq!(
        (gave.status, gave.printed),
        (Some(1), stored("joins-slots.answer"))
    );
    assert!(
        stored("../guide.md").contains(&format!("```\n{}```", gave.said)),
        "{}",
        gave.said
    );
    let most = puvainy(&["find", "joins-slots.job"]);
    assert_eq!((most.status, most.said.as_str()), (Some(0), ""));
    let among = puvainy(&["find", "--slots", "400", "archive.job", "joins-slots.job"]);
    assert_eq!(among.status, Some(1));
    let due = format!(
        "# archive.job\n{}# joins-slots.job\n{}",
        stored("archive.answer"),
        stored("joins-slots.answer")
    );
    assert_eq!(among.printed, due);
}

#[test]
fn the_guide_shows_the_job_and_its_blocks() {
    let guide = stored("../guide.md");
    let answer = stored("drafts.answer");
    let lines = answer.lines().filter(|line| !line.starts_with("proof="));
    let shown: String = lines.map(|line| format!("{line}\n")).collect();
    for text in [stored("drafts.job"), shown] {
        assert!(guide.contains(&format!("```\n{text}```")), "{text}");
    }
}

/// A refused job: its two lines, and this said.
fn refused(gave: Gave, number: usize, said: &str) {
    let printed = format!("answer=refused\nnumber={number}\n");
    assert_eq!((gave.status, gave.printed), (Some(1), printed));
    assert_eq!(gave.said, format!("puvainy: {said}\n"));
}

#[test]
fn a_refusal_of_several_right_sides_names_the_line() {
    let rights = "refused-9.job: line 18 (right 17): the job has over 16 right lines; \
                  ask for the rest in another job (refusal 9)";
    refused(puvainy(&["find", "refused-9.job"]), 9, rights);
    let before = "refused-10.job: line 3 (right 2): of several right sides none may come before left in the order \
                  of terms; ask for such a one in a job of its own, where the smaller plan becomes left by itself (refusal 10)";
    refused(puvainy(&["find", "refused-10.job"]), 10, before);
    let same = "refused-6-several.job: line 3 (right 2): of several right sides none may be the same term as left; \
                leave such a line out: there is nothing to derive (refusal 6)";
    refused(puvainy(&["find", "refused-6-several.job"]), 6, same);
    let named = puvainy(&["find", "--names", "names.txt", "refused-10.job"]);
    let shown =
        "\npuvainy: left: Orders * North stock\npuvainy: right 2: (Orders * North stock) + 0";
    refused(named, 10, &format!("{before}{shown}"));
}

/// All that are at fault are told, and what is done about one leaves the others' plans and limits as they are.
#[test]
fn the_advice_for_one_right_side_leaves_the_others_as_they_are() {
    let job = |rights: [&str; 4]| {
        let sides = rights.map(|right| format!("right={right}\n")).concat();
        let limits = "steps=3\nsize=9\ndepth=4\nnodes=1000\n";
        puvainy_on(
            &["find"],
            format!("left=* v0 v1\n{sides}{limits}").as_bytes(),
        )
    };
    let shared = "ask for such a one in a job of its own, \
                  and there give a part that both plans share a letter of its own";
    let letters = format!(
        "standard input: lines 3 and 5 (right 2 and 4), 7 and 7 v letters: \
         of several right sides none may have over six different v letters together with left; \
         {shared}, or a fixed table a c letter (refusal 4)"
    );
    let many = "* v2 * v3 * v4 * v5 v6";
    refused(job(["* v1 v0", many, "* 1 1", many]), 4, &letters);
    let wide = format!("{}v0", "+ v0 ".repeat(16));
    let nodes = format!(
        "standard input: line 4 (right 3), 33 nodes: \
         of several right sides none may have over 31 nodes; {shared} (refusal 3)"
    );
    refused(job(["* v1 v0", "* 1 1", &wide, many]), 3, &nodes);
    let before = "standard input: lines 2, 3 and 5 (right 1, 2 and 4): \
                  of several right sides none may come before left in the order of terms; \
                  ask for such a one in a job of its own, where the smaller plan becomes left by itself (refusal 10)";
    refused(job(["v0", "0", "* 1 1", "+ v0 v0"]), 10, before);
}

#[test]
fn words_rename_and_same_take_one_right_side() {
    for word in ["words", "rename", "same"] {
        let gave = puvainy(&[word, "drafts.job"]);
        let said = "drafts.job: line 3: WORDS, RENAME and SAME take one right line; \
                    ask each right side in a job of its own (refusal 1)";
        refused(gave, 1, said);
    }
}

#[test]
fn a_right_line_out_of_its_place_or_too_many_is_told() {
    let job = stored("archive.job");
    let behind = puvainy_on(&["find"], format!("{job}right=v0\n").as_bytes());
    let said = "standard input: line 7: a right line stands behind steps; \
                write all right lines between left and steps (refusal 1)";
    refused(behind, 1, said);
    let pasted = job.replacen("\nsteps", "\nright=v0\r\nsteps", 1);
    let pasted = puvainy_on(&["find"], pasted.as_bytes());
    let said = "standard input: line 3 (right 2): the side's line ends the Windows way; \
                save with Unix line ends (refusal 2)";
    refused(pasted, 2, said);
    let long = job.replacen(
        "\nsteps",
        &format!("{}\nsteps", "\nright=v0".repeat(500)),
        1,
    );
    for word in ["find", "words", "rename", "same"] {
        let said = "standard input: the whole text: the job has over 4,096 bytes, or of WORDS, RENAME or SAME over 1,024; \
                    write nothing but the job's lines, of which at most 16 are right lines, with WORDS, RENAME and SAME one, \
                    and no space or 0 that is not needed (refusal 1)";
        refused(puvainy_on(&[word], long.as_bytes()), 1, said);
    }
    let help = puvainy(&["find", "--help"]).printed.replace('\n', " ");
    assert!(help.contains("1 to 16 lines right=, one behind the other"));
}

/// The guide's way to cut an answer.
#[test]
fn a_block_is_cut_out_to_be_filed() {
    let line = "csplit -s -z -f block- all.answer '/^answer=/' '{*}'";
    assert!(stored("../guide.md").contains(&format!("\n    {line}\n")));
    let cut = shell(&format!(
        "d=$(mktemp -d) && $P find drafts.job >$d/all.answer && cd $d && {line} && cat block-02; ls; rm -r $d"
    ));
    let third = puvainy(&["find", "drafts-third.job"]).printed;
    let files = "all.answer\nblock-00\nblock-01\nblock-02\n";
    assert_eq!(cut.printed, third + files);
}

#[test]
fn the_header_tells_of_a_long_answer() {
    let calls = stored("../../examples/deep.calls");
    let line = "1 65535 2097152 1387\n";
    let job = calls.split_once(line).expect("call 4").1;
    let gave = puvainy_on(&["find"], &job.as_bytes()[..1387]);
    assert_eq!(gave.printed.matches("answer=proved\n").count(), 16);
    assert_eq!(gave.printed.len(), 1_594_509);
    assert!(stored("../../include/puvainy.h").contains(" has 1,594,509 bytes in"));
}

/// No job of so many bytes is accepted, since a side of 31 nodes is short: it is refused for another reason.
#[test]
fn the_most_bytes_are_4096_for_find_and_1024_for_the_others() {
    let job = |bytes: usize| {
        let rest = "left=v0\nright=\nsteps=3\nsize=7\ndepth=3\nnodes=1000\n";
        rest.replace(
            "right=",
            &format!("right={}", "+".repeat(bytes - rest.len())),
        )
    };
    for (word, most) in [
        ("find", 4096),
        ("words", 1024),
        ("rename", 1024),
        ("same", 1024),
    ] {
        for (bytes, number) in [(most, 2), (most + 1, 1)] {
            assert_eq!(job(bytes).len(), bytes);
            let gave = puvainy_on(&[word], job(bytes).as_bytes());
            assert_eq!(
                gave.printed,
                format!("answer=refused\nnumber={number}\n"),
                "{word}"
            );
        }
    }
}

#[test]
fn room_is_for_all_blocks_together() {
    let needed = stored("drafts.answer").len();
    let ask = |bytes: usize| puvainy(&["find", "--room", &bytes.to_string(), "drafts.job"]);
    assert_eq!(ask(needed).printed, stored("drafts.answer"));
    let said = format!(
        "drafts.job: with --room {}: of several right sides the blocks together are longer than the output room; \
         give more room; or ask for fewer right sides at a time (refusal 8)",
        needed - 1
    );
    refused(ask(needed - 1), 8, &said);
    let said = "archive.job: with --room 9: the answer is longer than the output room; \
                give more room; or, with FIND, go by a plan in between, with a job for each half (refusal 8)";
    refused(puvainy(&["find", "--room", "9", "archive.job"]), 8, said);
    let long = stored("refused-8.job");
    let right = long.lines().nth(1).unwrap();
    let twice = long.replacen(right, &[right; 2].join("\n"), 1);
    let gave = puvainy_on(&["find"], twice.as_bytes());
    let one = puvainy(&["find", "refused-8.job"]);
    assert_eq!(gave.status, Some(0));
    assert!(gave.printed == one.printed.repeat(2));
}
