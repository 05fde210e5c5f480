//! Pictures by the command.

use crate::common::{Gave, puvainy, puvainy_on, shell, stored};

/// The text is refused with this sentence, and nothing is drawn.
fn refused(gave: Gave, said: &str) {
    assert_eq!((gave.status, gave.printed.as_str()), (Some(1), ""));
    assert_eq!(gave.said, format!("puvainy: {said}\n"));
}

#[test]
fn the_guides_pictures_are_drawn_as_they_are_stored() {
    for name in [
        "archive",
        "dead-join-away",
        "drop-nothing",
        "four-joins",
        "nothing-first",
    ] {
        let (answer, picture) = (format!("{name}.answer"), stored(&format!("{name}.svg")));
        for words in [&["draw", &answer][..], &["draw", "--page", "1", &answer]] {
            let gave = puvainy(words);
            assert_eq!((gave.status, gave.said.as_str()), (Some(0), ""));
            assert_eq!(gave.printed, picture, "{name}");
        }
    }
}

#[test]
fn a_derivation_as_check_takes_it_is_drawn() {
    for name in ["archive", "dead-join"] {
        let gave = puvainy(&["draw", &format!("{name}.derivation")]);
        assert_eq!((gave.status, gave.said.as_str()), (Some(0), ""));
        assert_eq!(gave.printed, stored(&format!("{name}.svg")), "{name}");
    }
    let wrong = "bad-law.derivation: line 4: `add_com` is none of the 10 laws; \
                 ask puvainy check what is wrong";
    refused(puvainy(&["draw", "bad-law.derivation"]), wrong);
}

#[test]
fn an_answer_of_weigh_is_drawn_as_its_derivation() {
    let [answer, derivation] =
        ["weigh", "derivation"].map(|ending| puvainy(&["draw", &format!("by-stock.{ending}")]));
    assert_eq!((answer.status, answer.said.as_str()), (Some(0), ""));
    assert!(
        answer
            .printed
            .contains(">by-stock: a derivation of 7 lines, page 1 of ")
    );
    assert_eq!(answer.printed, derivation.printed);
    let none = "by-stock-cost.weigh: line 1: the answer is a none: there is no derivation to draw; \
                widen the job's limits and ask again";
    refused(puvainy(&["draw", "by-stock-cost.weigh"]), none);
}

#[test]
fn an_answer_with_a_derivation_in_hand_is_drawn_and_says_so() {
    let [proved, held] =
        ["quiet-week", "quiet-week-100"].map(|name| puvainy(&["draw", &format!("{name}.weigh")]));
    assert_eq!((held.status, held.said.as_str()), (Some(0), ""));
    let heading = ">quiet-week: a derivation of 3 lines<";
    assert!(proved.printed.contains(heading));
    let in_hand = proved.printed.replace(
        heading,
        ">quiet-week-100: a derivation of 3 lines, in hand<",
    );
    assert_eq!(
        held.printed,
        in_hand.replace("quiet-week:", "quiet-week-100:")
    );
    let lacks = shell("sed '/^atleast=/d' quiet-week-100.weigh | $P draw -");
    let whole = "draw the whole answer as FIND or WEIGH printed it";
    refused(
        lacks,
        &format!("standard input: there is no line atleast=; {whole}"),
    );
}

#[test]
fn each_block_of_an_answer_has_its_page() {
    let all = puvainy(&["draw", "drafts.answer"]);
    assert_eq!((all.status, all.said.as_str()), (Some(0), ""));
    assert_eq!(all.printed, stored("drafts.svg"));
    let shows = [
        "a derivation of 1 line",
        "a derivation of 3 lines",
        "a none",
    ];
    for (right, shows) in (1..).zip(shows) {
        let one = puvainy(&["draw", "--page", &right.to_string(), "drafts.answer"]);
        let heading = format!(">drafts, right {right} of 3: {shows}, page {right} of 3<");
        assert_eq!(one.status, Some(0));
        assert!(one.printed.contains(&heading), "{}", one.printed);
    }
    let found = puvainy(&["find", "--slots", "400", "joins-slots.job"]);
    let gave = puvainy_on(
        &["draw", "--names", "names.txt", "-"],
        found.printed.as_bytes(),
    );
    assert_eq!((gave.status, gave.said.as_str()), (Some(0), ""));
    assert!(
        gave.printed
            .contains("answer, right 3 of 3: refused by 7, page")
    );
}

#[test]
fn names_stand_in_the_picture() {
    let gave = puvainy(&["draw", "--names", "names.txt", "archive.answer"]);
    assert_eq!(
        (gave.status, gave.printed),
        (Some(0), stored("archive-names.svg"))
    );
}

#[test]
fn an_answer_goes_from_find_to_its_picture() {
    let found = puvainy(&["find", "archive.job"]);
    let gave = puvainy_on(&["draw", "-"], found.printed.as_bytes());
    assert_eq!(gave.status, Some(0));
    assert_eq!(
        gave.printed,
        stored("archive.svg").replace("archive:", "answer:")
    );
}

#[test]
fn a_long_path_has_a_page_for_each_of_its_terms() {
    let found = puvainy(&["find", "refused-8.job"]);
    let draw =
        |words: &[&str]| puvainy_on(&[&["draw", "-"], words].concat(), found.printed.as_bytes());
    let all = draw(&[]).printed;
    for page in 1..=8 {
        assert!(all.contains(&format!("<view id=\"page-{page}\"")));
        let one = draw(&["--page", &page.to_string()]);
        assert_eq!(one.status, Some(0));
        assert!(one.printed.contains(&format!(", page {page} of 8")));
    }
    let none = "standard input: there is no page 9: the picture has 8 pages; ask for one of 1 to 8";
    refused(draw(&["--page=9"]), none);
}

#[test]
fn what_holds_no_derivation_is_refused() {
    let none = "twice.answer: line 1: the answer is a none: there is no derivation to draw; \
                widen the job's limits and ask again";
    refused(puvainy(&["draw", "twice.answer"]), none);
    let refusal = "refused-6.answer: line 1: the answer is a refusal: there is no derivation to draw; \
                   mend the job and ask again";
    refused(puvainy(&["draw", "refused-6.answer"]), refusal);
    let job = "archive.job: there is no line answer=proved or answer=atmost; draw the whole answer as FIND or WEIGH printed it";
    refused(puvainy(&["draw", "archive.job"]), job);
    let found = puvainy(&["find", "--slots", "0", "joins-slots.job"]);
    let full = "standard input: none of the answer's 3 blocks is proved: there is no derivation to draw; \
                widen the job's limits or give more slots, and ask again";
    refused(puvainy_on(&["draw", "-"], found.printed.as_bytes()), full);
    let several = puvainy(&["find", "archive.job", "four-joins.job"]);
    let gave = puvainy_on(&["draw", "-"], several.printed.as_bytes());
    assert_eq!((gave.status, gave.printed.as_str()), (Some(1), ""));
    assert!(
        gave.said.contains("a second answer begins here"),
        "{}",
        gave.said
    );
}
