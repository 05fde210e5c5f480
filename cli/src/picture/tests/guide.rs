//! The guide's answers.

use std::fs;
use std::path::PathBuf;

use super::super::draw;
use crate::names::Names;

fn guide(name: &str) -> PathBuf {
    PathBuf::from(env!("CARGO_MANIFEST_DIR"))
        .join("../docs/guide")
        .join(name)
}

#[test]
fn names_of_other_letters_change_nothing() {
    let answer = fs::read(guide("archive.answer")).unwrap();
    let names = Names::read(b"v7 Orders\n").unwrap();
    let without = draw("archive", &answer, &Names::default(), None);
    assert_eq!(draw("archive", &answer, &names, None), without);
}

/// Each stored answer of FIND or WEIGH is drawn if it is proved or in hand, and its kind is told if not.
#[test]
fn every_answer_of_the_guide_is_drawn_or_told() {
    let mut counts = [0; 4];
    for entry in fs::read_dir(guide(".")).unwrap() {
        let path = entry.unwrap().path();
        let ending = path.extension().unwrap_or_default();
        if ending != "answer" && ending != "weigh" {
            continue;
        }
        let answer = fs::read(&path).unwrap();
        let kind = match draw("name", &answer, &Names::default(), None) {
            Ok(picture) if picture.contains(", in hand") => 1,
            Ok(_) => 0,
            Err(why) if why.starts_with("line 1: the answer is a none: ") => 2,
            Err(why) if why.starts_with("line 1: the answer is a refusal: ") => 3,
            Err(why) => panic!("{}: {why}", path.display()),
        };
        let head = format!("answer={}\n", ["proved", "atmost", "none", "refused"][kind]);
        assert!(answer.starts_with(head.as_bytes()), "{}", path.display());
        counts[kind] += 1;
    }
    assert!(counts.iter().all(|&count| count > 0), "{counts:?}");
}
