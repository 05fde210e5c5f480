//! Renamings that are none are found out, each by the sentence that it breaks.

use oracle::Entry;
use oracle::generate::Names;
use oracle::names::hold;
use oracle::plain::job::{Equation, Job, MOST_LETTERS};
use oracle::plain::rename::{least_lists, least_sides, term_lines, word_lines};
use oracle::plain::term::{Term, v_letters_of};
use oracle::plain::words::{oriented, words};

/// The complaints about a program that answers so, of 300 pairs.
fn told(answer: impl Fn(&Equation) -> String) -> Vec<String> {
    told_of(false, answer)
}

/// Likewise, of pairs with c letters or without.
fn told_of(has_c: bool, answer: impl Fn(&Equation) -> String) -> Vec<String> {
    let names = Names {
        count: 300,
        has_c,
        ..Names::default()
    };
    let complaint = |index| {
        let held = hold(&names.pair(index), |call| {
            let job = Job::read(Entry::Rename, &call.job);
            let text = job.map(|job| answer(&job.equations[0]));
            Ok(text.map(String::into_bytes))
        });
        held.err()
    };
    names.indices().filter_map(complaint).collect()
}

fn sides(equation: &Equation) -> String {
    let (left, right) = least_sides(equation);
    term_lines(&left, &right)
}

fn lists(equation: &Equation) -> String {
    word_lines(least_lists(equation).as_ref())
}

/// That a program that answers so is found out by this sentence.
fn is_found_out(sentence: &str, answer: impl Fn(&Equation) -> String) {
    let told = told(answer);
    assert!(told.iter().any(|found| found.contains(sentence)));
}

const SAME_SIDES: &str = "`left` and `right` are the same exactly";
const SAME_LISTS: &str = "`wleft` and `wright` are the same exactly";

#[test]
fn renaming_itself_is_not() {
    let told = told(|equation| sides(equation) + &lists(equation));
    assert_eq!(told, Vec::<String>::new());
}

#[test]
fn sides_that_are_not_renamed() {
    is_found_out(SAME_SIDES, |equation| {
        let (left, right) = equation.oriented();
        term_lines(left, right) + &lists(equation)
    });
}

#[test]
fn one_answer_for_all() {
    is_found_out(SAME_SIDES, |equation| {
        "left=v0\nright=v1\n".to_owned() + &lists(equation)
    });
}

/// Letters numbered as they come, left before right: the order of the sides shows.
#[test]
fn letters_in_the_order_of_the_text() {
    is_found_out(SAME_SIDES, |equation| {
        let [left, right] = [&equation.left, &equation.right].map(|side| side.show());
        let mut met: Vec<String> = Vec::new();
        let mut renamed = |item: &str| {
            if !item.starts_with('v') {
                return item.to_owned();
            }
            let at = met.iter().position(|letter| letter == item);
            let at = at.unwrap_or_else(|| {
                met.push(item.to_owned());
                met.len() - 1
            });
            format!("v{at}")
        };
        let [left, right] = [left, right].map(|side| {
            let items: Vec<String> = side.split(' ').map(&mut renamed).collect();
            items.join(" ")
        });
        format!("left={left}\nright={right}\n") + &lists(equation)
    });
}

#[test]
fn lists_that_are_not_renamed() {
    is_found_out(SAME_LISTS, |equation| {
        let [left, right] = [words(&equation.left), words(&equation.right)];
        let different = (left != right).then(|| oriented(left, right));
        sides(equation) + &word_lines(different.as_ref())
    });
}

/// The lists of the renamed sides: they hang on the terms, and not on the words alone.
#[test]
fn lists_renamed_with_the_sides() {
    is_found_out(SAME_LISTS, |equation| {
        let (left, right) = least_sides(equation);
        let [left, right] = [words(&left), words(&right)];
        let different = (left != right).then(|| oriented(left, right));
        sides(equation) + &word_lines(different.as_ref())
    });
}

#[test]
fn lists_left_out() {
    is_found_out("both `-` exactly", |equation| {
        sides(equation) + "wleft=-\nwright=-\n"
    });
}

#[test]
fn lists_that_agree_printed() {
    is_found_out("both `-` exactly", |equation| {
        let all = || oriented(words(&equation.left), words(&equation.right));
        let lists = least_lists(equation).unwrap_or_else(all);
        sides(equation) + &word_lines(Some(&lists))
    });
}

/// A name that is another equation's: shared as it should be, but not kept.
#[test]
fn a_name_of_another_equation() {
    is_found_out("gives the same four lines", |equation| {
        let (left, right) = least_sides(equation);
        let lines = format!("left=* 1 {}\nright={}\n", left.show(), right.show());
        lines + &lists(equation)
    });
}

#[test]
fn a_name_that_is_no_job() {
    is_found_out("the job is answered by four lines", |equation| {
        "left=v\nright=v\n".to_owned() + &lists(equation)
    });
}

/// C letters renamed as v letters are, where there are few: two tables are taken for each other.
#[test]
fn c_letters_renamed() {
    let honest = |equation: &Equation| sides(equation) + &lists(equation);
    let told = told_of(true, |equation| {
        let [left, right] = [&equation.left, &equation.right].map(|side| {
            let items = side.show().replace('c', "v1");
            Term::read(items.as_bytes()).expect("a term")
        });
        match v_letters_of(&left, &right).len() > MOST_LETTERS {
            true => honest(equation),
            false => honest(&Equation { left, right }),
        }
    });
    for sentence in [SAME_SIDES, SAME_LISTS] {
        assert!(told.iter().any(|found| found.contains(sentence)));
    }
    assert_eq!(told_of(true, honest), Vec::<String>::new());
}
