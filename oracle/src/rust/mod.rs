//! Answers made from the Rust sources, for jobs that pass every refusal before the search, what the Rust says of
//! derivations, the kinds of a catalogue's entries, and WEIGH by the Rust's lines.

pub mod chain;
mod kept;
mod readback;
pub mod weigh;

use upstream::{
    BoundedRewriteProof, BoundedRewriteResult, EquationCandidate, Monomial, RewriteSearchLimits,
    SemiringNormalForm, Term, search_bounded_rewrite,
};

use crate::plain::{
    catalogue::Key,
    job::{Equation, Job, Limits},
    term::{ONE, PRODUCT, SUM, Term as Run, ZERO, part},
};
use crate::{Entry, Given};

/// The Rust's variable for c0.
const FIRST_C: u32 = 1_000;

/// The Rust's answer in document 01's text, to each equation by itself. It has no slots, no room, no `cut` and
/// no last line of WORDS; the refusals are not its own.
pub fn answer(entry: Entry, job: &[u8]) -> Given {
    let job = Job::read(entry, job)?;
    let blocks = job.equations.iter();
    let blocks = blocks.map(|equation| block(entry, equation, &job.limits));
    Ok(blocks.collect::<String>().into_bytes())
}

/// The Rust's answer to one equation, under any limits.
pub fn block(entry: Entry, equation: &Equation, limits: &Limits) -> String {
    let equation = candidate(equation);
    match entry {
        Entry::Find => find_text(&equation, limits),
        Entry::Words => words_text(&equation),
        Entry::Rename => rename_text(&equation),
        Entry::Same => same_line(&equation),
        Entry::Check | Entry::Weigh => unreachable!("the Rust has no such entry"),
    }
}

/// The lines of RENAME that make the kind of a catalogue's entry.
pub fn kind_lines(key: Key, equation: &Equation) -> String {
    let equation = candidate(equation);
    let is_kept = kept::has_c(&equation);
    match key {
        Key::Raw => term_lines(&equation, is_kept),
        Key::Words => word_lines(&equation, is_kept),
    }
}

/// The answer of RENAME by renamings put into the Rust's terms, also where there is no c letter.
pub fn kept_text(equation: &Equation) -> String {
    let equation = candidate(equation);
    term_lines(&equation, true) + &word_lines(&equation, true)
}

fn candidate(equation: &Equation) -> EquationCandidate {
    let Equation { left, right } = equation;
    let equation = EquationCandidate::new(tree(left.run()), tree(right.run()));
    equation.expect("the sides differ")
}

fn find_text(equation: &EquationCandidate, limits: &Limits) -> String {
    let bounds = RewriteSearchLimits {
        max_steps: limits.steps,
        max_term_size: limits.size,
        max_term_depth: limits.depth,
        max_nodes: limits.nodes,
    };
    let Ok(result) = search_bounded_rewrite("oracle", equation, bounds);
    let sides = format!(
        "left={}\nright={}\n",
        show(equation.lhs()),
        show(equation.rhs())
    );
    match result {
        BoundedRewriteResult::Proved(proof) => proved_text(equation, &sides, &proof),
        BoundedRewriteResult::NotProved { nodes_expanded } => {
            format!("answer=none\n{sides}expanded={nodes_expanded}\n")
        }
    }
}

fn proved_text(equation: &EquationCandidate, sides: &str, proof: &BoundedRewriteProof) -> String {
    let uses: Vec<&str> = proof.dependencies().iter().map(|law| law.name()).collect();
    format!(
        "answer=proved\n{sides}steps={}\nexpanded={}\nuses={}\n{}proof={}\n",
        proof.steps(),
        proof.nodes_expanded(),
        uses.join(","),
        readback::step_lines(proof.proof_term(), equation),
        proof.proof_term()
    )
}

fn words_text(equation: &EquationCandidate) -> String {
    let (same, left, right) = match equation.semiring_normalize() {
        Some(lists) => ("no", lists.lhs().clone(), lists.rhs().clone()),
        None => {
            let left = SemiringNormalForm::from_term(equation.lhs());
            let right = SemiringNormalForm::from_term(equation.rhs());
            ("yes", left, right)
        }
    };
    let (left, right) = (show_words(&left), show_words(&right));
    format!("same={same}\nleft={left}\nright={right}\n")
}

/// The line that the Rust's own question of the words gives.
fn same_line(equation: &EquationCandidate) -> String {
    let same = match equation.semiring_normalize() {
        Some(_) => "no",
        None => "yes",
    };
    format!("same={same}\n")
}

/// How many first words the word lists have in common; nothing where they are the same. The Rust prints no such line.
pub fn parting(equation: &Equation) -> Option<usize> {
    let lists = candidate(equation).semiring_normalize()?;
    let [left, right] = [lists.lhs(), lists.rhs()].map(SemiringNormalForm::summands);
    let words = left.iter().zip(right);
    Some(words.take_while(|(one, other)| one == other).count())
}

fn rename_text(equation: &EquationCandidate) -> String {
    let is_kept = kept::has_c(equation);
    term_lines(equation, is_kept) + &word_lines(equation, is_kept)
}

/// The first two lines of RENAME, by the Rust's own renaming or with c letters kept.
fn term_lines(equation: &EquationCandidate, is_kept: bool) -> String {
    let least = match is_kept {
        true => kept::least_sides(equation),
        false => equation.canonicalize_variables(),
    };
    let (left, right) = (show(least.lhs()), show(least.rhs()));
    format!("left={left}\nright={right}\n")
}

/// The last two.
fn word_lines(equation: &EquationCandidate, is_kept: bool) -> String {
    let (left, right) = match equation.semiring_normalize() {
        Some(lists) => {
            let least = match is_kept {
                true => kept::least_lists(equation),
                false => lists.canonicalize_variables(),
            };
            (show_words(least.lhs()), show_words(least.rhs()))
        }
        None => ("-".to_owned(), "-".to_owned()),
    };
    format!("wleft={left}\nwright={right}\n")
}

/// The run of the Rust's term.
fn run_of(term: &Term) -> Run {
    fn put(term: &Term, run: &mut Vec<u16>) {
        match term {
            Term::Var(letter) => run.push(*letter as u16),
            Term::Zero => run.push(ZERO),
            Term::One => run.push(ONE),
            Term::Add(left, right) | Term::Mul(left, right) => {
                let is_sum = matches!(term, Term::Add(..));
                run.push(if is_sum { SUM } else { PRODUCT });
                put(left, run);
                put(right, run);
            }
        }
    }
    let mut run = Vec::new();
    put(term, &mut run);
    Run::of(run)
}

/// The Rust's term of a run.
fn tree(run: &[u16]) -> Term {
    match run[0] {
        ZERO => Term::Zero,
        ONE => Term::One,
        node @ (SUM | PRODUCT) => {
            let left = part(run, 1);
            let right = Box::new(tree(part(run, 1 + left.len())));
            let left = Box::new(tree(left));
            if node == SUM {
                Term::Add(left, right)
            } else {
                Term::Mul(left, right)
            }
        }
        letter => Term::Var(u32::from(letter)),
    }
}

fn show(term: &Term) -> String {
    match term {
        Term::Var(letter) => show_letter(*letter),
        Term::Zero => "0".to_owned(),
        Term::One => "1".to_owned(),
        Term::Add(left, right) => format!("+ {} {}", show(left), show(right)),
        Term::Mul(left, right) => format!("* {} {}", show(left), show(right)),
    }
}

/// cn is the Rust's variable 1000 + n.
fn show_letter(letter: u32) -> String {
    match letter.checked_sub(FIRST_C) {
        Some(number) => format!("c{number}"),
        None => format!("v{letter}"),
    }
}

fn show_words(list: &SemiringNormalForm) -> String {
    let words: Vec<String> = list.summands().iter().map(show_word).collect();
    match words.len() {
        0 => "0".to_owned(),
        _ => words.join(";"),
    }
}

fn show_word(word: &Monomial) -> String {
    let letters: Vec<String> = word.factors().iter().map(|&l| show_letter(l)).collect();
    match letters.len() {
        0 => "1".to_owned(),
        _ => letters.join(" "),
    }
}
