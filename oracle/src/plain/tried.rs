//! The other way to judge a stated line: all lines of the term are tried, and the stated one must be among them.

use super::check::Stated;
use super::law::{LAWS, fits, put};
use super::line::{Line, direction};
use super::term::{Term, end, part};

/// Whether some law in some direction at some node of the term gives the stated line.
pub fn is_line(source: &Term, stated: &Stated) -> bool {
    let written = stated.show();
    (0..source.size()).any(|at| {
        let lines = (0..LAWS.len()).flat_map(|law| {
            let directions = [true, false];
            directions.map(|forward| Line { law, forward, at })
        });
        let mut lines = lines.flat_map(|line| written_lines(source, &line, &stated.result));
        lines.any(|line| line == written)
    })
}

/// The step lines of a law in a direction at a node, one for each result.
fn written_lines(source: &Term, line: &Line, stated: &Term) -> Vec<String> {
    let (law, direction) = (LAWS[line.law].name, direction(line.forward));
    let place = line.place(source);
    let results = results(source, line, stated).into_iter();
    let lines =
        results.map(|result| format!("step={law} {direction} at={place} to={}\n", result.show()));
    lines.collect()
}

/// The results. A letter that the side replaced leaves unbound stands for each part of the stated result in
/// turn: what is put in is a part of its result, so no other term can give that one.
fn results(source: &Term, line: &Line, stated: &Term) -> Vec<Term> {
    let (run, at) = (source.run(), line.at);
    let (replaced, other) = LAWS[line.law].sides(line.forward);
    let mut binding = [None; 3];
    if !fits(replaced, part(run, at), &mut binding) {
        return Vec::new();
    }
    let put_in: Vec<Vec<u16>> = match put(other, &binding) {
        Some(new) => vec![new],
        None => {
            let parts = (0..stated.size()).map(|start| part(stated.run(), start));
            let bindings = parts.map(|part| binding.map(|met| met.or(Some(part))));
            bindings
                .filter_map(|binding| put(other, &binding))
                .collect()
        }
    };
    let wholes = put_in
        .iter()
        .map(|new| [&run[..at], new, &run[end(run, at)..]].concat());
    wholes.map(Term::of).collect()
}
