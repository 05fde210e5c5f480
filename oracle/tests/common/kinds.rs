//! How many lines of equations differ.

use std::collections::BTreeSet;

/// How many different lines there are. Two have the same exactly if the judge calls them alike.
pub fn kinds<T>(named: &[(T, String)], is_alike: impl Fn(&T, &T) -> bool) -> usize {
    for (at, (one, lines)) in named.iter().enumerate() {
        for (other, other_lines) in &named[..at] {
            let is_same = lines == other_lines;
            assert_eq!(is_same, is_alike(one, other), "{lines}{other_lines}");
        }
    }
    let lines: BTreeSet<&String> = named.iter().map(|(_, lines)| lines).collect();
    lines.len()
}
