//! What is wrong with one side of a job, or with one term of a derivation.

use crate::failure::brief;
use crate::refusals::Fault;
use crate::term::{MOST_NODES, is_atom};

/// Why a side is no term, and at which of its items.
pub fn in_term(side: &[u8]) -> Option<(Fault, String)> {
    if side.ends_with(b"\r") {
        return Some((Fault::Return, String::new()));
    }
    let side = String::from_utf8_lossy(side);
    if side.is_empty() {
        return Some((Fault::Empty, String::new()));
    }
    let items: Vec<_> = side.split(' ').collect();
    let place = |index: usize| format!(", item {}", index + 1);
    if let Some(index) = items.iter().position(|item| item.is_empty()) {
        return Some((Fault::Space, place(index)));
    }
    // How many parts are still to come.
    let mut parts = 1;
    for (index, &item) in items.iter().enumerate() {
        let is_sign = item == "+" || item == "*";
        if !is_sign && !is_atom(item) {
            return Some((Fault::Item, format!("{} ({})", place(index), brief(item))));
        }
        if parts == 0 {
            return Some((Fault::Left, place(index)));
        }
        parts = if is_sign { parts + 1 } else { parts - 1 };
    }
    (parts > 0).then(|| (Fault::Part, format!(", behind item {}", items.len())))
}

pub fn in_size(side: &[u8]) -> Option<(Fault, String)> {
    let nodes = side.split(|&byte| byte == b' ').count();
    (nodes > MOST_NODES).then(|| (Fault::Nodes, format!(", {nodes} nodes")))
}
