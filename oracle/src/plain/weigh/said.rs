//! WEIGH's answer read back.

use crate::plain::job::{line, number};

/// What an answer says.
#[derive(Clone, Copy, Debug, Eq, PartialEq)]
pub enum Said {
    Proved {
        steps: usize,
        total: usize,
        expanded: usize,
    },
    AtMost {
        steps: usize,
        total: usize,
        atleast: usize,
        expanded: usize,
    },
    None {
        expanded: usize,
        cut: bool,
    },
}

impl Said {
    pub fn expanded(&self) -> usize {
        match *self {
            Said::Proved { expanded, .. }
            | Said::AtMost { expanded, .. }
            | Said::None { expanded, .. } => expanded,
        }
    }

    /// The lines of the path, if there is one.
    pub fn steps(&self) -> Option<usize> {
        match *self {
            Said::Proved { steps, .. } | Said::AtMost { steps, .. } => Some(steps),
            Said::None { .. } => None,
        }
    }

    /// What they weigh in all.
    pub fn total(&self) -> Option<usize> {
        match *self {
            Said::Proved { total, .. } | Said::AtMost { total, .. } => Some(total),
            Said::None { .. } => None,
        }
    }

    /// Whether nodes ran out.
    pub fn ran_out(&self) -> bool {
        matches!(self, Said::AtMost { .. } | Said::None { cut: true, .. })
    }
}

/// Reads an answer.
pub fn said(answer: &[u8]) -> Said {
    let mut rest = answer;
    let mut value = |key| line(&mut rest, key).unwrap_or_else(|| panic!("WEIGH prints {key}"));
    let verdict = value("answer=");
    let [_left, _right] = ["left=", "right="].map(&mut value);
    let mut counted = |key| number(value(key)).expect("a number") as usize;
    match verdict {
        b"proved" => {
            let [steps, total, expanded] = ["steps=", "total=", "expanded="].map(counted);
            return Said::Proved {
                steps,
                total,
                expanded,
            };
        }
        b"atmost" => {
            let keys = ["steps=", "total=", "atleast=", "expanded="];
            let [steps, total, atleast, expanded] = keys.map(counted);
            return Said::AtMost {
                steps,
                total,
                atleast,
                expanded,
            };
        }
        b"none" => {}
        other => panic!("WEIGH says proved, atmost or none, not {other:?}"),
    }
    let expanded = counted("expanded=");
    let cut = match value("cut=") {
        b"yes" => true,
        b"no" => false,
        other => panic!("cut is yes or no, not {other:?}"),
    };
    assert!(rest.is_empty(), "a none ends with cut");
    Said::None { expanded, cut }
}
