//! The documents' cases hold.

use oracle::cases::{cases, catalogue};
use oracle::checked::Judged;

#[test]
fn cases_hold() {
    for case in cases(&[]) {
        if let Some(fault) = case.fault() {
            panic!("case {}\n{fault}", case.name);
        }
    }
}

#[test]
fn cases_of_the_catalogue_hold_and_leave_it_empty() {
    for play in catalogue::plays()
        .into_iter()
        .chain(catalogue::fixed_plays())
    {
        if let Some(fault) = play.faults().first() {
            panic!("case {}\n{fault}", play.name);
        }
        let mut judged = Judged::new(true);
        for (sent, _) in &play.calls {
            judged.call(sent).expect("the Rust is left out").ok();
        }
        assert!(judged.plain.held().is_empty(), "{}", play.name);
    }
}
