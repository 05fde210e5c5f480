//! WEIGH's answer by distances over the Rust's lines, what is claimed of it, the lines of its path by the judges of
//! derivations, the answers with more nodes, and, where all weights are alike, its total by the Rust's FIND.

mod claims;
mod find;
mod more;

use super::{Difference, derived, differ, same};
use crate::plain::weigh::job::WeighJob;
use crate::plain::weigh::said::said;
use crate::rust::weigh::{Known, weighed};
use crate::{Call, Given};

pub use claims::broken;
pub use find::beside_find;
pub use more::changed;

/// Holds what WEIGH gives to a job, slots and room enough, and the number of terms noted, if it is told.
pub fn hold(call: &Call, whole: &Given, noted: Option<usize>) -> Result<(), Box<Difference>> {
    let what = "WEIGH by the procedure, and by distances over the Rust's lines";
    let job = match WeighJob::read(&call.job) {
        Ok(job) => job,
        Err(number) => return same(call, what, whole, &Err(number)),
    };
    let mut known = Known::new(&job);
    let due = weighed(&mut known);
    let text = due.text.into_bytes();
    same(call, what, whole, &Ok(text.clone()))?;
    if let Some(noted) = noted.filter(|&noted| noted != due.noted) {
        let [noted, due] = [noted, due.noted].map(|noted| format!("{noted} noted\n"));
        return Err(differ(call, what, noted, due));
    }
    derived::hold_proved(call, whole)?;
    let told = |what, fault: Option<String>| {
        let weigh = String::from_utf8_lossy(&text).into_owned();
        fault.map_or(Ok(()), |fault| Err(differ(call, what, weigh, fault)))
    };
    let claim = broken(&mut known, &text, due.next);
    let claim = claim.map(|claim| format!("not so: {claim}\n"));
    told("WEIGH and what is claimed of it", claim)?;
    told("WEIGH and the same with more nodes", changed(&job, &text))?;
    let what = "WEIGH with all weights alike, and the Rust's FIND";
    told(what, find::other(&job, &said(&text)))
}
