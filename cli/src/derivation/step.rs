//! The four parts of a step line.

use crate::failure::brief;
use crate::law::{Direction, Law};
use crate::refusals::Fault;
use crate::term::turns;

/// What stands behind `step=`, with the result as it is written.
#[derive(Debug)]
pub struct Step<'a> {
    pub law: &'static Law,
    pub direction: Direction,
    /// The turns from the top to the place.
    pub turns: &'a str,
    pub result: &'a [u8],
}

impl<'a> Step<'a> {
    /// Reads `LAW DIRECTION at=PLACE to=TERM`. Or says which part is wrong, and what is told of it.
    pub fn read(value: &'a [u8]) -> Result<Step<'a>, (Fault, String)> {
        let mut parts = value.splitn(4, |&byte| byte == b' ');
        let mut next = || parts.next().ok_or((Fault::Parts, String::new()));
        let [law, direction, place, result] = [next()?, next()?, next()?, next()?];
        let turned = |place: &'a [u8]| turns(str::from_utf8(place.strip_prefix(b"at=")?).ok()?);
        Ok(Step {
            law: named(law, Law::named).ok_or_else(|| wrong(Fault::Law, "law", law))?,
            direction: named(direction, Direction::named)
                .ok_or_else(|| wrong(Fault::Direction, "direction", direction))?,
            turns: turned(place).ok_or_else(|| wrong(Fault::Place, "place", place))?,
            result: result
                .strip_prefix(b"to=")
                .ok_or_else(|| wrong(Fault::To, "result", result))?,
        })
    }
}

/// What has that name, if it is text.
fn named<T>(name: &[u8], find: fn(&str) -> Option<T>) -> Option<T> {
    find(str::from_utf8(name).ok()?)
}

/// The fault, with its part and how that begins.
fn wrong(fault: Fault, part: &str, text: &[u8]) -> (Fault, String) {
    let shown = match text {
        [] => String::new(),
        _ => format!(" ({})", brief(&String::from_utf8_lossy(text))),
    };
    (fault, format!(", {part}{shown}"))
}
