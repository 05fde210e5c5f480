//! What an atmost of WEIGH says of the derivation in hand.

use super::answer::At;
use super::derivation::quoted;
use crate::job::COST;
use crate::whole::is_number;

/// No derivation weighs more than a cost may be.
const MOST: usize = COST.1;

/// That these say what the derivation weighs, and what a lightest does at least.
pub fn check(total: At, atleast: At) -> Result<(), String> {
    let most = number(total, "total")?;
    let least = number(atleast, "atleast")?;
    let (line, _) = atleast;
    match least <= most {
        true => Ok(()),
        false => Err(format!(
            "line {line}: atleast is {least}, and total, which is {most}, is less"
        )),
    }
}

fn number((line, value): At, key: &str) -> Result<usize, String> {
    match value.parse() {
        Ok(number) if is_number(value.as_bytes()) && number <= MOST => Ok(number),
        _ => {
            let value = quoted(value);
            Err(format!(
                "line {line}: {key} is {value}, which is no number up to {MOST}"
            ))
        }
    }
}
