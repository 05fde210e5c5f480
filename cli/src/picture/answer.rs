//! An answer of FIND or WEIGH, or the text of a derivation, read for what its picture shows of each block, or what keeps it from being drawn.

use puvainy::MOST_RIGHTS;

use super::derivation::{Derivation, quoted};
use super::hand;
use crate::names::text_of;
use crate::term::Term;

/// The most lines of a derivation in an answer of FIND, and in one of WEIGH, which has a line `total`.
const MOST_LINES: usize = 16;
const MOST_WEIGHED: usize = 99;

/// What to do about an answer that is not as FIND or WEIGH prints it.
const WHOLE: &str = "draw the whole answer as FIND or WEIGH printed it";

/// What to do about the text of a derivation that is not as CHECK takes it.
const CHECKED: &str = "ask puvainy check what is wrong";

const SEVERAL: &str = "a second answer begins here, so the file holds several; \
    draw one at a time, each from a file of its own";

/// What a block holds.
#[derive(Debug)]
pub enum Block<'a> {
    /// A derivation, proved or in hand.
    Derived(Derivation<'a>),
    /// A none, with its sides.
    None([&'a str; 2]),
    Refused,
}

/// A value and the number of the answer's line that holds it.
pub type At<'a> = (usize, &'a str);

/// Reads the answer, of which a block at least is a derivation. Or says in a sentence what is wrong, where, and what to do.
pub fn read(bytes: &[u8]) -> Result<Vec<Block<'_>>, String> {
    let text = text_of(bytes, "the answer")?;
    let found = Found::read(text)?;
    if let [only] = &found[..] {
        if !only.is_text() {
            only.check_derived()?;
        }
        return Ok(vec![Block::Derived(only.derivation()?)]);
    }
    check_left(&found)?;
    let blocks = found.iter().map(Found::block);
    let blocks = blocks.collect::<Result<Vec<_>, _>>()?;
    let is_derived = |block: &Block| matches!(block, Block::Derived(_));
    match blocks.iter().any(is_derived) {
        true => Ok(blocks),
        false => Err(format!(
            "none of the answer's {} blocks is proved: there is no derivation to draw; \
             widen the job's limits or give more slots, and ask again",
            blocks.len()
        )),
    }
}

/// Blocks of one answer have the same left side, and those refused are so by 7. Or says where another answer begins.
fn check_left(blocks: &[Found]) -> Result<(), String> {
    let first = blocks.iter().find_map(|block| block.left);
    let is_other = |block: &Found| match block.answer {
        Some((_, "refused")) => block.number.is_some_and(|(_, number)| number != "7"),
        _ => {
            let both = block.left.zip(first);
            both.is_some_and(|((_, left), (_, first))| left != first)
        }
    };
    match blocks.iter().position(is_other) {
        None => Ok(()),
        Some(place) => {
            let (line, _) = blocks[place.max(1)].answer.unwrap_or_default();
            Err(format!("line {line}: {SEVERAL}"))
        }
    }
}

/// The lines of a block that its picture is made from.
#[derive(Default)]
struct Found<'a> {
    /// Whether there are other blocks beside it.
    is_one_of_several: bool,
    answer: Option<At<'a>>,
    left: Option<At<'a>>,
    right: Option<At<'a>>,
    steps: Option<At<'a>>,
    total: Option<At<'a>>,
    atleast: Option<At<'a>>,
    number: Option<At<'a>>,
    lines: Vec<At<'a>>,
}

impl<'a> Found<'a> {
    /// The blocks of the text: each but the first begins with its line `answer=`.
    fn read(text: &'a str) -> Result<Vec<Found<'a>>, String> {
        if text.trim().is_empty() {
            return Err(format!("the answer is empty; {WHOLE}"));
        }
        let (mut before, mut block) = (Vec::new(), Found::default());
        for (index, line) in text.lines().enumerate() {
            let number = index + 1;
            if line.starts_with("answer=") && block.answer.is_some() {
                block.is_one_of_several = true;
                before.push(block);
                block = Found::default();
                block.is_one_of_several = true;
            }
            let added = match before.len() {
                MOST_RIGHTS => Err(format!(
                    "an answer has at most {MOST_RIGHTS} blocks, and this is one more; {WHOLE}"
                )),
                _ => block.add(number, line),
            };
            added.map_err(|why| format!("line {number}: {why}"))?;
        }
        before.push(block);
        Ok(before)
    }

    /// Takes in a line. A line `# FILE` stands above each of several answers.
    fn add(&mut self, number: usize, line: &'a str) -> Result<(), String> {
        if line.starts_with('#') && self.answer.is_some() {
            return Err(SEVERAL.to_owned());
        }
        if line.starts_with('#') || line.trim().is_empty() {
            return Ok(());
        }
        let Some((key, value)) = line.split_once('=') else {
            return Err(format!("this is no line of an answer; {WHOLE}"));
        };
        let place = match key {
            "answer" => &mut self.answer,
            "left" => &mut self.left,
            "right" => &mut self.right,
            "steps" => &mut self.steps,
            "total" => &mut self.total,
            "atleast" => &mut self.atleast,
            "number" => &mut self.number,
            "step" => return self.add_step(number, value),
            _ => return Ok(()),
        };
        match place.replace((number, value)) {
            None => Ok(()),
            Some(_) => Err(format!("this is a second {key}; {WHOLE}")),
        }
    }

    fn add_step(&mut self, number: usize, value: &'a str) -> Result<(), String> {
        let most = match self.total {
            Some(_) => MOST_WEIGHED,
            None => MOST_LINES,
        };
        if self.answer.is_some() && self.lines.len() == most {
            let most = format!("a derivation has at most {most} lines");
            return Err(format!("{most}, and this is one more; {WHOLE}"));
        }
        self.lines.push((number, value));
        Ok(())
    }

    /// What the block holds, where it is one of several.
    fn block(&self) -> Result<Block<'a>, String> {
        match self.answer {
            Some((_, "none")) => {
                let sides = [("left", self.left), ("right", self.right)];
                let [left, right] =
                    sides.map(|(key, found)| self.side(self.given(found, key)?, key));
                Ok(Block::None([left?.0, right?.0]))
            }
            Some((_, "refused")) => {
                self.given(self.number, "number")?;
                Ok(Block::Refused)
            }
            _ => {
                self.check_derived()?;
                Ok(Block::Derived(self.derivation()?))
            }
        }
    }

    fn check_derived(&self) -> Result<(), String> {
        let Some((number, value)) = self.answer else {
            return Err(format!(
                "there is no line answer=proved or answer=atmost; {WHOLE}"
            ));
        };
        let why = match value {
            "proved" | "atmost" => return Ok(()),
            "none" => {
                "a none: there is no derivation to draw; widen the job's limits and ask again"
            }
            "refused" => "a refusal: there is no derivation to draw; mend the job and ask again",
            _ => {
                return Err(format!(
                    "line {number}: {} is no answer; {WHOLE}",
                    quoted(value)
                ));
            }
        };
        Err(format!("line {number}: the answer is {why}"))
    }

    /// Whether it is the text of a derivation: step lines, and no line that tells of an answer.
    fn is_text(&self) -> bool {
        let told = [
            self.answer,
            self.steps,
            self.total,
            self.atleast,
            self.number,
        ];
        told.iter().all(Option::is_none) && !self.lines.is_empty()
    }

    /// What to do about it where it is not as it should be.
    fn to_do(&self) -> &'static str {
        if self.is_text() { CHECKED } else { WHOLE }
    }

    /// The number of the last line of the derivation.
    fn last(&self) -> Result<usize, String> {
        match self.lines.last() {
            Some(&(last, _)) if self.is_text() => Ok(last),
            _ => check_count(self.given(self.steps, "steps")?, &self.lines),
        }
    }

    fn derivation(&self) -> Result<Derivation<'a>, String> {
        let left = self.given(self.left, "left")?;
        let right = self.given(self.right, "right")?;
        let (last, to_do) = (self.last()?, self.to_do());
        let mut derivation = Derivation::from(self.side(left, "left")?, self.is_in_hand()?);
        self.side(right, "right")?;
        for (number, value) in &self.lines {
            derivation
                .add(value)
                .map_err(|why| format!("line {number}: {why}; {to_do}"))?;
        }
        let [_, end] = derivation.ends();
        if end == right.1 {
            return Ok(derivation);
        }
        let other = format!("line {last}: the last line leads to another term than right");
        Err(format!("{other}, which is in line {}; {to_do}", right.0))
    }

    /// Whether the derivation is one in hand, of which an atmost says more. No other answer has a line `atleast`.
    fn is_in_hand(&self) -> Result<bool, String> {
        match (self.answer, self.atleast) {
            (Some((_, "atmost")), _) => {
                let total = self.given(self.total, "total")?;
                let atleast = self.given(self.atleast, "atleast")?;
                hand::check(total, atleast).map_err(|why| format!("{why}; {WHOLE}"))?;
                Ok(true)
            }
            (_, Some((number, _))) => Err(format!(
                "line {number}: atleast stands in an answer=atmost alone; {WHOLE}"
            )),
            _ => Ok(false),
        }
    }

    /// That side's text and term.
    fn side(&self, (number, text): At<'a>, key: &str) -> Result<(&'a str, Term<'a>), String> {
        let no_term = || format!("line {number}: {key} is no term; {}", self.to_do());
        let term = Term::read(text).ok_or_else(no_term)?;
        Ok((text, term))
    }

    /// The line with that key, if it was found.
    fn given(&self, found: Option<At<'a>>, key: &str) -> Result<At<'a>, String> {
        found.ok_or_else(|| match self.answer {
            Some((number, _)) if self.is_one_of_several => {
                format!("line {number}: this block has no line {key}=; {WHOLE}")
            }
            _ => format!("there is no line {key}=; {}", self.to_do()),
        })
    }
}

/// The number of the last line of the derivation, if there are as many as `steps` says.
fn check_count(steps: At, lines: &[At]) -> Result<usize, String> {
    let (number, value) = steps;
    match lines.last() {
        Some((last, _)) if lines.len().to_string() == value => Ok(*last),
        _ => {
            let (said, there) = (quoted(value), lines.len());
            Err(format!(
                "line {number}: steps is {said}, but there are {there} lines step=; {WHOLE}"
            ))
        }
    }
}
