//! Derivations in the making: what stands in their lines, and the calls around them.

use super::random::Random;
use crate::plain::check::{Derivation, GOOD, KEYS, Stated, show_place};
use crate::plain::law::LAWS;
use crate::plain::line::direction;
use crate::{Call, Entry, PROGRAM_ROOM};

/// What stands in a step line, any bytes.
#[derive(Clone)]
pub struct StepDraft {
    pub law: Vec<u8>,
    pub direction: Vec<u8>,
    pub place: Vec<u8>,
    pub result: Vec<u8>,
}

/// What stands in the lines: left, right, the steps.
#[derive(Clone)]
pub struct Derived {
    pub left: Vec<u8>,
    pub right: Vec<u8>,
    pub steps: Vec<StepDraft>,
}

impl Derived {
    pub fn new(derivation: &Derivation) -> Derived {
        Derived {
            left: derivation.left.show().into_bytes(),
            right: derivation.right.show().into_bytes(),
            steps: derivation.steps.iter().map(StepDraft::new).collect(),
        }
    }

    /// The lines, each with its key and its end.
    pub fn lines(&self) -> Vec<Vec<u8>> {
        let [left, right, _] = KEYS;
        let sides = [(left, &self.left), (right, &self.right)];
        let sides = sides.map(|(key, value)| [key.as_bytes(), value, b"\n"].concat());
        let steps = self.steps.iter().map(StepDraft::line);
        sides.into_iter().chain(steps).collect()
    }

    pub fn bytes(&self) -> Vec<u8> {
        self.lines().concat()
    }

    /// A side or a result, any of them as likely.
    pub fn any_term(&mut self, random: &mut Random) -> &mut Vec<u8> {
        match random.below(self.steps.len() + 2) {
            0 => &mut self.left,
            1 => &mut self.right,
            at => &mut self.steps[at - 2].result,
        }
    }

    /// One of the step lines.
    pub fn any_step(&mut self, random: &mut Random) -> &mut StepDraft {
        let at = random.below(self.steps.len());
        &mut self.steps[at]
    }

    /// CHECK of this text.
    pub fn call(&self, random: &mut Random) -> Call {
        call(random, self.bytes())
    }
}

impl StepDraft {
    pub fn new(stated: &Stated) -> StepDraft {
        StepDraft {
            law: LAWS[stated.law].name.into(),
            direction: direction(stated.forward).into(),
            place: show_place(&stated.place).into_bytes(),
            result: stated.result.show().into_bytes(),
        }
    }

    pub fn line(&self) -> Vec<u8> {
        let StepDraft {
            law,
            direction,
            place,
            result,
        } = self;
        [
            b"step=",
            &law[..],
            b" ",
            direction,
            b" at=",
            place,
            b" to=",
            result,
            b"\n",
        ]
        .concat()
    }
}

/// CHECK of a text, mostly with room enough.
pub fn call(random: &mut Random, job: Vec<u8>) -> Call {
    let room = match random.below(10) {
        0 => PROGRAM_ROOM,
        1 => random.around(GOOD.len()),
        2 => random.between(GOOD.len(), 200),
        _ => GOOD.len(),
    };
    Call {
        entry: Entry::Check,
        slots: 0,
        room,
        job,
    }
}
