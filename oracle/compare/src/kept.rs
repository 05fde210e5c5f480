//! Catalogues lent to the library, held to what plain leaves in its own and to the documented layout.

use oracle::generate::Random;
use oracle::plain::catalogue::{Catalogue, Done, Held, Kept, Put, read_withdrawal, returned};
use oracle::plain::stored::{COUNT, LEFT, PLACE, RIGHT, front, lists};
use oracle::{Ask, Sent};
use puvainy::{ANSWER, CATALOGUE, entries};

use crate::lent::Buffer;

/// The buffers of one thread.
#[derive(Default)]
pub struct Catalogues {
    text: Buffer<u8>,
    kept: Buffer<u32>,
    /// The numbers that the catalogue has to have.
    due: Vec<u32>,
    /// A buffer that is no catalogue, and its numbers before a call.
    other: Buffer<u32>,
    former: Vec<u32>,
}

impl Catalogues {
    /// An empty catalogue: zeros.
    pub fn begin(&mut self, random: &mut Random) {
        self.kept.choose(random.below(8), CATALOGUE);
        self.kept.fill(|| 0);
        self.kept.watch(|| number(random));
        self.due.clear();
        self.due.resize(CATALOGUE, 0);
    }

    /// Makes the call; says what is not as it is due. The catalogue of plain is the one after the call.
    pub fn fault(
        &mut self,
        sent: &Sent,
        kept: &Kept,
        after: &Catalogue,
        random: &mut Random,
    ) -> Option<String> {
        self.lend_text(sent, random);
        if sent.numbers != CATALOGUE {
            self.lend_other(sent.numbers, random);
            let number = call(sent.ask, &self.text, &mut self.other);
            return number_fault(number, returned(kept)).or_else(|| self.other_fault(sent));
        }
        if random.percent(2) {
            self.move_kept(random);
        }
        let number = call(sent.ask, &self.text, &mut self.kept);
        number_fault(number, returned(kept))
            .or_else(|| self.place_fault(kept, after))
            .or_else(|| self.kept_fault(sent))
    }

    /// Takes the catalogue to another place in memory, as a host may between calls.
    fn move_kept(&mut self, random: &mut Random) {
        self.kept.choose(random.below(4_096), CATALOGUE);
        self.kept.part_mut().copy_from_slice(&self.due);
        self.kept.watch(|| number(random));
    }

    fn lend_text(&mut self, sent: &Sent, random: &mut Random) {
        self.text.choose(random.below(8), sent.text.len());
        self.text.part_mut().copy_from_slice(&sent.text);
        self.text.watch(|| random.byte());
    }

    /// Holds the place that an accepted call took or set free, and notes what the catalogue has to be.
    fn place_fault(&mut self, kept: &Kept, after: &Catalogue) -> Option<String> {
        let &Done { place, kinds } = kept.as_ref().ok()?;
        let numbers = place * PLACE..(place + 1) * PLACE;
        self.due[COUNT] = kinds as u32;
        let Some(held) = after.at(place) else {
            self.due[numbers.start] = 0;
            return None;
        };
        let stored = &self.kept.part()[numbers.clone()];
        self.due[numbers].copy_from_slice(stored);
        (!is_stored(held, stored)).then(|| {
            let lengths = lists(held).map(|list| list.len());
            let begin = &stored[..2 * LEFT];
            format!(
                "place {place} does not hold {held:?}, lists of {lengths:?}: it begins {begin:?}"
            )
        })
    }

    /// Every number of the catalogue, the text and the margins.
    fn kept_fault(&self, sent: &Sent) -> Option<String> {
        let kept = self.kept.part();
        if kept != self.due {
            let mut both = kept.iter().zip(&self.due);
            let at = both.position(|(now, due)| now != due)?;
            let (place, number) = (at / PLACE, at % PLACE);
            let (now, due) = (kept[at], self.due[at]);
            return Some(format!(
                "number {number} of place {place} is {now}, due {due}"
            ));
        }
        let is_kept = self.kept.is_kept_around();
        let beside = "a number beside the catalogue is changed".to_owned();
        (!is_kept)
            .then_some(beside)
            .or_else(|| self.text_fault(sent))
    }

    fn text_fault(&self, sent: &Sent) -> Option<String> {
        let is_kept = self.text.part() == sent.text && self.text.is_kept_around();
        (!is_kept).then(|| "the text, or a byte beside it, is changed".to_owned())
    }

    /// A buffer of another length: as much of the catalogue as it takes, or other numbers.
    fn lend_other(&mut self, length: usize, random: &mut Random) {
        self.other.choose(random.below(8), length);
        let common = length.min(CATALOGUE);
        match random.below(4) {
            0 => self.other.fill(|| 0),
            1 => self.other.fill(|| number(random)),
            _ => {
                let kept = &self.kept.part()[..common];
                self.other.part_mut()[..common].copy_from_slice(kept);
            }
        }
        self.watch_other(random);
    }

    fn watch_other(&mut self, random: &mut Random) {
        self.other.watch(|| number(random));
        self.former.clear();
        self.former.extend_from_slice(self.other.part());
    }

    /// Every number that was there, the text and the margins.
    fn other_fault(&self, sent: &Sent) -> Option<String> {
        if self.other.part() != self.former {
            return Some("a refused call changed a number".to_owned());
        }
        self.beside_fault().or_else(|| self.text_fault(sent))
    }

    fn beside_fault(&self) -> Option<String> {
        let is_kept = self.other.is_kept_around();
        (!is_kept).then(|| "a number beside the buffer is changed".to_owned())
    }

    /// Makes the call on a buffer of the right length with numbers that no calls have left there. It comes back; a
    /// text is refused as on any catalogue; and a refusal leaves every number as it was.
    pub fn stray_fault(&mut self, sent: &Sent, random: &mut Random) -> Option<String> {
        self.lend_text(sent, random);
        self.other.choose(random.below(8), CATALOGUE);
        self.soil_other(random);
        self.watch_other(random);
        let number = call(sent.ask, &self.text, &mut self.other);
        let refused = match sent.ask {
            Ask::Put => Put::read(&sent.text).err(),
            Ask::Withdraw => read_withdrawal(&sent.text).err(),
        };
        if let Some(refused) = refused
            && number != usize::from(refused)
        {
            return number_fault(number, usize::from(refused));
        }
        match number < ANSWER {
            true => self.other_fault(sent),
            false => self.beside_fault().or_else(|| self.text_fault(sent)),
        }
    }

    /// Random numbers, all the same, or the catalogue with some of its numbers changed, most often those that say
    /// what a place holds.
    fn soil_other(&mut self, random: &mut Random) {
        match random.below(6) {
            0 => self.other.fill(|| number(random)),
            1 => {
                let all = random.pick(&[1, 4_096, 65_536, u32::MAX]);
                self.other.fill(|| all);
            }
            _ => {
                self.other.part_mut().copy_from_slice(self.kept.part());
                for _ in 0..random.between(1, 40) {
                    let at = match random.below(8) {
                        0 => COUNT,
                        1 => random.below(CATALOGUE),
                        _ => random.below(64) * PLACE + random.below(LEFT),
                    };
                    self.other.part_mut()[at] = number(random);
                }
            }
        }
    }
}

fn call(ask: Ask, text: &Buffer<u8>, catalogue: &mut Buffer<u32>) -> usize {
    match ask {
        Ask::Put => entries::put(text.part(), catalogue.part_mut()),
        Ask::Withdraw => entries::withdraw(text.part(), catalogue.part_mut()),
    }
}

pub fn number_fault(number: usize, due: usize) -> Option<String> {
    (number != due).then(|| format!("returned {number}, due {due}"))
}

/// Whether a place's numbers are those of the entry.
fn is_stored(held: &Held, stored: &[u32]) -> bool {
    let [left, right] = lists(held);
    stored[..LEFT] == front(held)
        && stored[LEFT..].starts_with(&left)
        && stored[RIGHT..].starts_with(&right)
}

/// Any 32-bit number, and often one that a catalogue may hold.
fn number(random: &mut Random) -> u32 {
    match random.below(8) {
        0 | 1 => random.below(1 << 32) as u32,
        2 => random.between(2_699, 2_701) as u32,
        3 => random.between(4_096, 4_099) as u32,
        4 => random.below(1_001) as u32,
        _ => random.below(8) as u32,
    }
}
