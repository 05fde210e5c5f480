//! One play: calls drawn by what the catalogue holds, each judged, and then all that it holds read back.

use crate::Sent;
use crate::checked::Judged;
use crate::generate::Plays;
use crate::plain::catalogue::{Catalogue, Kept};

/// A call that was made.
pub struct Played<'a> {
    /// Its kind; none for a withdrawal that reads back what is held.
    pub kind: Option<usize>,
    pub sent: &'a Sent,
    pub kept: &'a Kept,
    /// What it leaves.
    pub catalogue: &'a Catalogue,
}

/// Makes the play of this index and hands each call on, up to the first difference or complaint.
pub fn play(
    plays: &Plays,
    index: u64,
    is_plain: bool,
    mut hand_on: impl FnMut(Played) -> Result<(), String>,
) -> Result<(), String> {
    let mut player = plays.player(index);
    let mut judged = Judged::new(is_plain);
    let mut make = |judged: &mut Judged, kind, sent: &Sent| {
        let kept = judged.call(sent)?;
        hand_on(Played {
            kind,
            sent,
            kept: &kept,
            catalogue: &judged.plain,
        })
    };
    for _ in 0..plays.calls {
        let (kind, sent) = player.draw(&judged.plain);
        make(&mut judged, Some(kind), &sent)?;
    }
    for sent in player.reading_back(&judged.plain) {
        make(&mut judged, None, &sent)?;
    }
    Ok(())
}
