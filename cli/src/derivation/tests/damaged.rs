//! Good texts, damaged by draws.

use super::*;

/// Texts that are good, of which a small damage makes one with too many v letters, no line, or no chain.
const TEXTS: [&str; 4] = [
    GOOD,
    "left=v0\nright=+ v0 0\nstep=add_zero_right forward at=. to=+ v0 0\n",
    "left=+ * v0 * v1 c2 * v3 * v4 v5\nright=+ * v3 * v4 v5 * v0 * v1 c2\nstep=add_comm forward at=. to=+ * v3 * v4 v5 * v0 * v1 c2\n",
    "left=+ * v0 * v1 v2 * v3 * v4 v5\nright=+ * v3 * v4 v5 * v0 * v1 v2\nstep=add_comm forward at=. to=+ * v3 * v4 v5 * v0 * v1 v2\n",
];

/// Damages the text at one place, by a draw.
fn damage(text: &mut Vec<u8>, draw: u64) {
    const BYTES: &[u8] = b"+*vc0149 =.lr\n\r\xff\x00abst";
    let place = (draw >> 8) as usize % (text.len() + 1);
    let byte = BYTES[(draw >> 40) as usize % BYTES.len()];
    match draw >> 60 {
        0..4 => text.insert(place, byte),
        4..13 if place < text.len() => text[place] = byte,
        13..15 if place < text.len() => drop(text.remove(place)),
        _ => text.truncate(place),
    }
}

#[test]
fn the_fault_found_is_one_of_the_number_given() {
    let mut buffers = Buffers::new(0, Room::Grows);
    let (mut draw, mut counts): (u64, _) = (1, [0; 13]);
    for round in 0..100_000 {
        let mut text = TEXTS[round % TEXTS.len()].as_bytes().to_vec();
        for _ in 0..1 + draw % 3 {
            draw = draw
                .wrapping_mul(6364136223846793005)
                .wrapping_add(1442695040888963407);
            damage(&mut text, draw ^ draw >> 29);
        }
        let given = buffers
            .ask(Entry::Check, &text)
            .map_or_else(|number| number, |_| 0);
        counts[given] += 1;
        let holds = |text: &[u8]| buffers.ask(Entry::Check, text).is_ok();
        let found = Derivation::new(&text).fault(given, holds);
        let found = found.map_or(0, |found| number(found.fault));
        assert_eq!(found, given, "{}", String::from_utf8_lossy(&text));
    }
    let often = [0, 1, 2, 4, 11, 12].map(|number| counts[number]);
    assert!(often.into_iter().all(|count| count > 20), "{counts:?}");
}
