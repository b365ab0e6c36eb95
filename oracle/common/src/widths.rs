//! Widths and offsets of registers. A file may have any; append takes only a register whose width is at least 1, whose
//! offset is at least 0, and whose width and offset come to at most 64.

use crate::draft::{Draft, Field, FieldAt};
use crate::rng::Rng;

/// A width and an offset.
pub type Widths = (i32, i32);

/// The most that width and offset come to.
const MOST: i32 = 64;

/// Such as append takes: half the time at an edge.
pub fn sound(rng: &mut Rng) -> Widths {
    const EDGES: [Widths; 6] = [(1, 0), (1, 63), (2, 62), (32, 32), (63, 1), (64, 0)];
    if rng.one_in(2) {
        return rng.pick(&EDGES);
    }
    let width = 1 + rng.below(MOST as usize) as i32;
    (width, rng.below((MOST - width) as usize + 1) as i32)
}

/// At the edges of what append takes, on both sides. Most are such that it does not.
pub fn edge(rng: &mut Rng) -> Widths {
    const EDGES: [i32; 8] = [i32::MIN, -1, 0, 1, 63, 64, 65, i32::MAX];
    let within = rng.below(MOST as usize + 1) as i32;
    match rng.below(8) {
        0 => coming_to(MOST, 1 + rng.below(64) as i32),
        1 => coming_to(MOST + 1, 1 + rng.below(65) as i32),
        // Within the limit by a number below 0, or by going round in 32 bits.
        2 => coming_to(within, rng.below(200) as i32 - 70),
        3 => coming_to(within, rng.u32() as i32),
        // Below 0 by going round.
        4 => (i32::MAX - rng.below(70) as i32, i32::MAX - rng.below(70) as i32),
        _ => (rng.pick(&EDGES), rng.pick(&EDGES)),
    }
}

/// Modulo 2^32.
fn coming_to(sum: i32, width: i32) -> Widths {
    (width, sum.wrapping_sub(width))
}

/// Gives a register, which is named by the place of its id, another width and offset.
pub fn put(draft: &mut Draft, register: FieldAt, (width, offset): Widths) {
    assert_eq!(register.field, Field::RegisterId, "width and offset stand behind the id");
    let at = register.at + register.size;
    draft.bytes[at..at + 4].copy_from_slice(&width.to_le_bytes());
    draft.bytes[at + 4..at + 8].copy_from_slice(&offset.to_le_bytes());
}

/// Gives every register another width and offset.
pub fn put_all(draft: &mut Draft, rng: &mut Rng, widths: impl Fn(&mut Rng) -> Widths) {
    for register in draft.fields_of(Field::RegisterId) {
        put(draft, register, widths(rng));
    }
}

#[cfg(test)]
mod tests {
    use super::*;
    use std::collections::BTreeSet;

    fn some(widths: impl Fn(&mut Rng) -> Widths) -> BTreeSet<Widths> {
        let mut rng = Rng::new(1);
        (0..100_000).map(|_| widths(&mut rng)).collect()
    }

    #[test]
    fn sound_ones_are_all_that_there_are() {
        let all = (1..=64).flat_map(|width| (0..=64 - width).map(move |offset| (width, offset)));
        assert_eq!(some(sound), all.collect());
    }

    #[test]
    fn edges_are_on_both_sides() {
        const SOUND: [Widths; 4] = [(1, 0), (1, 63), (63, 1), (64, 0)];
        const CROOKED: [Widths; 8] =
            [(0, 0), (1, -1), (65, -1), (-1, 2), (1, 64), (64, 1), (65, 0), (i32::MAX, i32::MAX)];
        let got = some(edge);
        assert!(SOUND.iter().chain(&CROOKED).all(|widths| got.contains(widths)));
    }
}
