//! Routines of many blocks, for the search for repeated vips.

use crate::draft::{minimal_routine, Draft};
use crate::rng::Rng;

/// A search in bounded memory goes in passes; this is how many vips the library's keeps in one. Orders and repeats are
/// laid around it.
pub const PASS: usize = 8_000;

#[derive(Clone, Copy)]
pub enum Order {
    Rising,
    Shuffled,
    Descending,
    /// Groups of one pass, each shuffled, the group with the greatest vips first.
    GroupsDescending,
}

pub const ORDERS: [(Order, &str); 4] = [
    (Order::Rising, "rising"),
    (Order::Shuffled, "shuffled"),
    (Order::Descending, "descending"),
    (Order::GroupsDescending, "groups of 8,000 descending"),
];

/// Puts rising vips into another order.
pub fn rearrange(vips: &mut [u64], order: Order, rng: &mut Rng) {
    match order {
        Order::Rising => {}
        Order::Shuffled => rng.shuffle(vips),
        Order::Descending => vips.reverse(),
        Order::GroupsDescending => {
            vips.reverse();
            vips.chunks_mut(PASS).for_each(|group| rng.shuffle(group));
        }
    }
}

/// The count of blocks stands at the end of the smallest routine.
pub fn set_block_count(file: &mut [u8], blocks: usize) {
    file[110..114].copy_from_slice(&(blocks as u32).to_le_bytes());
}

/// Blocks with nothing in them, 36 bytes each.
pub fn empty_blocks(vips: &[u64]) -> Vec<u8> {
    let mut file = minimal_routine();
    set_block_count(&mut file, vips.len());
    for vip in vips {
        file.extend(vip.to_le_bytes());
        file.extend([0; 28]);
    }
    file
}

/// One block, which has so many instructions over and over, as often as they fit a routine of `length` bytes.
pub fn filled_block(instructions: &[u8], count: usize, length: usize) -> Vec<u8> {
    let Draft { mut bytes, .. } = Draft::up_to_an_instruction();
    let count_at = bytes.len() - 4;
    let links = [0; 8];
    let times = (length - bytes.len() - links.len()) / instructions.len();
    bytes[count_at..].copy_from_slice(&((times * count) as u32).to_le_bytes());
    bytes.extend(instructions.repeat(times));
    bytes.extend(links);
    bytes
}

/// Makes two neighbours of the rising vips equal: at the border of a pass, at an end, or anywhere.
fn repeat_one(vips: &mut [u64], rng: &mut Rng) {
    let last = vips.len() - 2;
    let at = match rng.below(3) {
        0 => PASS * (1 + rng.below(3)) + rng.below(4) - 2,
        1 => rng.pick(&[0, last]),
        _ => rng.below(last),
    };
    let at = at.min(last);
    vips[at] = vips[at + 1];
}

/// More vips than one pass holds, in some order, of which half the time two are equal.
pub fn many_vips(rng: &mut Rng) -> Vec<u64> {
    let count = PASS * (1 + rng.below(3)) + rng.pick(&[0, 1, 2, 17, 4_000]);
    let step = 1 + rng.u64() % 1_000;
    let room = u64::MAX - step * (count as u64 - 1);
    let start = rng.pick(&[0, 1, room - 1, room]);
    let mut vips: Vec<u64> = (0..count as u64).map(|i| start + i * step).collect();
    if rng.one_in(2) {
        repeat_one(&mut vips, rng);
    }
    let (order, _) = rng.pick(&ORDERS);
    rearrange(&mut vips, order, rng);
    vips
}
