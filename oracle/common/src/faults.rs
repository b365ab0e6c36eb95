//! Faults that are put into a draft, one for each refusal of a file.

use crate::draft::{Draft, Field, FieldAt, FOREIGN};
use crate::rng::Rng;

#[derive(Clone, Copy, Debug, PartialEq, Eq)]
pub enum Fault {
    Cut,
    NotText,
    FirstMark,
    SecondMark,
    Machine,
    ForeignRegister,
    OperandKind,
    UnknownName,
    OperandCount,
    RepeatedVip,
}

pub const FAULTS: [Fault; 10] = [
    Fault::Cut,
    Fault::NotText,
    Fault::FirstMark,
    Fault::SecondMark,
    Fault::Machine,
    Fault::ForeignRegister,
    Fault::OperandKind,
    Fault::UnknownName,
    Fault::OperandCount,
    Fault::RepeatedVip,
];

pub fn foreign_id(rng: &mut Rng) -> u64 {
    const EDGES: [u64; 6] = [FOREIGN, FOREIGN + 1, 4 << 56, 0x80 << 56, 0xff << 56, u64::MAX];
    if rng.one_in(2) {
        return rng.pick(&EDGES);
    }
    FOREIGN + rng.u64() % (u64::MAX - FOREIGN)
}

/// The places that a fault can stand at.
pub fn places(draft: &Draft, fault: Fault) -> Vec<FieldAt> {
    match fault {
        Fault::Cut => draft.fields.clone(),
        Fault::NotText | Fault::UnknownName => draft.fields_of(Field::Name),
        Fault::FirstMark => draft.fields_of(Field::FirstMark),
        Fault::SecondMark => draft.fields_of(Field::SecondMark),
        Fault::Machine => draft.fields_of(Field::Machine),
        Fault::ForeignRegister => draft.fields_of(Field::RegisterId),
        Fault::OperandKind => draft.fields_of(Field::OperandKind),
        Fault::OperandCount => draft.fields_of(Field::OperandCount),
        // The first block's vip has none before it to repeat.
        Fault::RepeatedVip => draft.fields_of(Field::BlockVip).into_iter().skip(1).collect(),
    }
}

fn put(draft: &mut Draft, place: FieldAt, bytes: &[u8]) {
    draft.bytes[place.at..place.at + bytes.len()].copy_from_slice(bytes);
}

/// A byte other than the one that stands there.
pub fn change(bytes: &mut [u8], at: usize, rng: &mut Rng) {
    bytes[at] ^= 1 + rng.below(255) as u8;
}

fn change_within(draft: &mut Draft, place: FieldAt, rng: &mut Rng) {
    let at = place.at + rng.below(place.size);
    change(&mut draft.bytes, at, rng);
}

fn repeat_vip(draft: &mut Draft, place: FieldAt, rng: &mut Rng) {
    let earlier: Vec<FieldAt> =
        draft.fields_of(Field::BlockVip).into_iter().filter(|other| other.at < place.at).collect();
    let from = rng.pick(&earlier).at;
    draft.bytes.copy_within(from..from + 8, place.at);
}

/// Puts a fault at one of its places. Fields after a cut lie past the end, so it comes last.
pub fn apply(draft: &mut Draft, fault: Fault, place: FieldAt, rng: &mut Rng) {
    match fault {
        Fault::Cut => draft.bytes.truncate(place.at + rng.below(place.size + 1)),
        Fault::NotText => draft.bytes[place.at + rng.below(place.size)] = rng.pick(&[0x80, 0xc0, 0xc1, 0xf5, 0xff]),
        Fault::FirstMark | Fault::SecondMark => change_within(draft, place, rng),
        Fault::Machine => put(draft, place, &[3 + rng.below(253) as u8]),
        Fault::ForeignRegister => put(draft, place, &foreign_id(rng).to_le_bytes()),
        Fault::OperandKind => put(draft, place, &(2 + rng.below(u32::MAX as usize - 1) as u32).to_le_bytes()),
        Fault::UnknownName => draft.bytes[place.at + rng.below(place.size)] = b'Z',
        Fault::OperandCount => change_within(draft, place, rng),
        Fault::RepeatedVip => repeat_vip(draft, place, rng),
    }
}
