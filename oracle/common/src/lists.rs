//! Lists of calls from a seed: a file, the lent lengths, the rates, and calls of which some are accepted and some
//! refused.

use crate::charge::{any_rates, Rates};
use crate::draft::{Draft, Field, FieldAt, Shape, MIDDLING, SMALL};
use crate::faults::{apply, places, Fault, FAULTS};
use crate::reference::Call;
use crate::rng::Rng;
use crate::widths::{edge, put, put_all, sound};

pub struct List {
    pub file: Vec<u8>,
    pub image_length: usize,
    pub journal_length: usize,
    /// Those of the opening.
    pub rates: Rates,
    pub calls: Vec<Call>,
}

/// The blocks' vips and a few more, so that calls meet blocks that are there as often as ones that are not.
fn vips_of(draft: &Draft) -> Vec<u64> {
    let read = |at: usize| u64::from_le_bytes(draft.bytes[at..at + 8].try_into().expect("a vip has eight bytes"));
    let there = draft.fields_of(Field::BlockVip).into_iter().map(|place| read(place.at));
    there.chain([5, 6, u64::MAX]).collect()
}

/// An instruction's bytes with sound registers, now and then with crooked ones, with a fault, or with bytes left over.
/// Many close the block, so that later calls meet it closed, opened again by an undo, removed, and restored.
fn instruction(rng: &mut Rng) -> Vec<u8> {
    let mut draft = Draft::default();
    draft.often_closing_instruction(rng);
    put_all(&mut draft, rng, sound);
    match rng.below(8) {
        0 => leave_over(&mut draft),
        1 => spoil(&mut draft, rng),
        2 | 3 => make_crooked(&mut draft, rng),
        _ => {}
    }
    draft.bytes
}

fn leave_over(draft: &mut Draft) {
    draft.bytes.extend([0; 3]);
}

fn spoil(draft: &mut Draft, rng: &mut Rng) {
    let possible: Vec<Fault> = FAULTS.into_iter().filter(|&fault| !places(draft, fault).is_empty()).collect();
    let fault = rng.pick(&possible);
    let place = rng.pick(&places(draft, fault));
    apply(draft, fault, place, rng);
}

/// Puts one register or all to the edges of what is sound. Half the time there is another fault too: before the
/// register, in it, or behind it.
fn make_crooked(draft: &mut Draft, rng: &mut Rng) {
    let registers = draft.fields_of(Field::RegisterId);
    if registers.is_empty() {
        return;
    }
    let register = rng.pick(&registers);
    if rng.one_in(4) {
        put_all(draft, rng, edge);
    } else {
        put(draft, register, edge(rng));
    }
    match rng.below(8) {
        0 | 1 => spoil(draft, rng),
        2 => cut_at_widths(draft, register, rng),
        3 => leave_over(draft),
        _ => {}
    }
}

/// Cuts between the register's id and a little behind its offset.
fn cut_at_widths(draft: &mut Draft, register: FieldAt, rng: &mut Rng) {
    let id_end = register.at + register.size;
    draft.bytes.truncate(id_end + rng.pick(&[0, 3, 4, 7, 8, 8, 8, 9, 12]));
}

fn edit_or_undo(rng: &mut Rng, vips: &[u64]) -> Call {
    let vip = rng.pick(vips);
    match rng.below(4) {
        0 => Call::Create(vip),
        1 => Call::Remove(vip),
        2 => Call::Append(vip, instruction(rng)),
        _ => Call::Undo,
    }
}

/// Mostly a next, so that walks come far.
fn walk_call(rng: &mut Rng) -> Call {
    match rng.below(8) {
        0 | 1 => Call::Start,
        2 => Call::Abandon,
        _ => Call::Next,
    }
}

fn call(rng: &mut Rng, vips: &[u64], has_walks: bool) -> Call {
    if has_walks && rng.one_in(2) {
        return walk_call(rng);
    }
    edit_or_undo(rng, vips)
}

/// What a walk meets on its way: mostly the calls that it lets through.
fn meanwhile(rng: &mut Rng, vips: &[u64]) -> Call {
    match rng.below(8) {
        0..=2 => Call::Create(rng.pick(vips)),
        3..=6 => Call::Append(rng.pick(vips), instruction(rng)),
        _ => edit_or_undo(rng, vips),
    }
}

/// A walk with other calls in between. Most come to their end: no routine of the list has more blocks than there are
/// vips.
fn long_walk(rng: &mut Rng, vips: &[u64]) -> Vec<Call> {
    let mut calls = vec![Call::Start];
    for _ in 0..=rng.below(vips.len() + 2) {
        if rng.one_in(2) {
            calls.push(meanwhile(rng, vips));
        }
        calls.push(Call::Next);
    }
    calls
}

/// Some calls. Half of the lists have walks: not all, since an open walk keeps much of the rest waiting. Now and then
/// all that the calls did is taken back in the end, and once more.
fn calls(rng: &mut Rng, vips: &[u64]) -> Vec<Call> {
    let has_walks = rng.one_in(2);
    let mut calls: Vec<Call> = (0..1 + rng.below(40)).map(|_| call(rng, vips, has_walks)).collect();
    if has_walks && rng.one_in(2) {
        calls.extend(long_walk(rng, vips));
    }
    if rng.one_in(4) {
        let edits = calls.iter().filter(|call| matches!(call, Call::Create(_) | Call::Remove(_) | Call::Append(..)));
        let undos = vec![Call::Undo; edits.count() + 1];
        // A walk that is still open would keep them waiting.
        calls.extend(has_walks.then_some(Call::Abandon));
        calls.extend(undos);
    }
    calls
}

/// Lengths around the sizes of blocks and entries, others, and one that is never reached.
fn room(rng: &mut Rng, edges: &[usize], plenty: usize) -> usize {
    match rng.below(3) {
        0 => rng.pick(edges),
        1 => rng.below(300),
        _ => plenty,
    }
}

pub fn list(rng: &mut Rng) -> List {
    let shape = if rng.one_in(4) { MIDDLING } else { SMALL };
    let mut draft = Draft::routine(rng, Shape { often_closing: true, ..shape });
    if rng.one_in(2) {
        put_all(&mut draft, rng, edge);
    }
    let calls = calls(rng, &vips_of(&draft));
    List {
        image_length: draft.bytes.len() + room(rng, &[0, 35, 36, 37, 71, 72], 4_000),
        journal_length: room(rng, &[0, 19, 20, 39, 40, 55, 56, 76], 16_000),
        rates: any_rates(rng),
        file: draft.bytes,
        calls,
    }
}
