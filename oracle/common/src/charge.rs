//! The charge of a routine, worked out from the Rust's own values; the Rust has no such call.

use crate::rng::Rng;
use std::array::from_fn;
use vtil_parser::{Op, Routine};

/// In hundredths of a cent per instruction, by group.
pub type Rates = [u32; 6];

/// How many instructions of each group there are.
pub type Counts = [u64; 6];

/// The group of an operation: the groups are the sections in which `Op` lists its operations.
fn group(op: &Op) -> usize {
    match op {
        // Data and memory.
        Op::Mov(..) | Op::Movsx(..) | Op::Str(..) | Op::Ldd(..) => 0,
        // Arithmetic.
        Op::Neg(..)
        | Op::Add(..)
        | Op::Sub(..)
        | Op::Mul(..)
        | Op::Mulhi(..)
        | Op::Imul(..)
        | Op::Imulhi(..)
        | Op::Div(..)
        | Op::Rem(..)
        | Op::Idiv(..)
        | Op::Irem(..) => 1,
        // Bitwise.
        Op::Popcnt(..)
        | Op::Bsf(..)
        | Op::Bsr(..)
        | Op::Not(..)
        | Op::Shr(..)
        | Op::Shl(..)
        | Op::Xor(..)
        | Op::Or(..)
        | Op::And(..)
        | Op::Ror(..)
        | Op::Rol(..) => 2,
        // Conditional.
        Op::Tg(..)
        | Op::Tge(..)
        | Op::Te(..)
        | Op::Tne(..)
        | Op::Tl(..)
        | Op::Tle(..)
        | Op::Tug(..)
        | Op::Tuge(..)
        | Op::Tul(..)
        | Op::Tule(..)
        | Op::Ifs(..) => 3,
        // Control flow.
        Op::Js(..) | Op::Jmp(..) | Op::Vexit(..) | Op::Vxcall(..) => 4,
        // Special.
        Op::Nop
        | Op::Sfence
        | Op::Lfence
        | Op::Vemit(..)
        | Op::Vpinr(..)
        | Op::Vpinw(..)
        | Op::Vpinrm(..)
        | Op::Vpinwm(..) => 5,
    }
}

pub fn counts(routine: &Routine) -> Counts {
    let mut counts = Counts::default();
    for instruction in routine.explored_blocks.values().flat_map(|block| &block.instructions) {
        counts[group(&instruction.op)] += 1;
    }
    counts
}

/// What so many instructions cost, in hundredths of a cent.
pub fn sum(counts: &Counts, rates: Rates) -> u64 {
    counts.iter().zip(rates).map(|(count, rate)| count * u64::from(rate)).sum()
}

/// In whole cents, rounded up once.
pub fn charge(routine: &Routine, rates: Rates) -> u64 {
    sum(&counts(routine), rates).div_ceil(100)
}

/// Rates of 0, of 2^32 - 1, of both and their neighbours, small ones, and any.
pub fn any_rates(rng: &mut Rng) -> Rates {
    match rng.below(5) {
        0 => [0; 6],
        1 => [u32::MAX; 6],
        2 => from_fn(|_| rng.pick(&[0, 1, u32::MAX - 1, u32::MAX])),
        3 => from_fn(|_| rng.below(102) as u32),
        _ => from_fn(|_| rng.edgy() as u32),
    }
}

#[cfg(test)]
mod tests {
    use super::group;
    use crate::draft::Draft;
    use crate::original::read_at;
    use crate::reference::ops;
    use crate::rng::Rng;
    use vtil_parser::Instruction;

    /// The group of a number, as docs/SPEC.md has it.
    fn group_of_number(number: usize) -> usize {
        match number {
            0..=3 => 0,
            4..=14 => 1,
            15..=25 => 2,
            26..=36 => 3,
            37..=40 => 4,
            _ => 5,
        }
    }

    #[test]
    fn groups_are_those_of_the_numbers() {
        for (number, (name, operands)) in ops().iter().enumerate() {
            let mut draft = Draft::default();
            draft.operation(name.as_bytes(), *operands);
            draft.operands_and_rest(&mut Rng::new(1), *operands);
            let (instruction, _) = read_at::<Instruction>(&draft.bytes, 0).expect("the Rust reads every operation");
            assert_eq!(group(&instruction.op), group_of_number(number), "{name}");
        }
    }
}
