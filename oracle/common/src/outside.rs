//! The copy for outside reviewers, worked out from the Rust's own values; the Rust has no such call.

use vtil_parser::{Operand, Routine};

/// What the Rust writes of the routine once every immediate operand has another value, which is made of its own. The
/// widths stay.
pub fn with_values(mut routine: Routine, mut value: impl FnMut(u64) -> u64) -> Vec<u8> {
    for instruction in routine.explored_blocks.values_mut().flat_map(|block| &mut block.instructions) {
        for operand in instruction.op.operands_mut() {
            if let Operand::ImmediateDesc(immediate) = operand {
                immediate.set_u64(value(immediate.u64()));
            }
        }
    }
    routine.into_bytes().expect("the sink has the routine's size")
}

/// The copy: every value is 0.
pub fn copy(routine: Routine) -> Vec<u8> {
    with_values(routine, |_| 0)
}

#[cfg(test)]
mod tests {
    use super::*;
    use crate::draft::{Draft, MIDDLING};
    use crate::original::read_at;
    use crate::reference::ops;
    use crate::rng::Rng;
    use vtil_parser::Instruction;

    fn read(file: &[u8]) -> Routine {
        Routine::from_vec(file).expect("the Rust accepts what every rule accepts")
    }

    /// The Rust's way to the operands that can be changed is its way to those that are read.
    #[test]
    fn every_operand_is_reached() {
        let mut rng = Rng::new(1);
        for (name, operands) in ops() {
            let mut draft = Draft::default();
            draft.operation(name.as_bytes(), *operands);
            draft.operands_and_rest(&mut rng, *operands);
            let (mut instruction, _) = read_at::<Instruction>(&draft.bytes, 0).expect("the Rust reads every operation");
            assert_eq!(instruction.op.operands_mut().len(), *operands as usize, "{name}");
            assert_eq!(instruction.op.operands().len(), *operands as usize, "{name}");
        }
    }

    #[test]
    fn only_values_go() {
        let mut rng = Rng::new(1);
        for _ in 0..50 {
            let file = Draft::routine(&mut rng, MIDDLING).bytes;
            let written = read(&file).into_bytes().expect("the sink has the routine's size");
            assert_eq!(with_values(read(&file), |value| value), written);
            let copy = copy(read(&file));
            assert_eq!(copy.len(), written.len());
            let mut left = vec![];
            assert_eq!(
                with_values(read(&copy), |value| {
                    left.push(value);
                    0
                }),
                copy
            );
            assert!(left.iter().all(|&value| value == 0));
            // Put back, the values make the routine that it was.
            let mut values = vec![];
            with_values(read(&file), |value| {
                values.push(value);
                value
            });
            let mut values = values.into_iter();
            assert_eq!(with_values(read(&copy), |_| values.next().expect("as many as before")), written);
        }
    }
}
