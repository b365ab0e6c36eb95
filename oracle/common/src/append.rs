//! What append says of the bytes that it is handed, whatever the routine is, worked out by the Rust's own readers; the
//! Rust has no such call, and its readers ask no register for its width.

use crate::original::{read_at, Answer};
use crate::reference::{CROOKED_REGISTER, LEFTOVER};
use vtil_parser::{Instruction, Op, Operand, RegisterDesc};

/// The most operands that an operation has, as immediates of zeros.
const IMMEDIATES: [u8; 3 * 16] = [0; 3 * 16];

/// Whether the register's bits lie within 64.
fn is_sound(register: &RegisterDesc) -> bool {
    let RegisterDesc { bit_count, bit_offset, .. } = *register;
    (1..=64).contains(&bit_count) && (0..=64 - bit_count).contains(&bit_offset)
}

fn is_crooked(operand: &Operand) -> bool {
    matches!(operand, Operand::RegisterDesc(register) if !is_sound(register))
}

/// Where the operands begin, behind the name and the count of them.
fn operands_at(bytes: &[u8]) -> Option<usize> {
    let size = u32::from_le_bytes(bytes.get(..4)?.try_into().expect("a size has four bytes"));
    Some(8 + size as usize).filter(|&at| at <= bytes.len())
}

/// The place of the first operand that is a crooked register, none where there is none, or the Rust's answer where it
/// refuses what stands before one. So it reads one operand after the other: whatever is behind a crooked one, it is
/// not reached.
pub fn first_crooked(bytes: &[u8]) -> Result<Option<usize>, Answer> {
    let Some(mut at) = operands_at(bytes) else { return Ok(None) };
    let (op, _) = read_at::<Op>(&[&bytes[..at], &IMMEDIATES].concat(), 0)?;
    for place in 0..op.operands().len() {
        let (operand, end) = read_at::<Operand>(bytes, at)?;
        if is_crooked(&operand) {
            return Ok(Some(place));
        }
        at = end;
    }
    Ok(None)
}

/// The instruction, or the refusal before any block is looked for: those of reading, 19 and 17.
pub fn appended(bytes: &[u8]) -> Result<Instruction, Answer> {
    if first_crooked(bytes)?.is_some() {
        return Err(Answer::Refused(CROOKED_REGISTER));
    }
    whole(bytes)
}

/// The instruction, whatever its registers are.
pub fn whole(bytes: &[u8]) -> Result<Instruction, Answer> {
    match read_at::<Instruction>(bytes, 0)? {
        (instruction, end) if end == bytes.len() => Ok(instruction),
        _ => Err(Answer::Refused(LEFTOVER)),
    }
}

#[cfg(test)]
mod tests {
    use super::*;
    use crate::draft::FOREIGN;
    use crate::reference::{FOREIGN_REGISTER, UNKNOWN_OPERAND_KIND, UNKNOWN_OPERATION, WRONG_OPERAND_COUNT};

    const REST: [u8; 21] = [0; 21];

    fn operation(name: &[u8], operands: u32) -> Vec<u8> {
        [&(name.len() as u32).to_le_bytes(), name, &operands.to_le_bytes()].concat()
    }

    fn register_with_id(id: u64, width: i32, offset: i32) -> Vec<u8> {
        [&1u32.to_le_bytes()[..], &[0; 8], &id.to_le_bytes(), &width.to_le_bytes(), &offset.to_le_bytes()].concat()
    }

    fn register(width: i32, offset: i32) -> Vec<u8> {
        register_with_id(0, width, offset)
    }

    fn immediate(width: u32) -> Vec<u8> {
        [&[0; 12][..], &width.to_le_bytes()].concat()
    }

    fn kind(kind: u32) -> Vec<u8> {
        [&kind.to_le_bytes()[..], &[0; 24]].concat()
    }

    /// The refusal of an `add` of these two operands.
    fn of_add(one: &[u8], other: &[u8]) -> Option<Answer> {
        appended(&[&operation(b"add", 2), one, other, &REST].concat()).err()
    }

    fn refused(refusal: u64) -> Option<Answer> {
        Some(Answer::Refused(refusal))
    }

    #[test]
    fn bits_lie_within_64() {
        let neg = |width, offset| appended(&[operation(b"neg", 1), register(width, offset), REST.to_vec()].concat());
        for (width, offset) in [(1, 0), (1, 63), (32, 32), (63, 1), (64, 0)] {
            assert!(neg(width, offset).is_ok(), "{width} {offset}");
        }
        const MOST: i32 = i32::MAX;
        const LEAST: i32 = i32::MIN;
        let crooked = [(0, 0), (-1, 2), (1, -1), (65, -1), (1, 64), (64, 1), (65, 0), (80, 0), (0, 64), (LEAST, 0)];
        let round = [(MOST, MOST), (MOST, 1), (1, MOST), (LEAST, LEAST), (1, LEAST), (LEAST, MOST), (MOST, LEAST)];
        for (width, offset) in crooked.into_iter().chain(round) {
            assert_eq!(neg(width, offset).err(), refused(CROOKED_REGISTER), "{width} {offset}");
        }
    }

    #[test]
    fn the_first_fault_is_the_answer() {
        let (sound, crooked, foreign) = (register(64, 0), register(0, 0), register_with_id(FOREIGN, 0, 0));
        assert_eq!(of_add(&sound, &immediate(80)), None);
        assert_eq!(of_add(&sound, &crooked), refused(CROOKED_REGISTER));
        assert_eq!(of_add(&foreign, &crooked), refused(FOREIGN_REGISTER));
        assert_eq!(of_add(&crooked, &foreign), refused(CROOKED_REGISTER));
        assert_eq!(of_add(&kind(2), &crooked), refused(UNKNOWN_OPERAND_KIND));
        assert_eq!(of_add(&crooked, &kind(2)), refused(CROOKED_REGISTER));
        let with = |operation: &[u8]| appended(&[operation, &crooked, &REST].concat()).err();
        assert_eq!(with(&operation(b"negs", 1)), refused(UNKNOWN_OPERATION));
        assert_eq!(with(&operation(b"neg", 2)), refused(WRONG_OPERAND_COUNT));
        assert_eq!(with(&operation(b"ne\xff", 1)), Some(Answer::Other));
    }

    #[test]
    fn bytes_that_end_early_or_go_on() {
        let bytes = [operation(b"neg", 1), register(64, 1), REST.to_vec(), vec![0; 3]].concat();
        let end = bytes.len() - 24;
        for length in 0..=bytes.len() {
            let due = if length < end { Answer::Other } else { Answer::Refused(CROOKED_REGISTER) };
            assert_eq!(appended(&bytes[..length]).err(), Some(due), "{length}");
        }
        let sound = [operation(b"neg", 1), register(64, 0), REST.to_vec(), vec![0]].concat();
        assert_eq!(appended(&sound).err(), refused(LEFTOVER));
    }
}
