//! Values of a routine.

use crate::c;
use crate::refusal::{accepted, Refusal};

/// A block's address.
#[derive(Clone, Copy, Debug, Default, PartialEq, Eq, Hash, PartialOrd, Ord)]
pub struct Vip(pub u64);

#[derive(Clone, Copy, Debug, Default, PartialEq, Eq, Hash)]
pub struct Immediate {
    /// Its 64 bits, whether they are meant signed or not.
    pub value: u64,
    pub bit_count: u32,
}

#[derive(Clone, Copy, Debug, Default, PartialEq, Eq, Hash)]
pub struct Register {
    pub flags: u64,
    /// Divided by 2^56 at most 2.
    pub combined_id: u64,
    pub bit_count: i32,
    pub bit_offset: i32,
}

#[derive(Clone, Copy, Debug, PartialEq, Eq, Hash)]
pub enum Operand {
    Immediate(Immediate),
    Register(Register),
}

#[derive(Clone, Debug, Default, PartialEq, Eq, Hash)]
pub struct Instruction {
    /// The operation's number, 0 to 48: its place in [`OPERATIONS`].
    pub op: u32,
    pub operands: Vec<Operand>,
    pub vip: Vip,
    pub sp_offset: i64,
    pub sp_index: u32,
    pub sp_reset: bool,
}

/// The operations by number: name, and how many operands it takes.
pub const OPERATIONS: [(&str, usize); 49] = [
    ("mov", 2),
    ("movsx", 2),
    ("str", 3),
    ("ldd", 3),
    ("neg", 1),
    ("add", 2),
    ("sub", 2),
    ("mul", 2),
    ("mulhi", 2),
    ("imul", 2),
    ("imulhi", 2),
    ("div", 3),
    ("rem", 3),
    ("idiv", 3),
    ("irem", 3),
    ("popcnt", 1),
    ("bsf", 1),
    ("bsr", 1),
    ("not", 1),
    ("shr", 2),
    ("shl", 2),
    ("xor", 2),
    ("or", 2),
    ("and", 2),
    ("ror", 2),
    ("rol", 2),
    ("tg", 3),
    ("tge", 3),
    ("te", 3),
    ("tne", 3),
    ("tl", 3),
    ("tle", 3),
    ("tug", 3),
    ("tuge", 3),
    ("tul", 3),
    ("tule", 3),
    ("ifs", 3),
    ("js", 3),
    ("jmp", 1),
    ("vexit", 1),
    ("vxcall", 1),
    ("nop", 0),
    ("sfence", 0),
    ("lfence", 0),
    ("vemit", 1),
    ("vpinr", 1),
    ("vpinw", 1),
    ("vpinrm", 3),
    ("vpinwm", 3),
];

/// An instruction has at most so many bytes: a name of six, and three registers.
pub const LONGEST_INSTRUCTION: usize = 119;

/// The number of the operation with this name.
pub fn operation(name: &str) -> Option<u32> {
    OPERATIONS.iter().position(|(listed, _)| *listed == name).map(|place| place as u32)
}

impl Register {
    pub(crate) fn from_c(desc: &c::RegisterDesc) -> Register {
        Register {
            flags: desc.flags,
            combined_id: desc.combined_id,
            bit_count: desc.bit_count,
            bit_offset: desc.bit_offset,
        }
    }

    fn to_c(self) -> c::RegisterDesc {
        c::RegisterDesc {
            flags: self.flags,
            combined_id: self.combined_id,
            bit_count: self.bit_count,
            bit_offset: self.bit_offset,
        }
    }
}

impl Operand {
    pub(crate) fn from_c(desc: &c::OperandDesc) -> Operand {
        match desc.kind {
            0 => Operand::Immediate(Immediate { value: desc.immediate.value, bit_count: desc.immediate.bit_count }),
            _ => Operand::Register(Register::from_c(&desc.register_desc)),
        }
    }

    fn to_c(self) -> c::OperandDesc {
        match self {
            Operand::Immediate(Immediate { value, bit_count }) => {
                c::OperandDesc { kind: 0, immediate: c::ImmediateDesc { value, bit_count }, ..Default::default() }
            }
            Operand::Register(register) => {
                c::OperandDesc { kind: 1, register_desc: register.to_c(), ..Default::default() }
            }
        }
    }
}

impl Instruction {
    /// The operation's name; none where `op` is over 48.
    pub fn name(&self) -> Option<&'static str> {
        OPERATIONS.get(self.op as usize).map(|(name, _)| *name)
    }

    /// The instruction as a file holds it. Any widths and offsets of registers are written, also those that
    /// [`Book::append`](crate::Book::append) then refuses.
    ///
    /// Refusals, in this order: 7, the number is over 48; 8, so many operands are not the operation's; 5, a foreign
    /// register.
    pub fn to_bytes(&self) -> Result<Vec<u8>, Refusal> {
        let mut bytes = vec![0; LONGEST_INSTRUCTION];
        let size = self.write_to(&mut bytes)?;
        bytes.truncate(size);
        Ok(bytes)
    }

    /// Writes the instruction, as a file holds it, at the start of the lent bytes, and answers its size. The bytes
    /// after it are not touched.
    ///
    /// Refusals, in this order: 10, over [`MOST_LENT`](crate::MOST_LENT) bytes are lent; those of [`Instruction::to_bytes`]; 11, the
    /// instruction is longer than the lent bytes. No byte is then touched.
    pub fn write_to(&self, lent: &mut [u8]) -> Result<usize, Refusal> {
        // SAFETY: the pointer and the length are a slice's.
        let written = unsafe { c::vtil_write_instruction(self.to_c(), lent.as_mut_ptr(), lent.len()) };
        accepted(written.refusal)?;
        Ok(written.size as usize)
    }

    pub(crate) fn from_c(desc: &c::InstructionDesc) -> Instruction {
        Instruction {
            op: desc.op,
            operands: desc.operands.iter().take(desc.count as usize).map(Operand::from_c).collect(),
            vip: Vip(desc.vip),
            sp_offset: desc.sp_offset,
            sp_index: desc.sp_index,
            sp_reset: desc.sp_reset != 0,
        }
    }

    /// Operands after the third have no place, but they are counted; no operation takes so many, which is refused.
    fn to_c(&self) -> c::InstructionDesc {
        let mut desc = c::InstructionDesc {
            op: self.op,
            count: u32::try_from(self.operands.len()).unwrap_or(u32::MAX),
            vip: self.vip.0,
            sp_offset: self.sp_offset,
            sp_index: self.sp_index,
            sp_reset: self.sp_reset.into(),
            ..Default::default()
        };
        for (place, operand) in desc.operands.iter_mut().zip(&self.operands) {
            *place = operand.to_c();
        }
        desc
    }
}
