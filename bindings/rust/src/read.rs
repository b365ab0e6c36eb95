//! Reading by offset: the parts of a routine where they lie, in a file or in an image.

use crate::c;
use crate::refusal::{accepted, Refusal};
use crate::value::{Instruction, Operand, Register, Vip, OPERATIONS};
use std::fmt;
use std::iter::FusedIterator;
use std::marker::PhantomData;

/// The bytes of the count that stands before a list.
const COUNT_SIZE: u64 = 4;

/// What is read. It is borrowed, so nobody writes it, and what was accepted in it once stays so.
#[derive(Clone, Copy)]
struct Source<'a>(&'a [u8]);

/// A file is too long to be printed within each of its parts.
impl fmt::Debug for Source<'_> {
    fn fmt(&self, out: &mut fmt::Formatter) -> fmt::Result {
        write!(out, "{} bytes", self.0.len())
    }
}

/// Reads the routine at the start of `file`, which is a routine file or the written form in an image; bytes after it
/// are ignored. The whole routine is validated here, exactly as [`check`](crate::check) does. Its parts are then read
/// where they lie, each when it is asked for, and nothing is copied or allocated.
///
/// Refusals: 1 to 9, whichever field fails first.
///
/// ```
/// # fn main() -> Result<(), Box<dyn std::error::Error>> {
/// # let folder = concat!(env!("CARGO_MANIFEST_DIR"), "/../../samples");
/// let file = std::fs::read(format!("{folder}/blocks.vtil"))?;
/// let routine = vtil::read(&file)?;
/// let names: Vec<&str> =
///     routine.explored_blocks().flat_map(|block| block.instructions()).map(|instruction| instruction.name()).collect();
/// assert_eq!(names[..4], ["mov", "str", "te", "js"]);
/// # Ok(())
/// # }
/// ```
pub fn read(file: &[u8]) -> Result<RoutineRef<'_>, Refusal> {
    // SAFETY: the pointer and the length are a slice's.
    let read = unsafe { c::vtil_read_routine(file.as_ptr(), file.len()) };
    accepted(read.refusal)?;
    let (routine_convention, end) = expected(file, read.conventions_at);
    let (subroutine_convention, end) = expected(file, end);
    Ok(RoutineRef { file: Source(file), read, routine_convention, subroutine_convention, specs_at: end + COUNT_SIZE })
}

/// Reads one part at an offset of any bytes, and answers it with the offset after it. The part is validated, with all
/// that is in it, as in a file.
///
/// Refusals: 1, 2, 5 to 8, whichever field fails first; 1 where `at` is past the end.
///
/// ```
/// use vtil::{read_at, InstructionRef, Refusal};
///
/// # fn main() -> Result<(), Refusal> {
/// let bytes = *b"\x03\0\0\0nop\0\0\0\0\x20\x10\0\0\0\0\0\0\0\0\0\0\0\0\0\0\0\0\0\0\x01and more";
/// let (nop, end) = read_at::<InstructionRef>(&bytes, 0)?;
/// assert_eq!((nop.name(), nop.vip().0, nop.sp_reset(), end), ("nop", 0x1020, true, 32));
/// assert_eq!(read_at::<InstructionRef>(&bytes, end).err(), Some(Refusal::ShortFile));
/// # Ok(())
/// # }
/// ```
pub fn read_at<'a, P: Part<'a>>(bytes: &'a [u8], at: usize) -> Result<(P, usize), Refusal> {
    let (part, end) = P::read(bytes, at as u64)?;
    Ok((part, end as usize))
}

/// A part that [`read_at`] reads: [`BlockRef`], [`InstructionRef`], [`ConventionRef`], [`Register`] and [`Vip`] are
/// these, and there are no others.
pub trait Part<'a>: sealed::Sealed + Sized {
    #[doc(hidden)]
    fn read(bytes: &'a [u8], at: u64) -> Result<(Self, u64), Refusal>;
}

mod sealed {
    pub trait Sealed {}

    impl Sealed for super::BlockRef<'_> {}
    impl Sealed for super::InstructionRef<'_> {}
    impl Sealed for super::ConventionRef<'_> {}
    impl Sealed for super::Register {}
    impl Sealed for super::Vip {}
}

/// A part of what was accepted as a whole.
fn expected<'a, P: Part<'a>>(file: &'a [u8], at: u64) -> (P, u64) {
    P::read(file, at).expect("the parts of what was accepted are accepted")
}

/// The elements of a list, in order. Each is read when it is asked for, by one call of the library.
#[derive(Clone, Debug)]
pub struct Parts<'a, P> {
    file: Source<'a>,
    at: u64,
    left: u64,
    part: PhantomData<fn() -> P>,
}

impl<'a, P> Parts<'a, P> {
    fn new(file: Source<'a>, at: u64, count: u64) -> Parts<'a, P> {
        Parts { file, at, left: count, part: PhantomData }
    }
}

impl<'a, P: Part<'a>> Iterator for Parts<'a, P> {
    type Item = P;

    fn next(&mut self) -> Option<P> {
        self.left = self.left.checked_sub(1)?;
        let (part, end) = expected(self.file.0, self.at);
        self.at = end;
        Some(part)
    }

    fn size_hint(&self) -> (usize, Option<usize>) {
        // A count has 32 bits, and each element has bytes in memory.
        let left = self.left as usize;
        (left, Some(left))
    }
}

impl<'a, P: Part<'a>> ExactSizeIterator for Parts<'a, P> {}

impl<'a, P: Part<'a>> FusedIterator for Parts<'a, P> {}

/// A routine in borrowed bytes, from [`read`], [`Book::read`](crate::Book::read) or
/// [`Routine::read`](crate::Routine::read).
#[derive(Clone, Copy, Debug)]
pub struct RoutineRef<'a> {
    file: Source<'a>,
    read: c::RoutineRead,
    routine_convention: ConventionRef<'a>,
    subroutine_convention: ConventionRef<'a>,
    /// Where the first special convention begins.
    specs_at: u64,
}

impl<'a> RoutineRef<'a> {
    /// The routine's bytes, without those after it.
    pub fn bytes(&self) -> &'a [u8] {
        &self.file.0[..self.read.end as usize]
    }

    /// The machine: 0 Amd64, 1 Arm64, 2 Virtual.
    pub fn arch_id(&self) -> u64 {
        self.read.arch_id
    }

    /// The entry vip.
    pub fn vip(&self) -> Vip {
        Vip(self.read.vip)
    }

    pub fn routine_convention(&self) -> ConventionRef<'a> {
        self.routine_convention
    }

    pub fn subroutine_convention(&self) -> ConventionRef<'a> {
        self.subroutine_convention
    }

    /// The special conventions.
    pub fn spec_subroutine_conventions(&self) -> Parts<'a, ConventionRef<'a>> {
        Parts::new(self.file, self.specs_at, self.read.spec_conventions)
    }

    /// The blocks, in the order of the file.
    pub fn explored_blocks(&self) -> Parts<'a, BlockRef<'a>> {
        Parts::new(self.file, self.read.blocks_at, self.read.blocks)
    }

    /// The block with this vip; no two have the same. The blocks before it are read on the way.
    pub fn find_block(&self, vip: Vip) -> Option<BlockRef<'a>> {
        self.explored_blocks().find(|block| block.vip() == vip)
    }
}

/// A convention in borrowed bytes.
#[derive(Clone, Copy, Debug)]
pub struct ConventionRef<'a> {
    file: Source<'a>,
    at: u64,
    read: c::ConventionRead,
}

impl<'a> ConventionRef<'a> {
    /// The convention as it stands in the file.
    pub fn bytes(&self) -> &'a [u8] {
        &self.file.0[self.at as usize..self.read.end as usize]
    }

    pub fn volatile_registers(&self) -> Parts<'a, Register> {
        Parts::new(self.file, self.read.volatile_at, self.read.volatile_registers)
    }

    pub fn param_registers(&self) -> Parts<'a, Register> {
        Parts::new(self.file, self.read.param_at, self.read.param_registers)
    }

    pub fn retval_registers(&self) -> Parts<'a, Register> {
        Parts::new(self.file, self.read.retval_at, self.read.retval_registers)
    }

    pub fn frame_register(&self) -> Register {
        Register::from_c(&self.read.frame_register)
    }

    pub fn shadow_space(&self) -> u64 {
        self.read.shadow_space
    }

    pub fn purge_stack(&self) -> bool {
        self.read.purge_stack != 0
    }
}

/// A block in borrowed bytes.
#[derive(Clone, Copy, Debug)]
pub struct BlockRef<'a> {
    file: Source<'a>,
    at: u64,
    read: c::BlockRead,
}

impl<'a> BlockRef<'a> {
    /// The block as it stands in the file.
    pub fn bytes(&self) -> &'a [u8] {
        &self.file.0[self.at as usize..self.read.end as usize]
    }

    pub fn vip(&self) -> Vip {
        Vip(self.read.vip)
    }

    pub fn sp_offset(&self) -> i64 {
        self.read.sp_offset
    }

    pub fn sp_index(&self) -> u32 {
        self.read.sp_index
    }

    pub fn last_temporary_index(&self) -> u32 {
        self.read.last_temporary_index
    }

    pub fn instructions(&self) -> Parts<'a, InstructionRef<'a>> {
        Parts::new(self.file, self.read.instructions_at, self.read.instructions)
    }

    /// The vips of the blocks before it.
    pub fn prev_vip(&self) -> Parts<'a, Vip> {
        Parts::new(self.file, self.read.prev_at, self.read.prev_vips)
    }

    /// The vips of the blocks after it.
    pub fn next_vip(&self) -> Parts<'a, Vip> {
        Parts::new(self.file, self.read.next_at, self.read.next_vips)
    }
}

/// An instruction in borrowed bytes. It is an [`Instruction`] that holds its operands without allocating.
#[derive(Clone, Copy, Debug)]
pub struct InstructionRef<'a> {
    bytes: Source<'a>,
    op: u32,
    count: u32,
    operands: [Operand; 3],
    vip: Vip,
    sp_offset: i64,
    sp_index: u32,
    sp_reset: bool,
}

impl<'a> InstructionRef<'a> {
    /// The instruction as it stands in the file: what [`Book::append`](crate::Book::append) takes.
    pub fn bytes(&self) -> &'a [u8] {
        self.bytes.0
    }

    /// The operation's number, 0 to 48: its place in [`OPERATIONS`].
    pub fn op(&self) -> u32 {
        self.op
    }

    /// The operation's name.
    pub fn name(&self) -> &'static str {
        OPERATIONS[self.op as usize].0
    }

    pub fn operands(&self) -> &[Operand] {
        &self.operands[..self.count as usize]
    }

    pub fn vip(&self) -> Vip {
        self.vip
    }

    pub fn sp_offset(&self) -> i64 {
        self.sp_offset
    }

    pub fn sp_index(&self) -> u32 {
        self.sp_index
    }

    pub fn sp_reset(&self) -> bool {
        self.sp_reset
    }

    /// The instruction as a value of its own, which allocates its operands.
    pub fn to_instruction(&self) -> Instruction {
        Instruction {
            op: self.op,
            operands: self.operands().to_vec(),
            vip: self.vip,
            sp_offset: self.sp_offset,
            sp_index: self.sp_index,
            sp_reset: self.sp_reset,
        }
    }
}

// Inlined into the loops of the users: an instruction is some 150 bytes to hand over.

impl<'a> Part<'a> for ConventionRef<'a> {
    #[inline]
    fn read(bytes: &'a [u8], at: u64) -> Result<(ConventionRef<'a>, u64), Refusal> {
        // SAFETY: the pointer and the length are a slice's; so they are in every call below.
        let read = unsafe { c::vtil_read_convention(bytes.as_ptr(), bytes.len(), at) };
        accepted(read.refusal)?;
        Ok((ConventionRef { file: Source(bytes), at, read }, read.end))
    }
}

impl<'a> Part<'a> for BlockRef<'a> {
    #[inline]
    fn read(bytes: &'a [u8], at: u64) -> Result<(BlockRef<'a>, u64), Refusal> {
        let read = unsafe { c::vtil_read_block(bytes.as_ptr(), bytes.len(), at) };
        accepted(read.refusal)?;
        Ok((BlockRef { file: Source(bytes), at, read }, read.end))
    }
}

impl<'a> Part<'a> for InstructionRef<'a> {
    #[inline]
    fn read(bytes: &'a [u8], at: u64) -> Result<(InstructionRef<'a>, u64), Refusal> {
        let read = unsafe { c::vtil_read_instruction(bytes.as_ptr(), bytes.len(), at) };
        accepted(read.refusal)?;
        let desc = &read.instruction;
        let instruction = InstructionRef {
            bytes: Source(&bytes[at as usize..read.end as usize]),
            op: desc.op,
            count: desc.count,
            operands: [0, 1, 2].map(|place| Operand::from_c(&desc.operands[place])),
            vip: Vip(desc.vip),
            sp_offset: desc.sp_offset,
            sp_index: desc.sp_index,
            sp_reset: desc.sp_reset != 0,
        };
        Ok((instruction, read.end))
    }
}

impl<'a> Part<'a> for Register {
    #[inline]
    fn read(bytes: &'a [u8], at: u64) -> Result<(Register, u64), Refusal> {
        let read = unsafe { c::vtil_read_register(bytes.as_ptr(), bytes.len(), at) };
        accepted(read.refusal)?;
        Ok((Register::from_c(&read.register_desc), read.end))
    }
}

impl<'a> Part<'a> for Vip {
    #[inline]
    fn read(bytes: &'a [u8], at: u64) -> Result<(Vip, u64), Refusal> {
        let read = unsafe { c::vtil_read_vip(bytes.as_ptr(), bytes.len(), at) };
        accepted(read.refusal)?;
        Ok((Vip(read.vip), read.end))
    }
}
