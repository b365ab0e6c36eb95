//! Reading by offset: each part of an accepted routine, read by the offsets and counts that the library answers, beside
//! the same part of the Rust's.

use oracle::reference::Refusal;
use scroll::ctx::SizeWith;
use std::fmt::Debug;
use std::panic::{catch_unwind, AssertUnwindSafe};
use vtil::{BlockRef, ConventionRef, InstructionRef, RoutineRef};
use vtil_parser::{BasicBlock, Instruction, Operand, RegisterDesc, Routine, RoutineConvention, Vip};

/// Nothing, or where the two differ.
pub type Same = Result<(), String>;

pub fn same<T: PartialEq + Debug>(what: &str, got: T, due: T) -> Same {
    if got == due {
        return Ok(());
    }
    Err(format!("{what} {got:?}, Rust {due:?}"))
}

/// Where a part is refused within what was accepted as a whole, or lies outside it, the crate panics: a difference too.
pub fn caught(compare: impl FnOnce() -> Same) -> Same {
    let outcome = catch_unwind(AssertUnwindSafe(compare));
    outcome.unwrap_or_else(|_| Err("a part of what was accepted is refused, or lies outside it".to_string()))
}

/// Lists have to be of one length, and the same at every place.
fn each<L, R>(
    what: &str,
    got: impl ExactSizeIterator<Item = L>,
    due: impl ExactSizeIterator<Item = R>,
    part: impl Fn(L, R) -> Same,
) -> Same {
    same(what, got.len(), due.len())?;
    for (place, (got, due)) in got.zip(due).enumerate() {
        part(got, due).map_err(|text| format!("{what} {place}: {text}"))?;
    }
    Ok(())
}

pub fn register(got: vtil::Register, due: &RegisterDesc) -> Same {
    let RegisterDesc { flags, combined_id, bit_count, bit_offset } = *due;
    same("register", got, vtil::Register { flags: flags.bits(), combined_id, bit_count, bit_offset })
}

pub fn vip(got: vtil::Vip, due: &Vip) -> Same {
    same("vip", got.0, due.0)
}

fn operand(got: &vtil::Operand, due: &Operand) -> Same {
    match (got, due) {
        (vtil::Operand::Immediate(got), Operand::ImmediateDesc(due)) => {
            same("immediate", (got.value, got.bit_count), (due.u64(), due.bit_count))
        }
        (vtil::Operand::Register(got), Operand::RegisterDesc(due)) => register(*got, due),
        _ => Err("operand of another kind".to_string()),
    }
}

pub fn instruction(got: InstructionRef, due: &Instruction) -> Same {
    same("size", got.bytes().len(), Instruction::size_with(due))?;
    same("operation", got.name(), due.op.name())?;
    each("operand", got.operands().iter(), due.op.operands().into_iter(), operand)?;
    same("vip", got.vip().0, due.vip.0)?;
    same("sp offset", got.sp_offset(), due.sp_offset)?;
    same("sp index", got.sp_index(), due.sp_index)?;
    same("sp reset", got.sp_reset(), due.sp_reset)
}

pub fn convention(got: ConventionRef, due: &RoutineConvention) -> Same {
    same("size", got.bytes().len(), RoutineConvention::size_with(due))?;
    each("volatile register", got.volatile_registers(), due.volatile_registers.iter(), register)?;
    each("param register", got.param_registers(), due.param_registers.iter(), register)?;
    each("retval register", got.retval_registers(), due.retval_registers.iter(), register)?;
    register(got.frame_register(), &due.frame_register)?;
    same("shadow space", got.shadow_space(), due.shadow_space)?;
    same("purge", got.purge_stack(), due.purge_stack)
}

pub fn block(got: BlockRef, due: &BasicBlock) -> Same {
    same("size", got.bytes().len(), BasicBlock::size_with(due))?;
    same("vip", got.vip().0, due.vip.0)?;
    same("sp offset", got.sp_offset(), due.sp_offset)?;
    same("sp index", got.sp_index(), due.sp_index)?;
    same("last temporary index", got.last_temporary_index(), due.last_temporary_index)?;
    each("instruction", got.instructions(), due.instructions.iter(), instruction)?;
    each("prev vip", got.prev_vip(), due.prev_vip.iter(), vip)?;
    each("next vip", got.next_vip(), due.next_vip.iter(), vip)
}

fn routine(got: RoutineRef, due: &Routine) -> Same {
    same("size", got.bytes().len(), Routine::size_with(due))?;
    same("machine", got.arch_id(), due.header.arch_id as u64)?;
    same("entry vip", got.vip().0, due.vip.0)?;
    let named = |what: &str, got, due| convention(got, due).map_err(|text| format!("{what}: {text}"));
    named("routine convention", got.routine_convention(), &due.routine_convention)?;
    named("subroutine convention", got.subroutine_convention(), &due.subroutine_convention)?;
    let specs = due.spec_subroutine_conventions.iter();
    each("special convention", got.spec_subroutine_conventions(), specs, convention)?;
    each("block", got.explored_blocks(), due.explored_blocks.values(), block)
}

/// The file as a whole is accepted or refused as document 01 says, with the length that is due.
pub fn whole_difference(file: &[u8], due: Result<usize, Refusal>) -> Option<String> {
    let compare = || {
        let read = vtil::read(file).map(|routine| routine.bytes().len()).map_err(vtil::Refusal::number);
        if read == due {
            return Ok(());
        }
        Err(format!("library {read:?}, document 01 {due:?}"))
    };
    caught(compare).err().map(by_offset)
}

/// All parts of a file that both accept.
pub fn difference(file: &[u8]) -> Option<String> {
    let due = Routine::from_vec(file).expect("the Rust accepted the same bytes");
    let got = vtil::read(file).expect("the library accepted the same bytes");
    caught(|| routine(got, &due)).err().map(by_offset)
}

fn by_offset(text: String) -> String {
    format!("read by offset: {text}")
}
