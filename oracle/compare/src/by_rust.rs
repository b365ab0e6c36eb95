//! Edits of the Rust's routine, and what the Rust makes of a call that the machine refuses.

use oracle::append::{appended, first_crooked, whole};
use oracle::original::Answer::{self, Refused};
use oracle::reference::{
    Call, Refusal, BLOCK_PRESENT, CLOSED_BLOCK, CROOKED_REGISTER, IMAGE_FULL, JOURNAL_FULL, NO_SUCH_BLOCK,
};
use std::fmt;
use vtil_parser::{BasicBlock, Op, Routine, Vip};

/// Does an edit. 14 and 15 are where the Rust's own calls answer `None`.
pub fn edit(routine: &mut Routine, call: &Call) -> Result<(), Answer> {
    match call {
        Call::Create(vip) => routine.create_block(Vip(*vip)).map(|_| ()).ok_or(Refused(BLOCK_PRESENT)),
        Call::Remove(vip) => routine.remove_block(Vip(*vip)).map(|_| ()).ok_or(Refused(NO_SUCH_BLOCK)),
        Call::Append(vip, bytes) => push(routine, *vip, bytes),
        Call::Undo => unreachable!("the Rust takes nothing back"),
        Call::Start | Call::Next | Call::Abandon => unreachable!("a walk edits nothing"),
    }
}

/// The Rust has no append; its users push to the block's list. Nor has it closed blocks or crooked registers: both are
/// seen in the Rust's own values.
fn push(routine: &mut Routine, vip: u64, bytes: &[u8]) -> Result<(), Answer> {
    let instruction = appended(bytes)?;
    let block = routine.explored_blocks.get_mut(&Vip(vip)).ok_or(Refused(NO_SUCH_BLOCK))?;
    if is_closed(block) {
        return Err(Refused(CLOSED_BLOCK));
    }
    block.instructions.push(instruction);
    Ok(())
}

fn is_closed(block: &BasicBlock) -> bool {
    let last = block.instructions.last().map(|instruction| &instruction.op);
    matches!(last, Some(Op::Js(..) | Op::Jmp(..) | Op::Vexit(..) | Op::Vxcall(..)))
}

/// Of an edit that no walk keeps waiting. The routine is the one before it. It knows no lent memory, and so has to do what does not fit there.
pub fn refusal_difference(mut routine: Routine, call: &Call, refusal: Refusal) -> Option<String> {
    let rust = edit(&mut routine, call);
    let is_same = match &rust {
        Ok(()) => [IMAGE_FULL, JOURNAL_FULL].contains(&refusal),
        Err(answer) => answer.is_refusal(refusal),
    };
    (!is_same).then(|| format!("document 01 refuses {refusal}, Rust {rust:?}"))
}

/// The calls that were refused 19.
#[derive(Default)]
pub struct Crooked {
    /// By the place of the operand.
    by_place: [usize; 3],
    /// Those that without it would be refused for what stands behind it in the bytes, for the block that is not there,
    /// and for the block that is closed.
    faulty: usize,
    absent: usize,
    closed: usize,
}

impl Crooked {
    /// The routine is the one before the call.
    pub fn count(&mut self, routine: &Routine, call: &Call, refusal: Refusal) {
        let Call::Append(vip, bytes) = call else { return };
        let (CROOKED_REGISTER, Ok(Some(place))) = (refusal, first_crooked(bytes)) else { return };
        self.by_place[place] += 1;
        match routine.explored_blocks.get(&Vip(*vip)) {
            _ if whole(bytes).is_err() => self.faulty += 1,
            None => self.absent += 1,
            Some(block) => self.closed += usize::from(is_closed(block)),
        }
    }
}

impl fmt::Display for Crooked {
    fn fmt(&self, to: &mut fmt::Formatter) -> fmt::Result {
        let Crooked { by_place: [first, second, third], faulty, absent, closed } = self;
        write!(to, "refused 19 for the first operand {first}, the second {second}, the third {third}; else refused ")?;
        write!(to, "for what is behind it {faulty}, 15 {absent}, 18 {closed}")
    }
}
