//! The Rust's answers. Its source is not touched: what it panics or aborts on is told apart here.

use crate::reference::{
    Counted, Refusal, FOREIGN_REGISTER, NAME_NOT_TEXT, REPEATED_BLOCK, SHORT_FILE, UNKNOWN_MACHINE,
    UNKNOWN_OPERAND_KIND, UNKNOWN_OPERATION, WRONG_MARK, WRONG_OPERAND_COUNT,
};
use scroll::{ctx::TryFromCtx, Endian, Pread};
use std::cell::Cell;
use std::mem::size_of;
use std::panic::{catch_unwind, set_hook};
use vtil_parser::{Error, Instruction, RegisterDesc, Routine, RoutineConvention, Vip};

/// The Rust reserves memory for the counts that it reads, and the process aborts where it gets none. A file that asks
/// for more than this is not handed to it.
pub const RESERVED_LIMIT: u64 = 256 << 20;

/// The line of serialize.rs on which a repeated vip panics: the size assertion of the routine.
const REPEATED_VIP_LINE: u32 = 1107;

#[derive(Debug, PartialEq)]
pub enum Answer {
    Accepted {
        consumed: usize,
        written: Vec<u8>,
    },
    /// Refusals 3 to 7 by the text of `Malformed`, and 8; and those of edits that are worked out from its values.
    Refused(Refusal),
    /// "Some other error": 1 or 2.
    Other,
    /// The size assertion that a repeated vip breaks.
    RepeatedVip,
    /// A panic at another place, or a text that no refusal has.
    Unexpected(String),
}

impl Answer {
    /// Whether it is a refusal that the library gives by this number.
    pub fn is_refusal(&self, number: Refusal) -> bool {
        match self {
            Answer::Refused(rust) => *rust == number,
            Answer::Other => [SHORT_FILE, NAME_NOT_TEXT].contains(&number),
            Answer::RepeatedVip => number == REPEATED_BLOCK,
            _ => false,
        }
    }
}

thread_local! {
    static PANIC_LINE: Cell<u32> = const { Cell::new(0) };
}

/// Notes where the Rust panics, in place of the message on standard error. The panics of the crate over the library,
/// where a part is refused within what was accepted or lies outside it, are told by who catches them.
pub fn note_panics() {
    set_hook(Box::new(|info| {
        let Some(place) = info.location() else { return };
        if place.file().ends_with("original/src/serialize.rs") {
            PANIC_LINE.set(place.line());
            return;
        }
        if ["read.rs", "walk.rs"].iter().any(|name| place.file().ends_with(&format!("bindings/rust/src/{name}"))) {
            return;
        }
        eprintln!("{info}");
    }));
}

/// Whether the Rust reserves more than the limit on a file with these counts.
pub fn reserves_too_much(counted: &Counted) -> bool {
    let lists = [
        (counted.registers, size_of::<RegisterDesc>()),
        (counted.conventions, size_of::<RoutineConvention>()),
        (counted.instructions, size_of::<Instruction>()),
        (counted.vips, size_of::<Vip>()),
    ];
    let total: u64 = lists.iter().map(|(count, size)| count * *size as u64).sum();
    total > RESERVED_LIMIT
}

fn malformed(text: &str) -> Answer {
    const TEXTS: [(&str, Refusal); 5] = [
        ("VTIL magic is invalid: ", WRONG_MARK),
        ("Invalid architecture identifier: ", UNKNOWN_MACHINE),
        ("Register flags are invalid: ", FOREIGN_REGISTER),
        ("Invalid operand: ", UNKNOWN_OPERAND_KIND),
        ("Invalid operation: ", UNKNOWN_OPERATION),
    ];
    match TEXTS.iter().find(|(start, _)| text.starts_with(start)) {
        Some((_, refusal)) => Answer::Refused(*refusal),
        None => Answer::Unexpected(text.to_string()),
    }
}

fn refused(error: Error) -> Answer {
    match error {
        Error::Malformed(text) => malformed(&text),
        Error::OperandMismatch => Answer::Refused(WRONG_OPERAND_COUNT),
        Error::Scroll(_) | Error::Utf8(_) => Answer::Other,
        error => Answer::Unexpected(format!("{error:?}")),
    }
}

/// `from_vec` does not say how much it consumed; the same reader at an offset does.
fn consumed(file: &[u8]) -> usize {
    let mut offset = 0;
    file.gread_with::<Routine>(&mut offset, scroll::LE).expect("from_vec accepted the same bytes");
    offset
}

fn read(file: &[u8]) -> Answer {
    match Routine::from_vec(file) {
        Err(error) => refused(error),
        Ok(routine) => Answer::Accepted {
            consumed: consumed(file),
            written: routine.into_bytes().expect("the sink has the routine's size"),
        },
    }
}

/// What the Rust reads at an offset of any bytes, and the offset after it. A part with lists makes it reserve memory for
/// its counts.
pub fn read_at<'a, P: TryFromCtx<'a, Endian, Error = Error>>(bytes: &'a [u8], at: usize) -> Result<(P, usize), Answer> {
    let mut offset = at;
    let part = bytes.gread_with::<P>(&mut offset, scroll::LE).map_err(refused)?;
    Ok((part, offset))
}

/// What the Rust says of a file that does not make it reserve too much.
pub fn ask(file: &[u8]) -> Answer {
    PANIC_LINE.set(0);
    match catch_unwind(|| read(file)) {
        Ok(answer) => answer,
        Err(_) if PANIC_LINE.get() == REPEATED_VIP_LINE => Answer::RepeatedVip,
        Err(_) => Answer::Unexpected(format!("a panic on line {} of serialize.rs", PANIC_LINE.get())),
    }
}

/// The differences that docs/DIFFERENCES.md names, each on its smallest input.
#[cfg(test)]
mod tests {
    use super::*;
    use crate::blocks::empty_blocks;
    use crate::draft::{minimal_routine, Draft, FOREIGN};
    use crate::reference::{check, list_counts};
    use vtil_parser::{Op, Operand, RegisterFlags};

    #[test]
    fn a_repeated_vip_panics() {
        note_panics();
        let file = empty_blocks(&[0, 0]);
        assert_eq!(file.len(), 186);
        assert_eq!(ask(&file), Answer::RepeatedVip);
        assert_eq!(check(&file), Err(9));
    }

    #[test]
    fn a_huge_count_is_held_back() {
        let file = [&minimal_routine()[..16], &[0xff; 4]].concat();
        assert!(reserves_too_much(&list_counts(&file)));
        assert_eq!(check(&file), Err(1));
    }

    #[test]
    fn a_name_of_size_0_at_the_end_is_some_other_error() {
        let file = [Draft::up_to_an_instruction().bytes, vec![0; 4]].concat();
        assert_eq!(ask(&file), Answer::Other);
        assert_eq!(check(&file), Err(1));
    }

    #[test]
    fn a_foreign_register_is_written_unchecked() {
        let register =
            RegisterDesc { flags: RegisterFlags::VIRTUAL, combined_id: FOREIGN, bit_count: 0, bit_offset: 0 };
        let op = Op::Neg(Operand::RegisterDesc(register));
        let instruction = Instruction { op, vip: Vip(0), sp_offset: 0, sp_index: 0, sp_reset: false };
        let mut routine = Routine::from_vec(&minimal_routine()).unwrap();
        routine.create_block(Vip(0)).unwrap().instructions.push(instruction);
        let written = routine.into_bytes().unwrap();
        assert_eq!(ask(&written), Answer::Refused(FOREIGN_REGISTER));
    }
}
