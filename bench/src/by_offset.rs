//! Every instruction of a routine with all of its operands: read by offset, beside from_vec with iteration. All sides
//! add up what stands in the operands, and have to come to the same sum.

use crate::clock::{best_of_both, heading, print, time};
use crate::reading::{routine_of_instructions, Input};
use std::time::Duration;
use vtil_parser::{Operand, Routine};

/// How long a side took, and the sum that it came to.
type Timed = (Duration, u64);

mod c {
    extern "C" {
        /// src/by_offset.c
        pub fn bench_operand_sum(file: *const u8, file_len: usize, sum: *mut u64) -> u64;
    }
}

/// The loop in C that include/vtil.h shows.
fn from_c(file: &[u8]) -> Timed {
    let (mut sum, mut refusal) = (0, 0);
    // SAFETY: the pointer and the length are a slice's.
    let took = time(|| refusal = unsafe { c::bench_operand_sum(file.as_ptr(), file.len(), &mut sum) });
    assert_eq!(refusal, 0, "the measured files are accepted");
    (took, sum)
}

fn in_operand(operand: &vtil::Operand) -> u64 {
    match *operand {
        vtil::Operand::Immediate(immediate) => immediate.value.wrapping_add(immediate.bit_count.into()),
        vtil::Operand::Register(vtil::Register { flags, combined_id, bit_count, bit_offset }) => {
            flags.wrapping_add(combined_id).wrapping_add(bit_count as u64).wrapping_add(bit_offset as u64)
        }
    }
}

/// The same loop by the iterators of bindings/rust.
fn by_iterators(file: &[u8]) -> Timed {
    let mut sum: u64 = 0;
    let took = time(|| {
        let routine = vtil::read(file).expect("the measured files are accepted");
        for instruction in routine.explored_blocks().flat_map(|block| block.instructions()) {
            for operand in instruction.operands() {
                sum = sum.wrapping_add(in_operand(operand));
            }
        }
    });
    (took, sum)
}

fn in_rust_operand(operand: &Operand) -> u64 {
    match operand {
        Operand::ImmediateDesc(immediate) => immediate.u64().wrapping_add(immediate.bit_count.into()),
        Operand::RegisterDesc(register) => register
            .flags
            .bits()
            .wrapping_add(register.combined_id)
            .wrapping_add(register.bit_count as u64)
            .wrapping_add(register.bit_offset as u64),
    }
}

/// `operands` is the Rust's one way to the operands of any operation.
fn by_rust(file: &[u8]) -> Timed {
    let mut sum: u64 = 0;
    let took = time(|| {
        let routine = Routine::from_vec(file).expect("the measured files are accepted");
        for instruction in routine.explored_blocks.values().flat_map(|block| &block.instructions) {
            for operand in instruction.op.operands() {
                sum = sum.wrapping_add(in_rust_operand(operand));
            }
        }
        routine
    });
    (took, sum)
}

pub fn every_instruction(most_blocks: usize) {
    let Some(Input { file, .. }) = Some(routine_of_instructions()).filter(|input| input.blocks <= most_blocks) else {
        return;
    };
    heading("every instruction and operand, 8 MB", "Rust from_vec, iterated", "library, by offset");
    let (_, due) = by_rust(&file);
    let timed = |side: fn(&[u8]) -> Timed| {
        let file = &file;
        move || {
            let (took, sum) = side(file);
            assert_eq!(sum, due, "all sides read the same operands");
            took
        }
    };
    print("from C", file.len(), best_of_both(timed(by_rust), timed(from_c)));
    print("by the Rust crate's iterators", file.len(), best_of_both(timed(by_rust), timed(by_iterators)));
}
