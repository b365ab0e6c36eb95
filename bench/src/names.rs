//! One instruction read, to time how its name is looked up. The library finds a listed name by a table where 128 bytes
//! or more stand from the instruction's start on; in a shorter slice, and where the table does not have the name, by the
//! plain lookup. The time is that of the whole read, so the operands are the shortest that there are.

use crate::clock::{best_of_both, heading, print_each, time};
use oracle::draft::Draft;
use oracle::original;
use oracle::reference::ops;
use oracle::rng::Rng;
use scroll::Pread;
use std::hint::black_box;
use std::time::Duration;
use vtil::{read_at, InstructionRef, Refusal};
use vtil_parser::Instruction;

/// How often each instruction is read within the clock.
const TIMES: usize = 200;
/// So many bytes from an instruction's start, and the library's table is asked.
const TABLE_ASKED: usize = 128;
const IMMEDIATE_SIZE: usize = 16;
/// What follows the operands: vip, sp offset, sp index and sp reset.
const REST_SIZE: usize = 21;

/// The number of the operation, or the refusal.
type Answer = Result<u32, Refusal>;

/// An instruction that ends after the operand count.
fn cut(name: &[u8], operands: u32) -> Vec<u8> {
    let mut draft = Draft::default();
    draft.operation(name, operands);
    draft.bytes
}

/// An instruction whose operands are immediates; these and the rest are zeros.
fn whole(name: &[u8], operands: u32) -> Vec<u8> {
    let mut bytes = cut(name, operands);
    bytes.resize(bytes.len() + IMMEDIATE_SIZE * operands as usize + REST_SIZE, 0);
    bytes
}

/// A whole instruction with zeros after it.
fn with_bytes_after(name: &[u8], operands: u32) -> Vec<u8> {
    let mut bytes = whole(name, operands);
    assert!(bytes.len() < TABLE_ASKED, "a slice of its own is short");
    bytes.resize(TABLE_ASKED, 0);
    bytes
}

/// One letter of a listed name made a capital. No listed name has one.
fn with_capital(name: &str, at: usize) -> Vec<u8> {
    let mut bytes = name.as_bytes().to_vec();
    bytes[at].make_ascii_uppercase();
    bytes
}

/// The letters of a listed name, over and over, up to a length that no listed name has.
fn with_other_length(name: &str, place: usize) -> Vec<u8> {
    let length = [1, 7, 12][place % 3];
    name.bytes().cycle().take(length).collect()
}

/// An instruction for each listed operation, in the order of their numbers.
fn listed(make: impl Fn(&[u8], u32) -> Vec<u8>) -> Vec<Vec<u8>> {
    ops().iter().map(|&(name, operands)| make(name.as_bytes(), operands)).collect()
}

/// An instruction for each listed operation, under another name.
fn renamed(rename: impl Fn(&str, usize) -> Vec<u8>) -> Vec<Vec<u8>> {
    let with_place = ops().iter().enumerate();
    with_place.map(|(place, &(name, operands))| whole(&rename(name, place), operands)).collect()
}

/// Both sides' answers to one instruction, outside the clock.
fn hold(bytes: &[u8], due: Answer) {
    let library = read_at::<InstructionRef>(bytes, 0).map(|(instruction, _)| instruction.op());
    assert_eq!(library, due, "the library's answer to {bytes:x?}");
    match (original::read_at::<Instruction>(bytes, 0), due) {
        (Ok((instruction, _)), Ok(number)) => assert_eq!(instruction.op.name(), ops()[number as usize].0),
        (Err(answer), Err(refusal)) => assert!(answer.is_refusal(refusal.number()), "{refusal}, Rust {answer:?}"),
        (rust, due) => panic!("{due:?}, Rust {rust:?}"),
    }
}

fn library_accepts(bytes: &[u8]) -> bool {
    read_at::<InstructionRef>(bytes, 0).is_ok()
}

/// The text of its error is dropped here, within the clock.
fn rust_accepts(bytes: &[u8]) -> bool {
    bytes.pread_with::<Instruction>(0, scroll::LE).is_ok()
}

/// Every instruction many times, in an order that no processor foresees.
fn shuffled(instructions: &[Vec<u8>]) -> Vec<&[u8]> {
    let mut reads: Vec<&[u8]> = (0..TIMES).flat_map(|_| instructions.iter().map(Vec::as_slice)).collect();
    Rng::new(1).shuffle(&mut reads);
    reads
}

/// All reads, of which so many have to be accepted.
fn timed(reads: &[&[u8]], due: usize, accepts: impl Fn(&[u8]) -> bool) -> Duration {
    let mut accepted = 0;
    let took = time(|| {
        for bytes in reads {
            accepted += usize::from(accepts(black_box(bytes)));
        }
    });
    assert_eq!(accepted, due, "every answer is the one outside the clock");
    took
}

/// A line: the time of one read. What is due depends on an instruction's place among them.
fn measure(name: &str, instructions: &[Vec<u8>], due: impl Fn(usize) -> Answer) {
    for (place, bytes) in instructions.iter().enumerate() {
        hold(bytes, due(place));
    }
    let accepted = TIMES * (0..instructions.len()).filter(|&place| due(place).is_ok()).count();
    let reads = shuffled(instructions);
    let times = best_of_both(|| timed(&reads, accepted, rust_accepts), || timed(&reads, accepted, library_accepts));
    print_each(name, reads.len(), times);
}

pub fn lookups() {
    heading("one instruction, its name looked up", "Rust pread", "library read");
    let number = |place: usize| Ok(place as u32);
    measure("the 49 names, by the table", &listed(with_bytes_after), number);
    measure("the 49 names, plain", &listed(whole), number);
    measure("the 49 names, plain, no operands follow", &listed(cut), |_| Err(Refusal::ShortFile));
    let unknown = |_| Err(Refusal::UnknownOperation);
    measure("last letter wrong, 2 to 6 letters", &renamed(|name, _| with_capital(name, name.len() - 1)), unknown);
    measure("first letter wrong, 2 to 6 letters", &renamed(|name, _| with_capital(name, 0)), unknown);
    measure("names of 1, 7 and 12 letters", &renamed(with_other_length), unknown);
}
