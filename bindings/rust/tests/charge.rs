//! The charge of a routine: which rate each operation counts, the rounding, the largest sums, and the refusals.

use std::ops::RangeInclusive;
use vtil::{
    operation, Book, Immediate, Instruction, Numbers, Operand, Rates, Refusal, Routine, Vip, MOST_LENT, OPERATIONS,
};

/// The operations of each group, by number.
const GROUPS: [RangeInclusive<usize>; 6] = [0..=3, 4..=14, 15..=25, 26..=36, 37..=40, 41..=48];

/// Whole cents, another number for each group.
const DIFFERENT: Rates = Rates([100, 200, 300, 400, 500, 600]);

const MINIMAL: usize = 114;

fn sample(name: &str) -> Vec<u8> {
    let path = format!("{}/../../samples/{name}.vtil", env!("CARGO_MANIFEST_DIR"));
    std::fs::read(&path).unwrap_or_else(|error| panic!("{path}: {error}"))
}

fn instruction(op: usize) -> Instruction {
    let operands = vec![Operand::Immediate(Immediate::default()); OPERATIONS[op].1];
    Instruction { op: op as u32, operands, ..Default::default() }
}

fn nop() -> Instruction {
    instruction(operation("nop").unwrap() as usize)
}

/// A routine with a block for each list, which has these instructions.
fn routine_of(blocks: &[&[Instruction]]) -> Routine {
    let mut routine = Routine::open(&sample("minimal"), Rates::default()).unwrap();
    for (place, instructions) in blocks.iter().enumerate() {
        let vip = Vip(place as u64);
        routine.create_block(vip).unwrap();
        for instruction in *instructions {
            routine.append_instruction(vip, instruction).unwrap();
        }
    }
    routine
}

/// The same rate for all groups.
fn each(rate: u32) -> Rates {
    Rates([rate; 6])
}

/// The rate of one group, and 0 for the others.
fn alone(group: usize, rate: u32) -> Rates {
    let mut rates = Rates::default();
    rates.0[group] = rate;
    rates
}

#[test]
fn each_operation_counts_the_rate_of_its_group() {
    for (group, operations) in GROUPS.into_iter().enumerate() {
        for op in operations {
            let routine = routine_of(&[&[instruction(op)]]);
            assert_eq!(routine.charge(DIFFERENT), 1 + group as u64, "{}", OPERATIONS[op].0);
        }
    }
}

#[test]
fn every_instruction_of_every_block_counts() {
    let all: Vec<Instruction> = (0..OPERATIONS.len()).map(instruction).collect();
    // Nothing is appended after the operations 37 to 40: each is the last of its block.
    let routine = routine_of(&[&all[..20], &[], &all[20..38], &all[38..39], &all[39..40], &all[40..41], &all[41..]]);
    for (group, operations) in GROUPS.into_iter().enumerate() {
        assert_eq!(routine.charge(alone(group, 100)), operations.count() as u64, "group {group}");
    }
    assert_eq!(routine.charge(DIFFERENT), 4 + 2 * 11 + 3 * 11 + 4 * 11 + 5 * 4 + 6 * 8);
    assert_eq!(routine.charge(each(u32::MAX)), (49 * u64::from(u32::MAX)).div_ceil(100));
    assert_eq!(routine.charge(Rates::default()), 0);
}

#[test]
fn a_routine_without_instructions_costs_nothing() {
    assert_eq!(routine_of(&[]).charge(each(u32::MAX)), 0);
    assert_eq!(routine_of(&[&[], &[]]).charge(each(u32::MAX)), 0);
}

#[test]
fn the_sum_is_rounded_up_once() {
    let one = routine_of(&[&[nop()]]);
    for (rate, cents) in [(0, 0), (1, 1), (99, 1), (100, 1), (101, 2)] {
        assert_eq!(one.charge(each(rate)), cents, "rate {rate}");
    }
    // Not for each instruction, each block or each group.
    assert_eq!(routine_of(&[&[nop(), nop()]]).charge(each(50)), 1);
    assert_eq!(routine_of(&[&[nop()], &[nop()]]).charge(each(50)), 1);
    assert_eq!(routine_of(&[&[nop(), instruction(0)]]).charge(each(50)), 1);
    assert_eq!(routine_of(&[&[nop()], &[nop(), instruction(0)]]).charge(each(34)), 2);
}

#[test]
fn edits_change_the_charge() {
    let file = sample("blocks");
    let mut routine = Routine::open(&file, Rates::default()).unwrap();
    let before = routine.charge(DIFFERENT);
    assert_eq!(before, 2 + 2 + 4 + 4 * 5 + 6);
    routine.create_block(Vip(0x1030)).unwrap();
    routine.append_instruction(Vip(0x1030), &nop()).unwrap();
    assert_eq!(routine.charge(DIFFERENT), before + 6);
    routine.remove_block(Vip(0x1010)).unwrap();
    assert_eq!(routine.charge(DIFFERENT), before + 6 - (2 + 6 + 5));
    for _ in 0..3 {
        routine.undo().unwrap();
    }
    assert_eq!(routine.charge(DIFFERENT), before);
}

/// One block with as many instructions as an image has room for, at the highest rates.
#[test]
fn the_largest_charge() {
    let nop = nop().to_bytes().unwrap();
    let count = (MOST_LENT - MINIMAL - 36) / nop.len();
    let mut file = sample("minimal");
    file[110] = 1;
    file.extend([0; 24]);
    file.extend((count as u32).to_le_bytes());
    file.extend(nop.repeat(count));
    file.extend([0; 8]);
    let book = Book::open(&file, vec![0; MOST_LENT], vec![], Rates::default()).unwrap();
    assert_eq!(book.charge(each(u32::MAX)), Ok((count as u64 * u64::from(u32::MAX)).div_ceil(100)));
    assert_eq!(book.charge(alone(5, 100)), Ok(count as u64));
    assert_eq!(book.charge(Rates([u32::MAX, u32::MAX, u32::MAX, u32::MAX, u32::MAX, 0])), Ok(0));
}

/// 10 comes before 13.
#[test]
fn refused_books() {
    let file = sample("blocks");
    let image = [&file[..], &[0; 36]].concat();
    let fits = Numbers { written: file.len() as u64, ..Numbers::default() };
    let charge = |numbers, image: &[u8], journal: &[u8]| Book::resume(numbers, image, journal).charge(DIFFERENT);
    assert_eq!(charge(fits, &image, &[]), Ok(34));

    let shorter = Numbers { written: fits.written - 1, ..fits };
    for numbers in [shorter, Numbers { written: fits.written + 1, ..fits }, Numbers { used: 1, ..fits }] {
        assert_eq!(charge(numbers, &image, &[]), Err(Refusal::SpoiledBook), "{numbers:?}");
    }
    let mut odd = image.clone();
    *odd.last_mut().unwrap() = 1;
    assert_eq!(charge(fits, &odd, &[]), Err(Refusal::SpoiledBook));

    let over = vec![0; MOST_LENT + 1];
    for numbers in [fits, shorter] {
        assert_eq!(charge(numbers, &over, &[]), Err(Refusal::LendingTooLarge), "{numbers:?}");
        assert_eq!(charge(numbers, &image, &over), Err(Refusal::LendingTooLarge), "{numbers:?}");
    }
    assert_eq!(charge(fits, &image, &over[1..]), Ok(34));
}
