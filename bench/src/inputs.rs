//! The routines that are measured. Each is the same on every machine.

use oracle::blocks::{empty_blocks, rearrange, set_block_count, Order};
use oracle::draft::{minimal_routine, Draft, Field};
use oracle::rng::Rng;
use oracle::widths::{put_all, sound};

/// At which routines are opened and charged. All six differ, so that the sum depends on every group.
pub const RATES: [u32; 6] = [1, 20, 300, 4_000, 50_000, 600_000];

const SEED: u64 = 1;
const INSTRUCTIONS_A_BLOCK: usize = 25;

fn some_instructions(count: usize, rng: &mut Rng) -> Draft {
    let mut draft = Draft::default();
    for _ in 0..count {
        draft.instruction(rng);
    }
    draft
}

fn put_block(file: &mut Vec<u8>, vip: u64, count: usize, instructions: Draft) {
    file.extend(vip.to_le_bytes());
    file.extend([0; 16]);
    file.extend((count as u32).to_le_bytes());
    file.extend(instructions.bytes);
    file.extend([0; 8]);
}

fn put_next_block(file: &mut Vec<u8>, place: usize, rng: &mut Rng) {
    put_block(file, vip_of(place), INSTRUCTIONS_A_BLOCK, some_instructions(INSTRUCTIONS_A_BLOCK, rng));
}

/// Blocks of 25 instructions over all operations, their vips rising, as many as stay below `size` bytes.
pub fn with_size(size: usize) -> Vec<u8> {
    let mut rng = Rng::new(SEED);
    let mut file = minimal_routine();
    let mut blocks = 0;
    loop {
        let before = file.len();
        put_next_block(&mut file, blocks, &mut rng);
        if file.len() > size {
            file.truncate(before);
            break;
        }
        blocks += 1;
    }
    set_block_count(&mut file, blocks);
    file
}

/// 100,000 instructions in 4,000 blocks, some 8 MB, those of each block changed by `change`.
fn instructions_changed(mut change: impl FnMut(&mut Draft)) -> Vec<u8> {
    const BLOCKS: usize = 4_000;
    let mut rng = Rng::new(SEED);
    let mut file = minimal_routine();
    for place in 0..BLOCKS {
        let mut instructions = some_instructions(INSTRUCTIONS_A_BLOCK, &mut rng);
        change(&mut instructions);
        put_block(&mut file, vip_of(place), INSTRUCTIONS_A_BLOCK, instructions);
    }
    set_block_count(&mut file, BLOCKS);
    file
}

/// 100,000 instructions in 4,000 blocks, whose registers have any widths and offsets; most are such as append refuses.
pub fn instructions() -> Vec<u8> {
    instructions_changed(|_| {})
}

/// The same file, but that every register has a width and an offset such as append takes.
pub fn sound_instructions() -> Vec<u8> {
    let mut rng = Rng::new(SEED);
    instructions_changed(|instructions| put_all(instructions, &mut rng, sound))
}

/// What is appended: an instruction with three registers, the most that there can be. Append asks each of them for its
/// width and its offset, and takes them.
pub fn appended() -> Vec<u8> {
    const REGISTERS: usize = 3;
    let mut rng = Rng::new(SEED);
    loop {
        let mut instruction = some_instructions(1, &mut rng);
        if instruction.fields_of(Field::RegisterId).len() == REGISTERS {
            put_all(&mut instruction, &mut rng, sound);
            return instruction.bytes;
        }
    }
}

/// 100,000 instructions in one block, some 8 MB. The last is a nop, so that the block is open and takes an append.
pub fn one_block() -> Vec<u8> {
    const INSTRUCTIONS: usize = 100_000;
    let mut rng = Rng::new(SEED);
    let mut file = minimal_routine();
    let mut instructions = some_instructions(INSTRUCTIONS - 1, &mut rng);
    instructions.operation(b"nop", 0);
    instructions.operands_and_rest(&mut rng, 0);
    put_block(&mut file, vip_of(0), INSTRUCTIONS, instructions);
    set_block_count(&mut file, 1);
    file
}

/// The vip of the block at a place, where vips rise.
pub fn vip_of(place: usize) -> u64 {
    0x1_4000_0000 + 16 * place as u64
}

/// Blocks with nothing in them, their vips in some order.
pub fn in_order(count: usize, order: Order) -> Vec<u8> {
    let mut vips: Vec<u64> = (0..count).map(vip_of).collect();
    rearrange(&mut vips, order, &mut Rng::new(SEED));
    empty_blocks(&vips)
}
