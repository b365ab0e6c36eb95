//! A file under construction: its bytes, and where the fields are that faults are put into. It writes fields as they
//! come, whether or not they make an accepted file, and leans on neither reader.

use crate::reference::ops;
use crate::rng::Rng;

#[derive(Clone, Copy, Debug, PartialEq, Eq)]
pub enum Field {
    FirstMark,
    Machine,
    SecondMark,
    RegisterId,
    OperandKind,
    NameSize,
    Name,
    OperandCount,
    /// A count of registers, conventions, instructions, vips or blocks.
    ListCount,
    BlockVip,
}

/// A field that a fault can be put into, and the bytes that it has.
#[derive(Clone, Copy, Debug)]
pub struct FieldAt {
    pub field: Field,
    pub at: usize,
    pub size: usize,
}

#[derive(Clone, Default)]
pub struct Draft {
    pub bytes: Vec<u8>,
    pub fields: Vec<FieldAt>,
}

/// The most items that a list of each kind gets.
#[derive(Clone, Copy)]
pub struct Shape {
    pub registers: usize,
    pub conventions: usize,
    pub blocks: usize,
    pub instructions: usize,
    pub vips: usize,
    /// Many instructions are such that a block takes no more after them.
    pub often_closing: bool,
}

pub const SMALL: Shape =
    Shape { registers: 1, conventions: 1, blocks: 2, instructions: 2, vips: 1, often_closing: false };
pub const MIDDLING: Shape =
    Shape { registers: 4, conventions: 3, blocks: 8, instructions: 6, vips: 4, often_closing: false };
pub const MANY_BLOCKS: Shape = Shape { blocks: 200, instructions: 1, ..SMALL };

/// One past the last id that is not foreign.
pub const FOREIGN: u64 = 3 << 56;

/// The header of machine 2 and 106 zeros: the smallest routine.
pub fn minimal_routine() -> Vec<u8> {
    let mut file = vec![0x56, 0x54, 0x49, 0x4c, 2, 0, 0xad, 0xde];
    file.resize(114, 0);
    file
}

fn known_id(rng: &mut Rng) -> u64 {
    const EDGES: [u64; 9] =
        [0, 1, (1 << 56) - 1, 1 << 56, (1 << 56) + 1, (2 << 56) - 1, 2 << 56, FOREIGN - 1, FOREIGN - 2];
    if rng.one_in(2) {
        return rng.pick(&EDGES);
    }
    rng.u64() % FOREIGN
}

fn flag(rng: &mut Rng) -> u8 {
    match rng.below(4) {
        0 => 0,
        1 => 1,
        _ => rng.byte(),
    }
}

/// Vips of which no two are equal, in one of the orders that a writer might leave.
fn distinct_vips(rng: &mut Rng, count: usize) -> Vec<u64> {
    let step = rng.pick(&[1, 2, 0x100, 1 << 40]);
    let start = rng.edgy();
    let mut vips: Vec<u64> = (0..count as u64).map(|i| start.wrapping_add(i * step)).collect();
    match rng.below(3) {
        0 => vips.reverse(),
        1 => rng.shuffle(&mut vips),
        _ => {}
    }
    vips
}

impl Draft {
    fn field(&mut self, field: Field, bytes: &[u8]) {
        self.fields.push(FieldAt { field, at: self.bytes.len(), size: bytes.len() });
        self.bytes.extend(bytes);
    }

    fn count(&mut self, count: usize) {
        self.field(Field::ListCount, &(count as u32).to_le_bytes());
    }

    fn header(&mut self, rng: &mut Rng) {
        self.field(Field::FirstMark, &0x4c49_5456u32.to_le_bytes());
        let machine = rng.below(3) as u8;
        self.field(Field::Machine, &[machine]);
        self.bytes.push(flag(rng));
        self.field(Field::SecondMark, &0xdeadu16.to_le_bytes());
    }

    fn register(&mut self, rng: &mut Rng) {
        self.bytes.extend(rng.edgy().to_le_bytes());
        self.field(Field::RegisterId, &known_id(rng).to_le_bytes());
        self.bytes.extend(rng.edgy().to_le_bytes());
    }

    fn operand(&mut self, rng: &mut Rng) {
        let kind = rng.below(2) as u32;
        self.field(Field::OperandKind, &kind.to_le_bytes());
        if kind == 1 {
            return self.register(rng);
        }
        self.bytes.extend(rng.edgy().to_le_bytes());
        self.bytes.extend(rng.pick(&[0, 1, 8, 64, u32::MAX]).to_le_bytes());
    }

    /// The name with its size, and a count of operands.
    pub fn operation(&mut self, name: &[u8], operands: u32) {
        self.field(Field::NameSize, &(name.len() as u32).to_le_bytes());
        self.field(Field::Name, name);
        self.field(Field::OperandCount, &operands.to_le_bytes());
    }

    /// The operands, and what follows them in an instruction.
    pub fn operands_and_rest(&mut self, rng: &mut Rng, operands: u32) {
        for _ in 0..operands {
            self.operand(rng);
        }
        self.bytes.extend(rng.edgy().to_le_bytes());
        self.bytes.extend(rng.edgy().to_le_bytes());
        self.bytes.extend(rng.u32().to_le_bytes());
        self.bytes.push(flag(rng));
    }

    fn instruction_of(&mut self, rng: &mut Rng, (name, operands): (&str, u32)) {
        self.operation(name.as_bytes(), operands);
        self.operands_and_rest(rng, operands);
    }

    pub fn instruction(&mut self, rng: &mut Rng) {
        let operation = rng.pick(ops());
        self.instruction_of(rng, operation);
    }

    /// Half the time one of the four that close a block, js, jmp, vexit and vxcall, or of their neighbours ifs and nop,
    /// which do not; else any.
    pub fn often_closing_instruction(&mut self, rng: &mut Rng) {
        if rng.one_in(2) {
            return self.instruction(rng);
        }
        let operation = rng.pick(&ops()[36..=41]);
        self.instruction_of(rng, operation);
    }

    fn registers(&mut self, rng: &mut Rng, most: usize) {
        let count = rng.below(most + 1);
        self.count(count);
        for _ in 0..count {
            self.register(rng);
        }
    }

    fn vips(&mut self, rng: &mut Rng, most: usize) {
        let count = rng.below(most + 1);
        self.count(count);
        for _ in 0..count {
            self.bytes.extend(rng.edgy().to_le_bytes());
        }
    }

    fn convention(&mut self, rng: &mut Rng, shape: Shape) {
        for _ in 0..3 {
            self.registers(rng, shape.registers);
        }
        self.register(rng);
        self.bytes.extend(rng.edgy().to_le_bytes());
        self.bytes.push(flag(rng));
    }

    /// A block's four numbers.
    fn block_start(&mut self, rng: &mut Rng, vip: u64) {
        self.field(Field::BlockVip, &vip.to_le_bytes());
        self.bytes.extend(rng.edgy().to_le_bytes());
        self.bytes.extend(rng.u32().to_le_bytes());
        self.bytes.extend(rng.u32().to_le_bytes());
    }

    fn block(&mut self, rng: &mut Rng, shape: Shape, vip: u64) {
        self.block_start(rng, vip);
        let count = rng.below(shape.instructions + 1);
        self.count(count);
        for _ in 0..count {
            if shape.often_closing {
                self.often_closing_instruction(rng);
            } else {
                self.instruction(rng);
            }
        }
        self.vips(rng, shape.vips);
        self.vips(rng, shape.vips);
    }

    /// All before the count of blocks.
    fn front(&mut self, rng: &mut Rng, shape: Shape) {
        self.header(rng);
        self.bytes.extend(rng.edgy().to_le_bytes());
        self.convention(rng, shape);
        self.convention(rng, shape);
        let count = rng.below(shape.conventions + 1);
        self.count(count);
        for _ in 0..count {
            self.convention(rng, shape);
        }
    }

    /// A routine that every rule accepts, with exactly this many blocks.
    pub fn routine_of(rng: &mut Rng, shape: Shape, blocks: usize) -> Draft {
        let mut draft = Draft::default();
        draft.front(rng, shape);
        draft.count(blocks);
        for vip in distinct_vips(rng, blocks) {
            draft.block(rng, shape, vip);
        }
        draft
    }

    /// A routine that every rule accepts.
    pub fn routine(rng: &mut Rng, shape: Shape) -> Draft {
        let blocks = rng.below(shape.blocks + 1);
        Draft::routine_of(rng, shape, blocks)
    }

    /// The smallest routine with one block, up to and with its count of instructions, which is 1.
    pub fn up_to_an_instruction() -> Draft {
        let mut draft = Draft { bytes: minimal_routine(), fields: vec![] };
        draft.bytes[110] = 1;
        draft.bytes.extend([0; 24]);
        draft.bytes.extend(1u32.to_le_bytes());
        draft
    }

    pub fn fields_of(&self, field: Field) -> Vec<FieldAt> {
        self.fields.iter().copied().filter(|place| place.field == field).collect()
    }
}
