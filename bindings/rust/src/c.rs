//! The C interface, as include/vtil.h declares it.

use std::mem::size_of;

/// What one instruction costs, in hundredths of a cent, by the group of its operation. Any numbers are rates. Where
/// nothing is billed, `Rates::default()` has 0 for every group.
///
/// | Group | Operations |
/// |---|---|
/// | 0 | 0 to 3, `mov` to `ldd` |
/// | 1 | 4 to 14, `neg` to `irem` |
/// | 2 | 15 to 25, `popcnt` to `rol` |
/// | 3 | 26 to 36, `tg` to `ifs` |
/// | 4 | 37 to 40, `js` to `vxcall` |
/// | 5 | 41 to 48, `nop` to `vpinwm` |
#[repr(C)]
#[derive(Clone, Copy, Debug, Default, PartialEq, Eq)]
pub struct Rates(pub [u32; 6]);

/// What a book says beside its image and journal, and is kept with them: how many bytes of them count, and what the
/// routine costs. Of a book that was opened they are true, and stay so with every call.
///
/// Any numbers can be handed to [`Book::resume`](crate::Book::resume), and no call trusts them. Whether `written`,
/// `used` and `walk` fit image and journal is tested by each, which else refuses 13. `rates` and `sum` are not compared
/// with the routine, since that takes a pass over it: an edit or an undo changes the sum by what the instructions cost
/// that come or go, and is refused 13, after all its other refusals, where the sum is less than what is to be subtracted
/// or would pass 2^64 - 1.
#[repr(C)]
#[derive(Clone, Copy, Debug, Default, PartialEq, Eq)]
pub struct Numbers {
    /// Bytes of the image that are the routine's written form. The rest of the image is 0.
    pub written: u64,
    /// Bytes of the journal that are used.
    pub used: u64,
    /// The rates that the routine was opened at: they stay until another opening.
    pub rates: Rates,
    /// What the routine's instructions cost at these rates, in hundredths of a cent.
    pub sum: u64,
    /// 0 where no walk is open; else 1 more than the place, from 0, of the block that it hands out next. That place is
    /// at most the number of blocks, where it is the end that is due.
    pub walk: u64,
}

impl Numbers {
    /// The sum in whole cents, rounded up.
    pub fn cents(&self) -> u64 {
        // Not (sum + 99) / 100: any number can be handed in as a sum, and the largest would wrap.
        self.sum.div_ceil(100)
    }
}

#[repr(C)]
pub struct Answer {
    pub refusal: u64,
    pub book: Numbers,
}

#[repr(C)]
#[derive(Debug, PartialEq)]
pub struct WalkAnswer {
    pub refusal: u64,
    pub book: Numbers,
    pub offset: u64,
    pub length: u64,
}

#[repr(C)]
#[derive(Debug, PartialEq)]
pub struct RunAnswer {
    pub refusal: u64,
    pub last: u64,
    pub book: Numbers,
    pub offset: u64,
    pub length: u64,
}

#[repr(C)]
#[derive(Clone, Copy, Default)]
pub struct ImmediateDesc {
    pub value: u64,
    pub bit_count: u32,
}

#[repr(C)]
#[derive(Clone, Copy, Debug, Default)]
pub struct RegisterDesc {
    pub flags: u64,
    pub combined_id: u64,
    pub bit_count: i32,
    pub bit_offset: i32,
}

#[repr(C)]
#[derive(Clone, Copy, Default)]
pub struct OperandDesc {
    pub kind: u32,
    pub immediate: ImmediateDesc,
    pub register_desc: RegisterDesc,
}

#[repr(C)]
#[derive(Clone, Copy, Default)]
pub struct InstructionDesc {
    pub op: u32,
    pub count: u32,
    pub operands: [OperandDesc; 3],
    pub vip: u64,
    pub sp_offset: i64,
    pub sp_index: u32,
    pub sp_reset: u8,
}

#[repr(C)]
#[derive(Clone, Copy, Debug)]
pub struct RoutineRead {
    pub refusal: u64,
    pub end: u64,
    pub arch_id: u64,
    pub vip: u64,
    pub conventions_at: u64,
    pub spec_conventions: u64,
    pub blocks_at: u64,
    pub blocks: u64,
}

#[repr(C)]
#[derive(Clone, Copy, Debug)]
pub struct ConventionRead {
    pub refusal: u64,
    pub end: u64,
    pub frame_register: RegisterDesc,
    pub shadow_space: u64,
    pub purge_stack: u64,
    pub volatile_at: u64,
    pub volatile_registers: u64,
    pub param_at: u64,
    pub param_registers: u64,
    pub retval_at: u64,
    pub retval_registers: u64,
}

#[repr(C)]
pub struct RegisterRead {
    pub refusal: u64,
    pub end: u64,
    pub register_desc: RegisterDesc,
}

#[repr(C)]
#[derive(Clone, Copy, Debug)]
pub struct BlockRead {
    pub refusal: u64,
    pub end: u64,
    pub vip: u64,
    pub sp_offset: i64,
    pub sp_index: u32,
    pub last_temporary_index: u32,
    pub instructions_at: u64,
    pub instructions: u64,
    pub prev_at: u64,
    pub prev_vips: u64,
    pub next_at: u64,
    pub next_vips: u64,
}

#[repr(C)]
pub struct InstructionRead {
    pub refusal: u64,
    pub end: u64,
    pub instruction: InstructionDesc,
}

#[repr(C)]
pub struct VipRead {
    pub refusal: u64,
    pub end: u64,
    pub vip: u64,
}

#[repr(C)]
pub struct RoutineLook {
    pub refusal: u64,
    pub arch_id: u64,
    pub vip: u64,
    pub spec_conventions: u64,
    pub blocks: u64,
}

#[repr(C)]
pub struct BlockLook {
    pub refusal: u64,
    pub vip: u64,
    pub sp_offset: i64,
    pub sp_index: u32,
    pub last_temporary_index: u32,
    pub instructions: u64,
    pub prev_vips: u64,
    pub next_vips: u64,
}

#[repr(C)]
pub struct InstructionLook {
    pub refusal: u64,
    pub instruction: InstructionDesc,
}

#[repr(C)]
pub struct VipLook {
    pub refusal: u64,
    pub vip: u64,
}

#[repr(C)]
pub struct ConventionLook {
    pub refusal: u64,
    pub frame_register: RegisterDesc,
    pub shadow_space: u64,
    pub purge_stack: u64,
    pub volatile_registers: u64,
    pub param_registers: u64,
    pub retval_registers: u64,
}

#[repr(C)]
pub struct RegisterLook {
    pub refusal: u64,
    pub register_desc: RegisterDesc,
}

#[repr(C)]
pub struct ChargeLook {
    pub refusal: u64,
    pub cents: u64,
}

#[repr(C)]
#[derive(Debug, PartialEq)]
pub struct Written {
    pub refusal: u64,
    pub size: u64,
}

// The kinds of calls in a list, as enum vtil_call has them.
pub const CREATE: u64 = 0;
pub const REMOVE: u64 = 1;
pub const APPEND: u64 = 2;
pub const UNDO: u64 = 3;
pub const WALK_START: u64 = 4;
pub const WALK_NEXT: u64 = 5;
pub const WALK_ABANDON: u64 = 6;

// The sizes that host/tests/header.sh holds the header to.
const _: () = {
    assert!(size_of::<Rates>() == 24);
    assert!(size_of::<Numbers>() == 56);
    assert!(size_of::<Answer>() == 64);
    assert!(size_of::<WalkAnswer>() == 80);
    assert!(size_of::<RunAnswer>() == 88);
    assert!(size_of::<ImmediateDesc>() == 16);
    assert!(size_of::<RegisterDesc>() == 24);
    assert!(size_of::<OperandDesc>() == 48);
    assert!(size_of::<InstructionDesc>() == 176);
    assert!(size_of::<RoutineRead>() == 64);
    assert!(size_of::<ConventionRead>() == 104);
    assert!(size_of::<RegisterRead>() == 40);
    assert!(size_of::<BlockRead>() == 88);
    assert!(size_of::<InstructionRead>() == 192);
    assert!(size_of::<VipRead>() == 24);
    assert!(size_of::<RoutineLook>() == 40);
    assert!(size_of::<BlockLook>() == 56);
    assert!(size_of::<InstructionLook>() == 184);
    assert!(size_of::<VipLook>() == 16);
    assert!(size_of::<ConventionLook>() == 72);
    assert!(size_of::<RegisterLook>() == 32);
    assert!(size_of::<ChargeLook>() == 16);
    assert!(size_of::<Written>() == 16);
};

extern "C" {
    pub fn vtil_check(file: *const u8, file_len: usize) -> i64;
    pub fn vtil_read_routine(file: *const u8, file_len: usize) -> RoutineRead;
    pub fn vtil_read_convention(file: *const u8, file_len: usize, at: u64) -> ConventionRead;
    pub fn vtil_read_register(file: *const u8, file_len: usize, at: u64) -> RegisterRead;
    pub fn vtil_read_block(file: *const u8, file_len: usize, at: u64) -> BlockRead;
    pub fn vtil_read_instruction(file: *const u8, file_len: usize, at: u64) -> InstructionRead;
    pub fn vtil_read_vip(file: *const u8, file_len: usize, at: u64) -> VipRead;
    pub fn vtil_open(
        file: *const u8,
        file_len: usize,
        image: *mut u8,
        image_len: usize,
        journal: *mut u8,
        journal_len: usize,
        rates: Rates,
    ) -> Answer;
    pub fn vtil_write_instruction(value: InstructionDesc, image: *mut u8, image_len: usize) -> Written;
    pub fn vtil_routine(
        book: Numbers,
        image: *const u8,
        image_len: usize,
        journal: *const u8,
        journal_len: usize,
    ) -> RoutineLook;
    pub fn vtil_block(
        book: Numbers,
        image: *const u8,
        image_len: usize,
        journal: *const u8,
        journal_len: usize,
        place: u64,
    ) -> BlockLook;
    pub fn vtil_instruction(
        book: Numbers,
        image: *const u8,
        image_len: usize,
        journal: *const u8,
        journal_len: usize,
        block: u64,
        place: u64,
    ) -> InstructionLook;
    pub fn vtil_block_vip(
        book: Numbers,
        image: *const u8,
        image_len: usize,
        journal: *const u8,
        journal_len: usize,
        block: u64,
        list: u64,
        place: u64,
    ) -> VipLook;
    pub fn vtil_convention(
        book: Numbers,
        image: *const u8,
        image_len: usize,
        journal: *const u8,
        journal_len: usize,
        place: u64,
    ) -> ConventionLook;
    pub fn vtil_convention_register(
        book: Numbers,
        image: *const u8,
        image_len: usize,
        journal: *const u8,
        journal_len: usize,
        convention: u64,
        list: u64,
        place: u64,
    ) -> RegisterLook;
    pub fn vtil_charge(
        book: Numbers,
        image: *const u8,
        image_len: usize,
        journal: *const u8,
        journal_len: usize,
        rates: Rates,
    ) -> ChargeLook;
    pub fn vtil_create_block(
        book: Numbers,
        image: *mut u8,
        image_len: usize,
        journal: *mut u8,
        journal_len: usize,
        vip: u64,
    ) -> Answer;
    pub fn vtil_remove_block(
        book: Numbers,
        image: *mut u8,
        image_len: usize,
        journal: *mut u8,
        journal_len: usize,
        vip: u64,
    ) -> Answer;
    pub fn vtil_append(
        book: Numbers,
        image: *mut u8,
        image_len: usize,
        journal: *mut u8,
        journal_len: usize,
        vip: u64,
        instruction: *const u8,
        instruction_len: usize,
    ) -> Answer;
    pub fn vtil_undo(book: Numbers, image: *mut u8, image_len: usize, journal: *mut u8, journal_len: usize) -> Answer;
    pub fn vtil_walk_start(
        book: Numbers,
        image: *const u8,
        image_len: usize,
        journal: *const u8,
        journal_len: usize,
    ) -> Answer;
    pub fn vtil_walk_next(
        book: Numbers,
        image: *const u8,
        image_len: usize,
        journal: *const u8,
        journal_len: usize,
    ) -> WalkAnswer;
    pub fn vtil_walk_abandon(
        book: Numbers,
        image: *const u8,
        image_len: usize,
        journal: *const u8,
        journal_len: usize,
    ) -> Answer;
    pub fn vtil_outside_copy(
        book: Numbers,
        image: *const u8,
        image_len: usize,
        journal: *const u8,
        journal_len: usize,
        copy: *mut u8,
        copy_len: usize,
    ) -> Written;
    pub fn vtil_run(
        file: *const u8,
        file_len: usize,
        image: *mut u8,
        image_len: usize,
        journal: *mut u8,
        journal_len: usize,
        words: *const u64,
        words_len: usize,
        bytes: *const u8,
        bytes_len: usize,
        rates: Rates,
    ) -> RunAnswer;
    pub fn vtil_run_on(
        book: Numbers,
        image: *mut u8,
        image_len: usize,
        journal: *mut u8,
        journal_len: usize,
        words: *const u64,
        words_len: usize,
        bytes: *const u8,
        bytes_len: usize,
    ) -> RunAnswer;
}
