//! What looking at a routine answers.

use crate::value::{Register, Vip};

/// What a routine is as a whole.
#[derive(Clone, Copy, Debug, PartialEq, Eq)]
pub struct Overview {
    /// 0 Amd64, 1 Arm64, 2 Virtual.
    pub machine: u64,
    pub entry_vip: Vip,
    /// How many there are beside the routine's and the subroutine's.
    pub special_conventions: u64,
    pub blocks: u64,
}

/// A block's numbers, and how many it has of instructions and links.
#[derive(Clone, Copy, Debug, PartialEq, Eq)]
pub struct Block {
    pub vip: Vip,
    pub sp_offset: i64,
    pub sp_index: u32,
    pub last_temporary_index: u32,
    pub instructions: u64,
    pub prev_vips: u64,
    pub next_vips: u64,
}

/// A convention's fields, and how many registers are in its lists.
#[derive(Clone, Copy, Debug, PartialEq, Eq)]
pub struct Convention {
    pub frame_register: Register,
    pub shadow_space: u64,
    pub purge_stack: bool,
    pub volatile_registers: u64,
    pub param_registers: u64,
    pub retval_registers: u64,
}

/// A block's lists of vips.
#[derive(Clone, Copy, Debug, PartialEq, Eq)]
pub enum Links {
    Prev = 0,
    Next = 1,
}

/// A convention's lists of registers.
#[derive(Clone, Copy, Debug, PartialEq, Eq)]
pub enum Registers {
    Volatile = 0,
    Param = 1,
    Retval = 2,
}
