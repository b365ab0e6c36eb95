// The register numbers that src/pod.rs names. The published files do not have their values; no file's bytes depend on
// them, so they are simply counted up.

pub(crate) mod amd64 {
    pub(crate) const X86_REG_RAX: u64 = 0;
    pub(crate) const X86_REG_RBX: u64 = 1;
    pub(crate) const X86_REG_RCX: u64 = 2;
    pub(crate) const X86_REG_RDX: u64 = 3;
    pub(crate) const X86_REG_RDI: u64 = 4;
    pub(crate) const X86_REG_RSI: u64 = 5;
    pub(crate) const X86_REG_RBP: u64 = 6;
    pub(crate) const X86_REG_RSP: u64 = 7;
    pub(crate) const X86_REG_R8: u64 = 8;
    pub(crate) const X86_REG_R9: u64 = 9;
    pub(crate) const X86_REG_R10: u64 = 10;
    pub(crate) const X86_REG_R11: u64 = 11;
    pub(crate) const X86_REG_R12: u64 = 12;
    pub(crate) const X86_REG_R13: u64 = 13;
    pub(crate) const X86_REG_R14: u64 = 14;
    pub(crate) const X86_REG_R15: u64 = 15;
    pub(crate) const X86_REG_EFLAGS: u64 = 16;
    pub(crate) const REGISTER_NAME_MAPPING: [&str; 17] = [
        "rax",
        "rbx",
        "rcx",
        "rdx",
        "rdi",
        "rsi",
        "rbp",
        "rsp",
        "r8",
        "r9",
        "r10",
        "r11",
        "r12",
        "r13",
        "r14",
        "r15",
        "eflags",
    ];
}

pub(crate) mod arm64 {
    pub(crate) const ARM64_REG_X0: u64 = 0;
    pub(crate) const ARM64_REG_X1: u64 = 1;
    pub(crate) const ARM64_REG_X2: u64 = 2;
    pub(crate) const ARM64_REG_X3: u64 = 3;
    pub(crate) const ARM64_REG_X4: u64 = 4;
    pub(crate) const ARM64_REG_X5: u64 = 5;
    pub(crate) const ARM64_REG_X6: u64 = 6;
    pub(crate) const ARM64_REG_X7: u64 = 7;
    pub(crate) const ARM64_REG_X8: u64 = 8;
    pub(crate) const ARM64_REG_X9: u64 = 9;
    pub(crate) const ARM64_REG_X10: u64 = 10;
    pub(crate) const ARM64_REG_X11: u64 = 11;
    pub(crate) const ARM64_REG_X12: u64 = 12;
    pub(crate) const ARM64_REG_X13: u64 = 13;
    pub(crate) const ARM64_REG_X14: u64 = 14;
    pub(crate) const ARM64_REG_X15: u64 = 15;
    pub(crate) const ARM64_REG_X16: u64 = 16;
    pub(crate) const ARM64_REG_X17: u64 = 17;
    pub(crate) const ARM64_REG_X18: u64 = 18;
    pub(crate) const ARM64_REG_X19: u64 = 19;
    pub(crate) const ARM64_REG_X20: u64 = 20;
    pub(crate) const ARM64_REG_X21: u64 = 21;
    pub(crate) const ARM64_REG_X22: u64 = 22;
    pub(crate) const ARM64_REG_X23: u64 = 23;
    pub(crate) const ARM64_REG_X24: u64 = 24;
    pub(crate) const ARM64_REG_X25: u64 = 25;
    pub(crate) const ARM64_REG_X26: u64 = 26;
    pub(crate) const ARM64_REG_X27: u64 = 27;
    pub(crate) const ARM64_REG_X28: u64 = 28;
    pub(crate) const ARM64_REG_X29: u64 = 29;
    pub(crate) const ARM64_REG_X30: u64 = 30;
    pub(crate) const ARM64_REG_XZR: u64 = 31;
    pub(crate) const ARM64_REG_SP: u64 = 32;
    pub(crate) const ARM64_REG_NZCV: u64 = 33;
    pub(crate) const REGISTER_NAME_MAPPING: [&str; 34] = [
        "x0",
        "x1",
        "x2",
        "x3",
        "x4",
        "x5",
        "x6",
        "x7",
        "x8",
        "x9",
        "x10",
        "x11",
        "x12",
        "x13",
        "x14",
        "x15",
        "x16",
        "x17",
        "x18",
        "x19",
        "x20",
        "x21",
        "x22",
        "x23",
        "x24",
        "x25",
        "x26",
        "x27",
        "x28",
        "x29",
        "x30",
        "xzr",
        "sp",
        "nzcv",
    ];
}
