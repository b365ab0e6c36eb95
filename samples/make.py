#!/usr/bin/env python3
"""Makes the sample files in this folder.

    python3 samples/make.py           write every sample
    python3 samples/make.py --check   compare the files that are there; status 1 if any differs

The bytes are put together field by field from the layouts of docs/SPEC.md; the
functions below are named after them. All fields are little-endian. Nothing is
random, so every run writes the same bytes.

The damaged samples have one fault each, in a file that is otherwise whole. What
`routine check` says of every sample stands in samples/EXPECTED.
"""

import os
import struct
import sys

HERE = os.path.dirname(os.path.abspath(__file__))

MARK_1 = 0x4C495456
MARK_2 = 0xDEAD
AMD64, ARM64, VIRTUAL = 0, 1, 2

# The 49 operations in their order, with their operand counts.
OPERATIONS = [
    ("mov", 2), ("movsx", 2), ("str", 3), ("ldd", 3), ("neg", 1), ("add", 2), ("sub", 2),
    ("mul", 2), ("mulhi", 2), ("imul", 2), ("imulhi", 2), ("div", 3), ("rem", 3),
    ("idiv", 3), ("irem", 3), ("popcnt", 1), ("bsf", 1), ("bsr", 1), ("not", 1),
    ("shr", 2), ("shl", 2), ("xor", 2), ("or", 2), ("and", 2), ("ror", 2), ("rol", 2),
    ("tg", 3), ("tge", 3), ("te", 3), ("tne", 3), ("tl", 3), ("tle", 3), ("tug", 3),
    ("tuge", 3), ("tul", 3), ("tule", 3), ("ifs", 3), ("js", 3), ("jmp", 1),
    ("vexit", 1), ("vxcall", 1), ("nop", 0), ("sfence", 0), ("lfence", 0), ("vemit", 1),
    ("vpinr", 1), ("vpinw", 1), ("vpinrm", 3), ("vpinwm", 3),
]


# Layouts ---------------------------------------------------------------------

def u8(n):
    return struct.pack("<B", n)


def u16(n):
    return struct.pack("<H", n)


def u32(n):
    return struct.pack("<I", n)


def u64(n):
    return struct.pack("<Q", n)


def i32(n):
    return struct.pack("<i", n)


def i64(n):
    return struct.pack("<q", n)


def counted(parts):
    return u32(len(parts)) + b"".join(parts)


def header(machine=VIRTUAL, pad=0, mark_1=MARK_1, mark_2=MARK_2):
    return u32(mark_1) + u8(machine) + u8(pad) + u16(mark_2)


def register(flags=0, id=0, width=0, offset=0):
    return u64(flags) + u64(id) + i32(width) + i32(offset)


def immediate(value, width=64):
    return u64(value) + u32(width)


def imm(value, width=64):
    """An operand of kind 0."""
    return u32(0) + immediate(value, width)


def reg(*fields):
    """An operand of kind 1."""
    return u32(1) + register(*fields)


def instruction(name, *operands, vip=0, sp_offset=0, sp_index=0, sp_reset=0, count=None):
    if isinstance(name, str):
        name = name.encode()
    if count is None:
        count = len(operands)
    return (u32(len(name)) + name + u32(count) + b"".join(operands)
            + u64(vip) + i64(sp_offset) + u32(sp_index) + u8(sp_reset))


def convention(volatile=(), param=(), retval=(), frame=register(), shadow=0, purge=0):
    return counted(volatile) + counted(param) + counted(retval) + frame + u64(shadow) + u8(purge)


def block(vip, instructions=(), prev=(), next=(), sp_offset=0, sp_index=0, last_temporary=0):
    return (u64(vip) + i64(sp_offset) + u32(sp_index) + u32(last_temporary) + counted(instructions)
            + counted([u64(v) for v in prev]) + counted([u64(v) for v in next]))


def routine(head=header(), entry=0, own=convention(), sub=convention(), special=(), blocks=()):
    return head + u64(entry) + own + sub + counted(special) + counted(blocks)


# Samples ---------------------------------------------------------------------

RAX = (1, 0x23, 64, 0)                      # flags 1: a physical register
RCX = (1, 0x26, 64, 0)
X0 = (1, 0x01000000000000C7, 64, 0)         # the id's top byte is the machine
TEMPORARY = (2, 0x0200000000000005, 32, 8)  # flags 2: local to its block
STACK = (9, 0, 64, 0)


def minimal():
    """The smallest routine: a header of machine 2 and 106 zeros, 114 bytes."""
    return routine()


def odd_flags():
    """Accepted though it is not in written form: pad 255, purge 7, sp reset 2."""
    return routine(head=header(pad=255), own=convention(purge=7),
                   blocks=[block(5, [instruction("nop", sp_reset=2)])])


def blocks():
    """Three linked blocks, registers and immediates, and two special conventions."""
    start = block(0x1000, [
        instruction("mov", reg(*RAX), imm(0x1122334455667788), vip=0x1000),
        instruction("str", reg(*STACK), imm(8), reg(*TEMPORARY), vip=0x1004, sp_offset=-8, sp_index=1),
        instruction("te", reg(*TEMPORARY), reg(*RAX), imm(0, 32), vip=0x1009),
        instruction("js", reg(*TEMPORARY), imm(0x1010), imm(0x1020), vip=0x100D, sp_reset=1),
    ], next=[0x1010, 0x1020], last_temporary=6)
    middle = block(0x1010, [
        instruction("neg", reg(*RCX), vip=0x1010),
        instruction("sfence", vip=0x1012),
        instruction("jmp", imm(0x1020), vip=0x1014),
    ], prev=[0x1000], next=[0x1020], sp_offset=-16, sp_index=2)
    end = block(0x1020, [
        instruction("vxcall", reg(*X0), vip=0x1020),
        instruction("vexit", imm(2**64 - 1), vip=2**64 - 1, sp_offset=-2**63, sp_index=2**32 - 1),
    ], prev=[0x1010, 0x1000])
    own = convention([register(*RAX), register(*RCX)], [register(*RCX)], [register(*RAX)],
                     register(*STACK), 32, 1)
    special = [convention(), convention(param=[register(*X0)], shadow=2**64 - 1, purge=1)]
    return routine(header(AMD64), 0x1000, own, convention(retval=[register(*RAX)]), special,
                   [start, middle, end])


def all_operations():
    """One block with each of the 49 operations, its operands registers and immediates in turn."""
    places = [reg(*TEMPORARY), imm(7, 8), reg(*RAX)]
    return routine(header(ARM64), 1, blocks=[
        block(1, [instruction(name, *places[:count], vip=number)
                  for number, (name, count) in enumerate(OPERATIONS)])])


def trailing():
    """The smallest routine, then 16 bytes that are no part of it."""
    return minimal() + b"not the routine."


def with_instruction(*parts, **fields):
    """A routine whose second of three instructions is the given one."""
    good = instruction("nop")
    return routine(blocks=[block(1, [good, instruction(*parts, **fields), good])])


def short_file():
    """1: the smallest routine without its last byte."""
    return minimal()[:-1]


def name_not_text():
    """2: a name of one byte, FF, which is in no UTF-8 text."""
    return with_instruction(b"\xff")


def wrong_mark():
    """3: the second mark is DEAE."""
    return routine(head=header(mark_2=0xDEAE))


def unknown_machine():
    """4: machine 3."""
    return routine(head=header(machine=3))


def foreign_register():
    """5: a register id whose top byte is 3."""
    return routine(own=convention(param=[register(1, 0x0300000000000000, 64, 0)]))


def unknown_operand_kind():
    """6: an operand of kind 2."""
    return with_instruction("jmp", u32(2) + immediate(0x1010))


def unknown_operation():
    """7: the name zzz."""
    return with_instruction("zzz")


def wrong_operand_count():
    """8: nop with one operand."""
    return with_instruction("nop", imm(0))


def repeated_block():
    """9: the first and the last of three blocks share vip 5."""
    return routine(blocks=[block(5), block(6), block(5)])


SAMPLES = [
    all_operations, blocks, foreign_register, minimal, name_not_text, odd_flags, repeated_block,
    short_file, trailing, unknown_machine, unknown_operand_kind, unknown_operation, wrong_mark,
    wrong_operand_count,
]


def file_name(sample):
    return sample.__name__.replace("_", "-") + ".vtil"


def check():
    """Names what is not as it would be written; answers the exit status."""
    wrong = {name for name in os.listdir(HERE) if name.endswith(".vtil")}
    for sample in SAMPLES:
        path = os.path.join(HERE, file_name(sample))
        if os.path.exists(path) and open(path, "rb").read() == sample():
            wrong.discard(file_name(sample))
        else:
            wrong.add(file_name(sample))
    for name in sorted(wrong):
        print(f"samples/{name} is not what samples/make.py makes", file=sys.stderr)
    return 1 if wrong else 0


def write():
    for sample in SAMPLES:
        with open(os.path.join(HERE, file_name(sample)), "wb") as out:
            out.write(sample())
    return 0


def main(words):
    if words == ["--check"]:
        return check()
    if words:
        print(__doc__, file=sys.stderr)
        return 2
    return write()


if __name__ == "__main__":
    sys.exit(main(sys.argv[1:]))
