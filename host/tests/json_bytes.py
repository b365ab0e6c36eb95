"""Reads what `routine show --json` printed and writes the routine's bytes, by the layouts of samples/make.py."""

import json
import os
import sys

sys.path.insert(0, os.path.join(os.path.dirname(os.path.abspath(__file__)), "..", "..", "samples"))
sys.dont_write_bytecode = True
import make  # noqa: E402


def number(text):
    return int(text, 0)


def fields(reg):
    return number(reg["flags"]), number(reg["id"]), reg["bit_count"], reg["bit_offset"]


def registers(convention, which):
    return [make.register(*fields(reg)) for reg in convention[which + "_registers"]]


def convention(c):
    return make.convention(registers(c, "volatile"), registers(c, "param"), registers(c, "retval"),
                           make.register(*fields(c["frame_register"])), number(c["shadow_space"]), int(c["purge_stack"]))


def operand(o):
    if o["kind"] == "register":
        return make.reg(*fields(o))
    return make.imm(number(o["value"]), o["bit_count"])


def instruction(i):
    assert make.OPERATIONS[i["op"]] == (i["name"], len(i["operands"]))
    return make.instruction(i["name"], *map(operand, i["operands"]), vip=number(i["vip"]), sp_offset=number(i["sp_offset"]),
                            sp_index=i["sp_index"], sp_reset=int(i["sp_reset"]))


def block(b):
    return make.block(number(b["vip"]), list(map(instruction, b["instructions"])), list(map(number, b["prev_vips"])),
                      list(map(number, b["next_vips"])), number(b["sp_offset"]), b["sp_index"], b["last_temporary_index"])


def routine(r):
    own, sub, *special = map(convention, r["conventions"])
    made = make.routine(make.header(r["machine"]), number(r["entry_vip"]), own, sub, special, list(map(block, r["blocks"])))
    assert r["written"] == len(made)
    assert r["machine_name"] == ["Amd64", "Arm64", "Virtual"][r["machine"]]
    return made


sys.stdout.buffer.write(routine(json.load(sys.stdin)))
